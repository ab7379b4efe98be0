//! A listing, taken apart.
use crate::json::Json;
use dapohiru_second::job::members;

/// The numbers of the W lines and the T line.
#[derive(Default)]
pub struct Listing {
    pub points: Vec<Found>,
    pub totals: Totals,
}

/// What was found at a point: the numbers of a W line.
pub struct Found {
    pub node: usize,
    pub symbol: usize,
    pub before: u64,
    pub classes: usize,
    pub nop: bool,
    pub watched: bool,
}

/// The numbers of the T line.
#[derive(Default)]
pub struct Totals {
    pub points: usize,
    pub watched: usize,
    pub passes: usize,
}

impl Listing {
    /// The lines that the proved call wrote.
    pub fn of(lines: &[u8]) -> Self {
        let mut listing = Listing::default();
        for line in lines.split(|&byte| byte == b'\n') {
            match (line.first(), &numbers(line)[..]) {
                (Some(b'W'), &[node, symbol, before, classes, nop, watched]) => {
                    listing.points.push(Found {
                        node,
                        symbol,
                        before: before as u64,
                        classes,
                        nop: nop == 1,
                        watched: watched == 1,
                    });
                }
                (Some(b'T'), &[points, watched, passes]) => {
                    listing.totals = Totals {
                        points,
                        watched,
                        passes,
                    };
                }
                _ => {}
            }
        }
        listing
    }

    /// The points and the totals, as fields of a document.
    pub fn json(&self) -> Vec<(&'static str, Json)> {
        let Totals {
            points,
            watched,
            passes,
        } = self.totals;
        let totals = vec![
            ("points", Json::number(points)),
            ("watched", Json::number(watched)),
            ("passes", Json::number(passes)),
        ];
        vec![
            (
                "points",
                Json::List(self.points.iter().map(Found::json).collect()),
            ),
            ("totals", Json::Object(totals)),
        ]
    }
}

impl Found {
    fn json(&self) -> Json {
        let before = members(self.before).map(Json::number).collect();
        Json::Object(vec![
            ("node", Json::number(self.node)),
            ("symbol", Json::number(self.symbol)),
            ("before", Json::List(before)),
            ("classes", Json::number(self.classes)),
            ("nop", Json::Bool(self.nop)),
            ("watched", Json::Bool(self.watched)),
        ])
    }
}

/// The numbers after a line's letter.
fn numbers(line: &[u8]) -> Vec<usize> {
    let fields = line.get(1..).unwrap_or_default().chunks(6);
    let number = |field: &[u8]| std::str::from_utf8(field).ok()?.trim().parse().ok();
    fields.filter_map(number).collect()
}
