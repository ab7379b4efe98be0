//! What a plan costs, point by point, beside what all points watched would cost.
use crate::explain::plan_word;
use crate::names::Names;
use crate::table::{table, Side, LEAST};
use crate::tariff::Tariff;

/// A point, and what its events cost.
pub struct Point {
    pub node: usize,
    pub symbol: usize,
    /// Its events a day.
    pub volume: u64,
    /// Cents per thousand events.
    pub rate: u64,
    pub watched: bool,
}

/// The points of a job under a plan, with the prices of the proved call, in cents a day.
pub struct Bill<'a> {
    pub points: Vec<Point>,
    /// Of the plan.
    pub price: u64,
    /// Of all points watched.
    pub full: u64,
    /// The prices that both go by.
    pub tariff: &'a Tariff,
}

/// Cents as what is paid a day, and as money with two decimals.
pub fn a_day(cents: u64) -> String {
    let noun = if cents == 1 { "cent" } else { "cents" };
    format!("{cents} {noun} a day, {}.{:02}", cents / 100, cents % 100)
}

/// Thousandths of a cent as cents, with all their decimals.
fn unrounded(thousandths: u64) -> String {
    format!("{}.{:03}", thousandths / 1000, thousandths % 1000)
}

impl Point {
    /// What its events cost a day under the plan, and watched, in thousandths of a cent.
    fn costs(&self) -> [u64; 2] {
        let watched = self.volume * self.rate;
        [if self.watched { watched } else { 0 }, watched]
    }

    fn row(&self, names: &Names) -> [String; 7] {
        let [cost, watched] = self.costs().map(unrounded);
        [
            names.node(self.node),
            names.symbol(self.symbol),
            self.volume.to_string(),
            self.rate.to_string(),
            plan_word(self.watched).to_string(),
            cost,
            watched,
        ]
    }
}

impl Bill<'_> {
    /// A table of the points and their sums, and in words the prices and what the plan saves; or that the
    /// sums are not what the proved call says.
    pub fn explained(&self, names: &Names) -> Result<String, String> {
        let costs = self.points.iter().map(Point::costs);
        let sums = costs.fold([0, 0], |[under, full], [cost, watched]| {
            [under + cost, full + watched]
        });
        let (prices, found) = ([self.price, self.full], sums.map(|sum| sum.div_ceil(1000)));
        if found != prices {
            return Err(format!(
                "the library's prices are {} and {} cents, and the points add up to {} and {}: nothing can be shown of them",
                prices[0], prices[1], found[0], found[1]
            ));
        }
        let headings = [
            "node",
            "symbol",
            "volume",
            "cents per thousand",
            "plan",
            "cents a day",
            "all watched",
        ];
        let [under, full] = sums.map(unrounded);
        let mut rows = vec![headings.map(str::to_string)];
        rows.extend(self.points.iter().map(|point| point.row(names)));
        rows.push(["sum", "", "", "", "", &under, &full].map(str::to_string));
        let (name, left, right) = (Side::Name(LEAST), Side::Left, Side::Right);
        let nodes = names.node_side();
        let sides = [nodes, name, right, right, left, right, right];
        let words = format!(
            "\nA part of a cent counts as a cent once, in the sum.\n\
             {}The plan costs {}.\n\
             With all points watched it would be {}.\n\
             The plan saves {}.\n",
            self.tariff.words(),
            a_day(self.price),
            a_day(self.full),
            a_day(self.full - self.price)
        );
        Ok(table(sides, &rows) + &words)
    }
}

#[cfg(test)]
mod tests {
    use super::*;

    #[test]
    fn sums_that_differ_from_the_proved_prices_are_not_shown() {
        let names = Names::default();
        let bill = |price, full| {
            let point = |node, watched| Point {
                node,
                symbol: 0,
                volume: 1_001,
                rate: 20,
                watched,
            };
            let points = vec![point(0, true), point(1, false)];
            Bill {
                points,
                price,
                full,
                tariff: &Tariff::House,
            }
        };
        assert!(bill(21, 41).explained(&names).is_ok());
        for (price, full) in [(20, 41), (21, 42), (22, 41)] {
            let wrong = format!(
                "the library's prices are {price} and {full} cents, and the points add up to 21 and 41: nothing can be shown of them"
            );
            assert_eq!(bill(price, full).explained(&names), Err(wrong));
        }
    }
}
