//! What the proved calls say of a job file, and what the second reader adds to it.
use crate::{list, plan, Counts, Entry, JobError, Refusal, Rule, LISTING_LEN, PLAN_LEN};
use dapohiru_second::job::Job;
use dapohiru_second::reading;

/// The plan that planning writes, a byte for each node, with what it counts.
pub fn planned(file: &[u8], work: &mut [u8]) -> Result<(Vec<u8>, Counts), Refusal> {
    // planning writes a byte, 0 or 1, for each node and no others
    const UNWRITTEN: u8 = 255;
    let mut bytes = vec![UNWRITTEN; PLAN_LEN];
    let counts = plan(file, work, &mut bytes)?;
    bytes.retain(|&byte| byte != UNWRITTEN);
    Ok((bytes, counts))
}

/// A point of a job: its node and its symbol.
pub type NodeAndSymbol = (usize, u64);

/// The points of a job in number order, from the W lines of its listing.
pub fn points(file: &[u8], work: &mut [u8]) -> Result<Vec<NodeAndSymbol>, Refusal> {
    let mut listing = vec![0; LISTING_LEN];
    let len = list(file, work, &mut listing)?;
    listing.truncate(len);
    let lines = listing.split(|&byte| byte == b'\n');
    Ok(lines.filter_map(point).collect())
}

/// The point of a W line: its first two fields.
fn point(line: &[u8]) -> Option<NodeAndSymbol> {
    let fields = line.strip_prefix(b"W")?;
    let mut numbers = fields.chunks_exact(6).map(reading::number);
    let node = usize::try_from(numbers.next()??).ok()?;
    Some((node, numbers.next()??))
}

/// The entries of a file that the proved calls accept, as the second reader has them. It must read the same
/// rule, as many nodes and the same points.
pub fn entries(
    file: &[u8],
    rule: &Rule,
    nodes: usize,
    points: &[NodeAndSymbol],
) -> Result<Vec<Entry>, JobError> {
    let job = reading::job(file).map_err(JobError::SecondReaderRefuses)?;
    if let Some(part) = difference(&job, rule, nodes, points) {
        return Err(JobError::SecondReaderDiffers(part));
    }
    let nodes = job.nodes.iter().enumerate();
    let entries = nodes.filter(|(_, node)| node.entry != 0);
    Ok(entries
        .map(|(node, of)| Entry {
            node,
            admitted: of.entry,
        })
        .collect())
}

/// The part of a job in which the second reader differs from the proved calls.
fn difference(
    job: &Job,
    rule: &Rule,
    nodes: usize,
    points: &[NodeAndSymbol],
) -> Option<&'static str> {
    let symbol = |node: usize| job.nodes.get(node).map(|of| (node, of.value));
    let points_read: Vec<_> = job.points().into_iter().filter_map(symbol).collect();
    match () {
        _ if !is_rule_of(job, rule) => Some("rule"),
        _ if job.nodes.len() != nodes => Some("nodes"),
        _ if points_read != points => Some("points"),
        _ => None,
    }
}

/// Whether the second reader reads this rule.
fn is_rule_of(job: &Job, rule: &Rule) -> bool {
    let sizes = (job.states() as u64, job.symbols, job.final_set());
    let same = |(cell, &next): (&u8, &u64)| u64::from(*cell) == next;
    let mut rows = rule.table.chunks_exact(16).zip(&job.next);
    sizes == (rule.states, rule.symbols, rule.finals)
        && rows.all(|(row, next)| row.iter().zip(next).all(same))
}

#[cfg(test)]
mod tests {
    use super::*;
    use dapohiru_generators::samples::pair;

    /// What the proved calls say of PAIR.
    fn of_pair() -> (Rule, usize, Vec<NodeAndSymbol>) {
        let mut table = [0; 256];
        table[..3].copy_from_slice(&[1, 0, 0]);
        table[16..19].copy_from_slice(&[1, 0, 2]);
        table[32..35].copy_from_slice(&[1, 0, 2]);
        let rule = Rule {
            table,
            states: 3,
            symbols: 3,
            finals: 0b100,
        };
        (rule, 3, vec![(0, 0), (1, 0), (2, 2)])
    }

    /// The entries of PAIR beside what proved calls could say of it.
    fn entries_beside(
        change: impl FnOnce(&mut Rule, &mut usize, &mut Vec<NodeAndSymbol>),
    ) -> Result<Vec<Entry>, JobError> {
        let (mut rule, mut nodes, mut points) = of_pair();
        change(&mut rule, &mut nodes, &mut points);
        entries(&pair().file(), &rule, nodes, &points)
    }

    #[test]
    fn second_reader_that_agrees_gives_the_entries() {
        let wanted = vec![Entry {
            node: 0,
            admitted: 1,
        }];
        assert_eq!(entries_beside(|_, _, _| {}), Ok(wanted));
    }

    #[test]
    fn second_reader_that_differs_is_an_error_that_names_the_part() {
        let differs = |part| Err(JobError::SecondReaderDiffers(part));
        for place in [0, 2, 17, 34] {
            let beside = entries_beside(|rule, _, _| rule.table[place] ^= 1);
            assert_eq!(beside, differs("rule"), "place {place}");
        }
        assert_eq!(
            entries_beside(|rule, _, _| rule.states = 4),
            differs("rule")
        );
        assert_eq!(
            entries_beside(|rule, _, _| rule.symbols = 2),
            differs("rule")
        );
        assert_eq!(
            entries_beside(|rule, _, _| rule.finals = 2),
            differs("rule")
        );
        for others in [0, 2, 4] {
            let beside = entries_beside(|_, nodes, _| *nodes = others);
            assert_eq!(beside, differs("nodes"), "{others} nodes");
        }
        assert_eq!(
            entries_beside(|_, _, points| points[1].1 = 1),
            differs("points")
        );
        assert_eq!(
            entries_beside(|_, _, points| points[0].0 = 1),
            differs("points")
        );
        assert_eq!(
            entries_beside(|_, _, points| points.truncate(2)),
            differs("points")
        );
        assert_eq!(
            entries_beside(|_, _, points| points.push((3, 0))),
            differs("points")
        );
    }

    #[test]
    fn second_reader_that_refuses_is_an_error_with_its_number() {
        let (rule, nodes, points) = of_pair();
        let refused = entries(b"J", &rule, nodes, &points);
        assert_eq!(refused, Err(JobError::SecondReaderRefuses(4)));
        assert_eq!(
            refused.unwrap_err().to_string(),
            "the library accepts the file, and the second reader refuses it as 4"
        );
    }

    #[test]
    fn line_that_is_no_w_line_has_no_point() {
        let whole = b"W     7    11     1     1     1     0";
        assert_eq!(point(whole), Some((7, 11)));
        for line in [
            &b""[..],
            b"W",
            b"T     3     2     2",
            b"W     7",
            b"W     7   11",
            b"W     x    11",
            b"W     7     x",
            b"w     7    11",
        ] {
            assert_eq!(point(line), None, "{}", line.escape_ascii());
        }
    }
}
