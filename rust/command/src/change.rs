//! An edge that is added to a job or dropped from it, and the file of the changed job.
use crate::args::Given;
use crate::events::decimal;
use crate::fault::Fault;
use crate::names::Names;
use crate::place::SIZES;
use crate::shown;
use dapohiru::{Arrivals, Refusal};
use dapohiru_second::job::Line;
use std::ffi::OsStr;
use std::ops::Range;

/// The options that ask for a change.
pub const OPTIONS: [&str; 2] = [ADD, "--drop"];
const ADD: &str = "--add";
/// Where the count of edges stands in a job file.
const COUNT: Range<usize> = 19..25;
/// The bytes of an F line.
const LINE: usize = 14;

/// An edge to add or to drop.
pub struct Change<'a> {
    pub option: &'static str,
    /// The edge as it was typed.
    typed: &'a OsStr,
    /// The nodes that it leaves and goes to, which the job may lack.
    ends: [usize; 2],
}

impl<'a> Change<'a> {
    /// The changes that are asked for, in their order.
    pub fn all(given: &'a Given) -> Result<Vec<Self>, String> {
        let changes = given.in_order(&OPTIONS).into_iter();
        changes
            .map(|(option, typed)| match ends(typed) {
                Some(ends) => Ok(Change {
                    option,
                    typed,
                    ends,
                }),
                None => Err(format!(
                    "edges: {option} is `{}`, and an edge is two nodes with a comma between them, such as 0,1",
                    shown::name(typed)
                )),
            })
            .collect()
    }

    /// Makes the change by the proved call.
    pub fn make(&self, arrivals: &mut Arrivals) -> Result<(), Refusal> {
        let [from, to] = self.ends;
        match self.option {
            ADD => arrivals.add(from, to),
            _ => arrivals.remove(from, to),
        }
    }

    /// What is wrong with the change, if something is.
    pub fn fault(&self, arrivals: &Arrivals, names: &Names) -> Option<Fault> {
        let [from, to] = self.ends;
        let ([.., (_, _, most)], last) = (SIZES, arrivals.nodes() - 1);
        let edge = format!(
            "edge from node {} to node {}",
            names.node(from),
            names.node(to)
        );
        let is_there = arrivals
            .predecessors(to)
            .iter()
            .any(|&node| usize::from(node) == from);
        let (found, expected) = match (self.option == ADD, is_there) {
            _ if from > last || to > last => {
                (String::new(), format!("nodes of the job, 0 to {last}"))
            }
            (true, true) => (
                format!(", and the {edge} is there"),
                "an edge that is not there when it is added".to_string(),
            ),
            (false, false) => (
                format!(", and no {edge} is there"),
                "an edge that is there when it is dropped".to_string(),
            ),
            (true, false) if arrivals.count() as u64 == most => (
                format!(", and {most} edges are there"),
                format!("{most} edges at most, so drop one before it"),
            ),
            _ => return None,
        };
        Some(Fault {
            number: 22,
            place: None,
            found: format!("{} {}{found}", self.option, shown::name(self.typed)),
            expected,
        })
    }
}

/// The two nodes that a word names.
fn ends(typed: &OsStr) -> Option<[usize; 2]> {
    let typed = typed.as_encoded_bytes();
    let comma = typed.iter().position(|&byte| byte == b',')?;
    let end = |digits| decimal(digits)?.try_into().ok();
    Some([end(&typed[..comma])?, end(&typed[comma + 1..])?])
}

/// An accepted job file of these edges with others in their place. What it has already stands as it stood.
pub fn file(old: &[u8], edges: &[(u16, u16)], arrivals: &Arrivals) -> Vec<u8> {
    let (head, lines) = old.split_at(old.len() - LINE * edges.len());
    let mut file = head.to_vec();
    if arrivals.count() != edges.len() {
        file[COUNT].copy_from_slice(format!("{:>6}", arrivals.count()).as_bytes());
    }
    for edge in arrivals.edges() {
        match edges.binary_search(&edge) {
            Ok(place) => file.extend(&lines[LINE * place..][..LINE]),
            Err(_) => Line::new(b'F', &[edge.0.into(), edge.1.into()]).spell(&mut file),
        }
    }
    file
}
