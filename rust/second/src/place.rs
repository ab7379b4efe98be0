//! Where a walk can be, what it reports, and its moves.
use Place::{Before, Calling, ComingIn, Ended, Past, Returning, Stopped};

/// Where a walk is.
#[derive(Clone, Copy, Debug, PartialEq, Eq)]
pub enum Place {
    /// Before a node.
    Before(usize),
    /// Inside the word of a call.
    Calling(usize),
    /// After a node's own events.
    Past(usize),
    /// Inside the word after an exit, where the walk ends or returns.
    Ended(usize),
    /// Past a word after an exit; for slips alone.
    Stopped(usize),
    /// On the way from a call back in, to an entry.
    ComingIn,
    /// On the way from an exit back to a call.
    Returning,
}

/// An event of a walk.
#[derive(Clone, Copy, Debug, PartialEq, Eq)]
pub enum Event {
    /// Reported by a point: the node and its symbol.
    Point(usize, usize),
    /// A symbol of a call's word.
    Call(usize),
    /// A symbol of a word after an exit.
    After(usize),
}

impl Event {
    /// The symbol that the monitors get.
    pub fn symbol(self) -> usize {
        match self {
            Event::Point(_, symbol) | Event::Call(symbol) | Event::After(symbol) => symbol,
        }
    }
}

/// One move of a walk, with the event that it reports, if any.
#[derive(Clone, Copy, Debug)]
pub struct Move {
    pub event: Option<Event>,
    pub to: Place,
}

impl Place {
    /// How many places there are with so many nodes.
    pub(crate) fn count(nodes: usize) -> usize {
        2 + 5 * nodes
    }

    /// The place's number.
    pub fn number(self) -> usize {
        match self {
            ComingIn => 0,
            Returning => 1,
            Before(node) => 2 + 5 * node,
            Calling(node) => 3 + 5 * node,
            Past(node) => 4 + 5 * node,
            Ended(node) => 5 + 5 * node,
            Stopped(node) => 6 + 5 * node,
        }
    }

    /// The same place so many nodes further on.
    pub(crate) fn moved_by(self, nodes: usize) -> Self {
        match self {
            Before(node) => Before(node + nodes),
            Calling(node) => Calling(node + nodes),
            Past(node) => Past(node + nodes),
            Ended(node) => Ended(node + nodes),
            Stopped(node) => Stopped(node + nodes),
            ComingIn | Returning => self,
        }
    }
}
