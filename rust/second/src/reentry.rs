//! Calls that may come back in (document 02, request 2): after the call's word a walk may go to any entry, in
//! the state it has, and after the word after an exit to any of these calls, which it enters as by an edge.
use crate::job::CALL;
use crate::slip::Slip;
use crate::walk::{Move, Place, Walks};
use Place::{Before, ComingIn, Ended, Past, Returning, Stopped};

impl Walks<'_> {
    /// Where a walk goes that comes in again, and one that returns.
    pub(crate) fn add_ways_back(&mut self) {
        let mut entries = self.job.entries();
        if self.slips(Slip::ComesInAtFirstEntry) {
            entries.truncate(1);
        }
        for entry in entries {
            let to = match self.slip {
                Some(Slip::ComesInPastEntry) => Past(entry),
                _ => Before(entry),
            };
            self.add(ComingIn, None, to);
        }
        let mut calls = self.job.reentrant();
        match self.slip {
            Some(Slip::ReturnsToFirstCall) => calls.truncate(1),
            Some(Slip::ReturnsToEveryCall) => {
                let is_call = |&node: &usize| self.job.nodes[node].kind == CALL;
                calls.extend((0..self.job.nodes.len()).filter(is_call));
            }
            _ => {}
        }
        for call in calls {
            let to = match self.slip {
                Some(Slip::ReturnsPastWord) => Past(call),
                _ => Before(call),
            };
            self.add(Returning, None, to);
        }
    }

    /// After the call's word the walk may come in again.
    pub(crate) fn add_coming_in(&mut self, node: usize) {
        match self.slip {
            Some(Slip::ReentrantAsCall | Slip::NeverComesIn) => {}
            Some(Slip::ComesInBeforeWord) => self.add(Before(node), None, ComingIn),
            Some(Slip::ComesInAtItself) if self.node(node).entry == 0 => {}
            Some(Slip::ComesInAtItself) => self.add(Past(node), None, Before(node)),
            Some(Slip::ReturnsToCallerOnly) => {
                let nodes = self.job.nodes.len();
                let mut calls = self.job.reentrant().into_iter();
                // the copies of the nodes after the call
                let copy = calls.position(|call| call == node % nodes).map(|at| at + 1);
                let first = copy.expect("the node is one of them") * nodes;
                for entry in self.job.entries() {
                    self.add(Past(node), None, Before(first + entry));
                }
            }
            _ => self.add(Past(node), None, ComingIn),
        }
    }

    /// After the word after an exit, the empty one too, the walk may return, if there is a call for it.
    pub(crate) fn add_return(&mut self, node: usize) {
        if self.moves(Returning).is_empty() {
            return;
        }
        match self.slip {
            Some(Slip::ReentrantAsCall | Slip::NeverReturns) => {}
            Some(Slip::EmptyAfterWordStays) => self.add(Stopped(node), None, Returning),
            Some(Slip::AfterWordStays) => self.add(Past(node), None, Returning),
            Some(Slip::AfterWordOfOneSymbol) => {
                self.add(Ended(node), None, Returning);
                self.add(Stopped(node), None, Returning);
            }
            Some(Slip::ReturnsToCallerOnly) => {
                // from the nodes themselves nobody has called
                if let Some(caller) = (node / self.job.nodes.len()).checked_sub(1) {
                    self.add(Ended(node), None, Before(self.job.reentrant()[caller]));
                }
            }
            _ => self.add(Ended(node), None, Returning),
        }
    }

    /// Whether a walk in this state makes a move from a place: it does, but for a slip.
    pub fn makes(&self, from: Place, step: &Move, state: usize) -> bool {
        match (self.slip, from, step.to) {
            (Some(Slip::ComesInWhereAdmitted), ComingIn, Before(entry)) => {
                self.node(entry).entry >> state & 1 == 1
            }
            _ => true,
        }
    }
}
