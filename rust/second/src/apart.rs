//! At every place the pairs of states from which some continuation has an alarm from one and not
//! from the other at the same event, found backwards until nothing changes.
use crate::slip::Slip;
use crate::walk::{Event, Place, Walks};

/// The pairs of states that are not "of one class", at each place.
pub struct Apart<'a> {
    walks: &'a Walks<'a>,
    /// The nodes whose points both monitors have.
    watched: Vec<bool>,
    /// By place, one state and the other.
    apart: Vec<bool>,
}

impl<'a> Apart<'a> {
    /// The pairs for two monitors that have the points of this plan.
    pub fn new(walks: &'a Walks<'a>, plan: &[u8]) -> Self {
        let states = walks.job.states();
        let mut places = walks.places();
        places.reverse();
        let mut apart = Apart {
            walks,
            watched: plan.iter().map(|&byte| byte == 1).collect(),
            apart: vec![false; walks.place_count() * states * states],
        };
        while apart.sweep(&places) {}
        apart
    }

    /// Looks at every pair of every place once; says whether anything changed.
    fn sweep(&mut self, places: &[Place]) -> bool {
        let states = self.walks.job.states();
        let mut changed = false;
        for &place in places {
            for one in 0..states {
                for other in 0..states {
                    let number = self.number(place, one, other);
                    if !self.apart[number] && self.comes_apart(place, one, other) {
                        self.apart[number] = true;
                        changed = true;
                    }
                }
            }
        }
        changed
    }

    fn number(&self, place: Place, one: usize, other: usize) -> usize {
        let states = self.walks.job.states();
        (place.number() * states + one) * states + other
    }

    /// Whether some move shows a difference, or leads to a pair that is apart.
    fn comes_apart(&self, place: Place, one: usize, other: usize) -> bool {
        let moves = self.walks.moves(place).iter();
        let mut made = moves.filter(|step| self.walks.makes(place, step, one));
        made.any(|step| {
            let ((one, first), (other, second)) = match step.event {
                None => ((one, false), (other, false)),
                Some(event) => (self.told(event, one), self.told(event, other)),
            };
            first != second || self.apart[self.number(step.to, one, other)]
        })
    }

    /// The state that a monitor moves to, and whether it alarms.
    fn told(&self, event: Event, state: usize) -> (usize, bool) {
        let job = self.walks.job;
        if matches!(event, Event::Point(node, _) if !self.watched[node]) {
            return (state, false);
        }
        let next = job.next[state][event.symbol()] as usize;
        let quiet = self.walks.slips(Slip::FinalToFinalQuiet) && job.finals[state] == 1;
        (next, job.finals[next] == 1 && !quiet)
    }

    /// Whether two states are of one class at a place and its copies.
    pub fn alike(&self, place: Place, one: usize, other: usize) -> bool {
        let mut copies = self.walks.copies(place);
        !copies.any(|place| self.apart[self.number(place, one, other)])
    }
}
