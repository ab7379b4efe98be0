//! Walks as document 01 has them ("Nodes and walks"): where a walk can be, and how it goes on. How it comes in
//! again and returns is in `reentry`.
use crate::job::{members, Job, Node, CALL, EVENT, REENTRANT};
pub use crate::place::{Event, Move, Place};
use crate::slip::Slip;
use Place::{Before, Calling, ComingIn, Ended, Past, Returning, Stopped};

/// The walks of a job, with one slip or with none. A slip that remembers something walks on copies of the
/// nodes, numbered on after them.
pub struct Walks<'a> {
    pub job: &'a Job,
    pub slip: Option<Slip>,
    /// How many nodes there are with their copies.
    nodes: usize,
    /// For each place, by number, the moves from there.
    moves: Vec<Vec<Move>>,
}

impl<'a> Walks<'a> {
    /// The walks of this job.
    pub fn new(job: &'a Job, slip: Option<Slip>) -> Self {
        let copies = match slip {
            Some(Slip::ReturnsToCallerOnly) => 1 + job.reentrant().len(),
            _ => 1,
        };
        let nodes = copies * job.nodes.len();
        let mut walks = Walks {
            job,
            slip,
            nodes,
            moves: vec![Vec::new(); Place::count(nodes)],
        };
        walks.add_ways_back();
        for node in 0..nodes {
            walks.add_moves(node);
        }
        for first in (0..nodes).step_by(job.nodes.len()) {
            for &(from, to) in &job.edges {
                walks.add_edge(first + from as usize, first + to as usize);
            }
        }
        walks
    }

    /// Whether this slip is switched on.
    pub fn slips(&self, slip: Slip) -> bool {
        self.slip == Some(slip)
    }

    /// Every place, by number.
    pub fn places(&self) -> Vec<Place> {
        let of_node = |node| {
            [
                Before(node),
                Calling(node),
                Past(node),
                Ended(node),
                Stopped(node),
            ]
        };
        let of_nodes = (0..self.nodes).flat_map(of_node);
        [ComingIn, Returning].into_iter().chain(of_nodes).collect()
    }

    /// The places that a place has on all copies of its node.
    pub fn copies(&self, place: Place) -> impl Iterator<Item = Place> {
        let firsts = (0..self.nodes).step_by(self.job.nodes.len());
        firsts.map(move |first| place.moved_by(first))
    }

    /// What a node, or the one that it is a copy of, is like.
    pub(crate) fn node(&self, node: usize) -> &'a Node {
        &self.job.nodes[node % self.job.nodes.len()]
    }

    /// How many places there are.
    pub fn place_count(&self) -> usize {
        self.moves.len()
    }

    /// The moves from a place.
    pub fn moves(&self, from: Place) -> &[Move] {
        &self.moves[from.number()]
    }

    /// The places where walks begin, each with its admitted states.
    pub fn starts(&self) -> Vec<(Place, Vec<usize>)> {
        let mut starts = Vec::new();
        let mut entries = self.job.entries();
        match self.slip {
            Some(Slip::FirstEntryOnly) => entries.truncate(1),
            Some(Slip::EveryNodeEntered) => {
                let states = (0..self.job.states()).collect::<Vec<_>>();
                let any = |node| (Before(node), states.clone());
                return (0..self.job.nodes.len()).map(any).collect();
            }
            _ => {}
        }
        for entry in entries {
            let mut states: Vec<_> = members(self.job.nodes[entry].entry).collect();
            if self.slips(Slip::LowestStartOnly) {
                states.truncate(1);
            }
            let place = if self.slips(Slip::EntryPassed) {
                Past(entry)
            } else {
                Before(entry)
            };
            starts.push((place, states));
        }
        starts
    }

    pub(crate) fn add(&mut self, from: Place, event: Option<Event>, to: Place) {
        self.moves[from.number()].push(Move { event, to });
    }

    /// What a node reports, and the word after it if it is an exit.
    fn add_moves(&mut self, node: usize) {
        let of = self.node(node);
        match of.kind {
            EVENT => {
                let event = Event::Point(node % self.job.nodes.len(), of.value as usize);
                self.add(Before(node), Some(event), Past(node));
            }
            CALL => self.add_call(node, of.value),
            REENTRANT => {
                self.add_call(node, of.value);
                self.add_coming_in(node);
            }
            _ => self.add(Before(node), None, Past(node)),
        }
        if of.exit == 1 {
            self.add_exit(node, of.after);
        }
        if self.slips(Slip::ReturnsFromEveryNode) {
            self.add(Past(node), None, Returning);
        }
    }

    /// Any finite word over the set, the empty one included.
    fn add_call(&mut self, node: usize, set: u64) {
        let highest = members(set).last();
        self.add(Before(node), None, Calling(node));
        if !self.slips(Slip::EmptyCallWordNotAllowed) {
            self.add(Calling(node), None, Past(node));
        }
        for symbol in members(set) {
            let event = Some(Event::Call(symbol));
            match self.slip {
                Some(Slip::CallWordNotSearched) => {}
                Some(Slip::HighestCallSymbolLeftOut) if Some(symbol) == highest => {}
                Some(Slip::CallWordOfOneSymbol) => self.add(Calling(node), event, Past(node)),
                Some(Slip::EmptyCallWordNotAllowed) => {
                    self.add(Calling(node), event, Calling(node));
                    self.add(Calling(node), event, Past(node));
                }
                _ => self.add(Calling(node), event, Calling(node)),
            }
        }
        if self.slips(Slip::CallComesBack) && self.node(node).kind == CALL {
            self.add(Past(node), None, ComingIn);
        }
    }

    /// The walk may end after the exit's own events with any finite word over the set, and return.
    fn add_exit(&mut self, node: usize, set: u64) {
        let original = (node % self.job.nodes.len()) as u64;
        let has_edge = self.job.edges.iter().any(|edge| edge.0 == original);
        let is_call = matches!(self.node(node).kind, CALL | REENTRANT);
        match self.slip {
            Some(Slip::ExitWithEdgeDoesNotEnd) if has_edge => {}
            Some(Slip::AfterWordForCallWord) if is_call => {
                self.add(Before(node), None, Ended(node));
            }
            Some(Slip::ExitBeforeOwnEvents) => {
                self.add(Before(node), None, Ended(node));
                self.add(Past(node), None, Ended(node));
            }
            _ => self.add(Past(node), None, Ended(node)),
        }
        for symbol in members(set) {
            let event = Some(Event::After(symbol));
            match self.slip {
                Some(Slip::AfterWordNotSearched) => {}
                Some(Slip::AfterWordOfOneSymbol) => self.add(Ended(node), event, Stopped(node)),
                Some(Slip::EmptyAfterWordStays) => {
                    self.add(Ended(node), event, Stopped(node));
                    self.add(Stopped(node), event, Stopped(node));
                }
                _ => self.add(Ended(node), event, Ended(node)),
            }
        }
        self.add_return(node);
    }

    /// A walk follows edges.
    fn add_edge(&mut self, from: usize, to: usize) {
        match self.slip {
            Some(Slip::ExitTakesNoEdge) if self.node(from).exit == 1 => return,
            Some(Slip::EdgeToEntryIgnored) if self.node(to).entry != 0 => return,
            Some(Slip::EdgeToItselfIgnored) if from == to => return,
            Some(Slip::AfterWordTakesEdge) => self.add(Ended(from), None, Before(to)),
            Some(Slip::EdgesBothWays) => self.add(Past(to), None, Before(from)),
            _ => {}
        }
        self.add(Past(from), None, Before(to));
    }
}
