//! The arrivals index beside the edges (document 02), as calls on three lent lists: their refusal, their answer, and
//! what they leave in the lists. The edges are a set, and the index is made afresh from it every time.
mod lists;

use crate::slip::Slip;
use lists::clear_from;
use std::collections::BTreeSet;

pub use lists::{flat, Lists};

/// The most nodes of a graph.
pub const MOST_NODES: u64 = 512;
/// The most edges of a graph.
pub const MOST_EDGES: u64 = 2_048;

/// An edge: the node that it leads from, and the one that it leads to.
pub type Edge = (u16, u16);

/// What a call is asked to do: to add an edge, to drop one, or to make the index.
#[derive(Clone, Copy, Debug, PartialEq, Eq)]
pub enum Asked {
    Add(u64, u64),
    Drop(u64, u64),
    Index,
}

impl Asked {
    /// The ends of the edge to add or to drop.
    fn ends(self) -> Option<(u64, u64)> {
        match self {
            Asked::Add(from, to) | Asked::Drop(from, to) => Some((from, to)),
            Asked::Index => None,
        }
    }

    /// The same of another edge.
    pub fn with(self, ends: impl Fn(u64, u64) -> (u64, u64)) -> Self {
        match self {
            Asked::Add(from, to) => {
                let (from, to) = ends(from, to);
                Asked::Add(from, to)
            }
            Asked::Drop(from, to) => {
                let (from, to) = ends(from, to);
                Asked::Drop(from, to)
            }
            Asked::Index => Asked::Index,
        }
    }
}

/// One call, but for its lists.
#[derive(Clone, Copy, Debug, PartialEq, Eq)]
pub struct Call {
    pub asked: Asked,
    pub nodes: u64,
    pub count: u64,
}

/// The answer to a call.
#[derive(Clone, Copy, Debug, PartialEq, Eq)]
pub enum Answer {
    /// With the count of edges afterwards.
    Counted(u64),
    Refused(u64),
}

/// The answer to a call and the lists that it leaves, with one slip or with none.
pub fn answer(call: &Call, lent: &Lists, slip: Option<Slip>) -> (Answer, Lists) {
    let call = Taken::of(call, slip);
    let mut lists = lent.clone();
    match call.edges_after(lent) {
        Some(edges) => {
            call.write(&edges, &mut lists);
            (Answer::Counted(call.counted(edges.len())), lists)
        }
        None => {
            call.write_refused(&mut lists);
            (Answer::Refused(call.refusal(lent)), lists)
        }
    }
}

/// A call with one slip or with none.
#[derive(Clone, Copy)]
struct Taken {
    slip: Option<Slip>,
    call: Call,
}

impl Taken {
    fn slips(&self, slip: Slip) -> bool {
        self.slip == Some(slip)
    }

    fn is_add(&self) -> bool {
        matches!(self.call.asked, Asked::Add(..))
    }

    fn is_drop(&self) -> bool {
        matches!(self.call.asked, Asked::Drop(..))
    }

    /// The call with the numbers that are taken for those given; only a slip takes others.
    fn of(call: &Call, slip: Option<Slip>) -> Self {
        const HIGH: u64 = 1 << 16;
        let mut call = *call;
        call.asked = call.asked.with(|from, to| match slip {
            Some(Slip::FromCutTo16Bits) => (from % HIGH, to),
            Some(Slip::ToCutTo16Bits) => (from, to % HIGH),
            Some(Slip::EndsCutTo32Bits) => (from << 32 >> 32, to << 32 >> 32),
            Some(Slip::EdgeTurnedAround) => (to, from),
            _ => (from, to),
        });
        match slip {
            Some(Slip::NodesCutTo16Bits) => call.nodes %= HIGH,
            Some(Slip::NodesCutTo32Bits) => call.nodes = call.nodes << 32 >> 32,
            Some(Slip::CountCutTo16Bits) => call.count %= HIGH,
            Some(Slip::CountCutTo32Bits) => call.count = call.count << 32 >> 32,
            Some(Slip::CountCutTo63Bits) => call.count = call.count << 1 >> 1,
            _ => {}
        }
        Taken { slip, call }
    }

    /// "N is outside 1 to 512, an end is N or more, an addition finds 2,048 edges already", or there are more.
    fn numbers_fit(&self) -> bool {
        let nodes = match self.slip {
            Some(Slip::NoNodeAccepted) => 0..=MOST_NODES,
            Some(Slip::OneNodeRefused) => 2..=MOST_NODES,
            Some(Slip::Nodes512Refused) => 1..=MOST_NODES - 1,
            Some(Slip::Nodes513Accepted) => 1..=MOST_NODES + 1,
            _ => 1..=MOST_NODES,
        };
        let most = match (self.is_add(), self.slip) {
            (true, Some(Slip::AdditionTo2049Accepted)) => MOST_EDGES,
            (true, Some(Slip::AdditionTo2048Refused)) => MOST_EDGES - 2,
            (true, _) => MOST_EDGES - 1,
            (false, Some(Slip::FullListsRefused)) => MOST_EDGES - 1,
            (false, Some(Slip::Edges2049Accepted)) => MOST_EDGES + 1,
            (false, _) => MOST_EDGES,
        };
        let past = |slip: Slip| u64::from(self.slips(slip));
        let is_node = |end: u64, slip: Slip| end < self.call.nodes.saturating_add(past(slip));
        let are_nodes = self.call.asked.ends().is_none_or(|(from, to)| {
            is_node(from, Slip::FromOfNAccepted) && is_node(to, Slip::ToOfNAccepted)
        });
        nodes.contains(&self.call.nodes) && self.call.count <= most && are_nodes
    }

    /// Whether no list "is too short for the outcome", or for what it is to hold.
    fn lists_fit(&self, lent: &Lists) -> bool {
        let more = u64::from(self.is_add());
        let (edges, predecessors) = (2 * (self.call.count + more), self.call.count + more);
        let needed = [edges, predecessors, self.call.nodes + 1];
        let (is_add, is_drop) = (self.is_add(), self.is_drop());
        // what each list may lack
        let lacks = match self.slip {
            Some(Slip::AdditionWithoutRoomForEdge) if is_add => [2, 0, 0],
            Some(Slip::AdditionWithRoomForHalfAnEdge) if is_add => [1, 0, 0],
            Some(Slip::AdditionWithoutRoomForPredecessor) if is_add => [0, 1, 0],
            Some(Slip::AdditionToShortStarts) if is_add => [0, 0, 1],
            Some(Slip::DropFromShortEdges) if is_drop => [1, 0, 0],
            Some(Slip::DropFromShortPredecessors) if is_drop => [0, 1, 0],
            Some(Slip::DropFromShortStarts) if is_drop => [0, 0, 1],
            Some(Slip::IndexOfShortEdges) if !is_add && !is_drop => [1, 0, 0],
            Some(Slip::IndexInShortPredecessors) if !is_add && !is_drop => [0, 1, 0],
            Some(Slip::IndexInShortStarts) if !is_add && !is_drop => [0, 0, 1],
            _ => [0; 3],
        };
        let lens = lent.all().map(|list| list.len() as u64);
        (0..3).all(|list| match self.slip {
            Some(Slip::LengthsCountBytes) => lens[list] >= 2 * needed[list],
            Some(Slip::LongerListsRefused) => lens[list] == needed[list],
            Some(Slip::LengthsCutTo16Bits) => lens[list] % 65_536 >= needed[list],
            Some(Slip::DropWantsRoomForAddition) if list == 0 => lens[0] >= 2 * self.call.count + 2,
            _ => lens[list] + lacks[list] >= needed[list],
        })
    }

    /// The edges of the list, where they are "strictly ascending edges between nodes below N".
    fn edges(&self, lent: &Lists) -> Option<Vec<Edge>> {
        // a number is missing only with a slip
        let number = |place: usize| lent.edges.get(place).copied().unwrap_or(0);
        let edges: Vec<_> = (0..self.call.count as usize)
            .map(|edge| (number(2 * edge), number(2 * edge + 1)))
            .collect();
        let is_node = |end: u16| u64::from(end) < self.call.nodes;
        let are_nodes = |&(from, to): &Edge| match self.slip {
            Some(Slip::FromOfEdgesNotTested) => is_node(to),
            Some(Slip::ToOfEdgesNotTested) => is_node(from),
            _ => is_node(from) && is_node(to),
        };
        let ascends = |pair: &[Edge]| match self.slip {
            Some(Slip::EqualEdgesAccepted) => pair[0] <= pair[1],
            Some(Slip::FallingEdgesAccepted) => pair[0] != pair[1],
            Some(Slip::EdgesOfOneNodeInAnyOrder) => {
                pair[0].0 < pair[1].0 || (pair[0].0 == pair[1].0 && pair[0].1 != pair[1].1)
            }
            _ => pair[0] < pair[1],
        };
        let tested = match self.slip {
            Some(Slip::LastEdgeNotTested) => &edges[..edges.len().saturating_sub(1)],
            Some(Slip::FirstEdgeNotTested) => &edges[edges.len().min(1)..],
            _ => &edges[..],
        };
        let are_sound = tested.iter().all(are_nodes) && tested.windows(2).all(ascends);
        are_sound.then_some(edges)
    }

    /// Whether the lists have the fresh index of these edges.
    fn is_indexed(&self, edges: &[Edge], lent: &Lists) -> bool {
        let mut fresh = Lists::of(self.call.nodes as usize, edges);
        let mut lent = lent.clone();
        let (nodes, count) = (self.call.nodes as usize, edges.len());
        if self.slips(Slip::OrderOfPredecessorsNotTested) && lent.starts.starts_with(&fresh.starts)
        {
            (0..nodes).for_each(|node| lent.predecessors(node).sort_unstable());
        }
        match (self.slip, self.call.asked.ends()) {
            (Some(Slip::WrongPredecessorsAccepted), _) => fresh.predecessors.clear(),
            (Some(Slip::LastPredecessorNotTested), _) => drop(fresh.predecessors.pop()),
            (Some(Slip::WrongStartsAccepted), _) => fresh.starts.clear(),
            (Some(Slip::LastStartNotTested), _) => drop(fresh.starts.pop()),
            (Some(Slip::FirstStartNotTested), _) => lent.starts[0] = 0,
            (Some(Slip::OnlyNodeOfEdgeTested), Some((_, to))) => {
                let to = to as usize;
                let fresh_starts = &fresh.starts[to..=to + 1];
                let first = usize::from(fresh_starts[0]);
                return lent.starts[to..].starts_with(fresh_starts)
                    && lent.predecessors[first..].starts_with(fresh.predecessors(to));
            }
            (Some(Slip::PastListsNotZeroRefused), _) => {
                let past = [
                    &lent.edges[2 * count..],
                    &lent.predecessors[count..],
                    &lent.starts[nodes + 1..],
                ];
                if past.concat().iter().any(|&number| number > 0) {
                    return false;
                }
            }
            _ => {}
        }
        let lists = [
            (&fresh.predecessors, &lent.predecessors),
            (&fresh.starts, &lent.starts),
        ];
        // a list that is shorter than its index is so only with a slip
        lists
            .iter()
            .all(|(fresh, lent)| fresh.iter().zip(*lent).all(|(a, b)| a == b))
    }

    /// The edges afterwards, "the old ones with just that edge more or less, again ascending"; nothing where the call is
    /// refused.
    fn edges_after(&self, lent: &Lists) -> Option<Vec<Edge>> {
        if !self.numbers_fit() || !self.lists_fit(lent) {
            return None;
        }
        let before = self.edges(lent)?;
        let wants_index = match self.call.asked {
            Asked::Index => self.slips(Slip::IndexWantsIndex),
            _ => !self.slips(Slip::WrongIndexAccepted),
        };
        if wants_index && !self.is_indexed(&before, lent) {
            return None;
        }
        let mut after = before.iter().copied().collect::<BTreeSet<_>>();
        let edge = |from: u64, to: u64| (from as u16, to as u16);
        let is_changed = match self.call.asked {
            Asked::Add(from, to) => after.insert(edge(from, to)),
            Asked::Drop(from, to) => after.remove(&edge(from, to)),
            Asked::Index => true,
        };
        let mut after: Vec<_> = after.into_iter().collect();
        match (self.slip, self.call.asked) {
            (Some(Slip::PresentEdgeAccepted), Asked::Add(..)) => return Some(after),
            (Some(Slip::PresentEdgeAddedTwice), Asked::Add(from, to)) if !is_changed => {
                after.push(edge(from, to));
                after.sort_unstable();
                return Some(after);
            }
            (Some(Slip::AbsentEdgeAccepted), Asked::Drop(..)) => return Some(after),
            (Some(Slip::AbsentEdgeDropsNext), Asked::Drop(from, to)) if !is_changed => {
                let next = after.partition_point(|&other| other < edge(from, to));
                return (next < after.len()).then(|| {
                    after.remove(next);
                    after
                });
            }
            (Some(Slip::EdgePastListIsPresent), Asked::Add(from, to)) => {
                let past = &lent.edges[2 * before.len()..];
                if past.starts_with(&flat(&[edge(from, to)])) {
                    return None;
                }
            }
            (Some(Slip::AddedLast), Asked::Add(from, to)) if is_changed => {
                let mut after = before;
                after.push(edge(from, to));
                return Some(after);
            }
            _ => {}
        }
        is_changed.then_some(after)
    }

    /// What is added to 2^48.
    fn counted(&self, after: usize) -> u64 {
        match self.slip {
            Some(Slip::CountBeforeAnswered) => self.call.count,
            Some(Slip::CountLeftOut) => 0,
            Some(Slip::CountOfNumbersAnswered) => 2 * after as u64,
            _ => after as u64,
        }
    }

    /// The number of the refusal.
    fn refusal(&self, lent: &Lists) -> u64 {
        match self.slip {
            Some(Slip::BadEdgesAs8) => 8,
            Some(Slip::ShortListsAs2) if self.numbers_fit() && !self.lists_fit(lent) => 2,
            _ => 22,
        }
    }

    /// Writes the lists of the edges afterwards.
    fn write(&self, after: &[Edge], lists: &mut Lists) {
        let mut fresh = Lists::of(self.call.nodes as usize, after);
        let (count, nodes) = (self.call.count as usize, self.call.nodes as usize);
        if let Some((from, to)) = self.call.asked.ends() {
            self.slip_in_lists(&mut fresh, lists, from as u16, to as usize);
        }
        lists.write(&fresh);
        if after.len() < count {
            // which of the places that are free become zero
            let (from, to, predecessor) = match self.slip {
                Some(Slip::FreedPlacesLeft) => (false, false, false),
                Some(Slip::FreedEdgeLeft) => (false, false, true),
                Some(Slip::FreedFromLeft) => (false, true, true),
                Some(Slip::FreedToLeft) => (true, false, true),
                Some(Slip::FreedPredecessorLeft) => (true, true, false),
                _ => (true, true, true),
            };
            for (is_cleared, list, place) in [
                (from, 0, 2 * count - 2),
                (to, 0, 2 * count - 1),
                (predecessor, 1, count - 1),
            ] {
                // a place is missing only with a slip
                if let (true, Some(number)) = (is_cleared, lists.all_mut()[list].get_mut(place)) {
                    *number = 0;
                }
            }
        }
        let past = [2 * after.len(), after.len(), nodes + 1];
        let clears = match (self.slip, self.call.asked) {
            (Some(Slip::AdditionClearsPast), Asked::Add(..)) => [true; 3],
            (Some(Slip::DropClearsPast), Asked::Drop(..)) => [true; 3],
            (Some(Slip::IndexClearsPast), Asked::Index) => [false, true, true],
            _ => [false; 3],
        };
        for ((list, first), clears) in lists.all_mut().into_iter().zip(past).zip(clears) {
            if clears {
                clear_from(list, first);
            }
        }
    }

    /// Alters the fresh lists as the slip does, by those that were lent, for an edge from this node to that.
    fn slip_in_lists(&self, fresh: &mut Lists, lent: &Lists, from: u16, to: usize) {
        match self.slip {
            Some(Slip::OnlyEdgesChanged) => {
                fresh.predecessors.clear();
                fresh.starts.clear();
            }
            Some(Slip::OnlyIndexChanged) => fresh.edges.clear(),
            Some(Slip::StartsNotMoved) => fresh.starts.clear(),
            Some(Slip::NextStartMovedAlone) => fresh.starts.truncate(to + 2),
            Some(Slip::LastStartNotMoved) => drop(fresh.starts.pop()),
            Some(Slip::StartOfNodeMoved) if self.is_add() => fresh.starts[to] += 1,
            Some(Slip::StartOfNodeMoved) => {
                fresh.starts[to] = fresh.starts[to].wrapping_sub(1);
            }
            Some(Slip::PredecessorAddedLast) if self.is_add() => {
                let of_node = fresh.predecessors(to);
                of_node.sort_by_key(|&other| other == from);
            }
            Some(Slip::PredecessorAddedFirst) if self.is_add() => {
                let of_node = fresh.predecessors(to);
                of_node.sort_by_key(|&other| other != from);
            }
            Some(Slip::PredecessorsNotMoved) => {
                // those of later nodes stand where they stood
                let end = usize::from(fresh.starts[to + 1]);
                for place in end..fresh.predecessors.len().min(lent.predecessors.len()) {
                    fresh.predecessors[place] = lent.predecessors[place];
                }
            }
            Some(Slip::SuccessorsForPredecessors) => {
                let ends = fresh.edges.chunks(2);
                let turned: Vec<_> = ends.map(|edge| (edge[1], edge[0])).collect();
                let turned = Lists::of(self.call.nodes as usize, &turned);
                (fresh.predecessors, fresh.starts) = (turned.predecessors, turned.starts);
            }
            _ => {}
        }
    }

    /// Writes what a refusal leaves, which is nothing but for slips.
    fn write_refused(&self, lists: &mut Lists) {
        let count = self.call.count as usize;
        match (self.slip, self.call.asked) {
            (Some(Slip::RefusalClearsLists), Asked::Add(..) | Asked::Drop(..)) => {
                lists
                    .all_mut()
                    .into_iter()
                    .for_each(|list| clear_from(list, 0));
            }
            (Some(Slip::RefusedIndexClearsLists), Asked::Index) => {
                clear_from(&mut lists.predecessors, 0);
                clear_from(&mut lists.starts, 0);
            }
            (Some(Slip::RefusedDropClearsLastEdge), Asked::Drop(..)) if self.numbers_fit() => {
                clear_from(&mut lists.edges, (2 * count).saturating_sub(2));
            }
            (Some(Slip::WrongIndexMended), Asked::Add(..) | Asked::Drop(..)) => {
                let mut index = *self;
                index.call.asked = Asked::Index;
                if let Some(edges) = index.edges_after(lists) {
                    lists.write(&Lists::of(self.call.nodes as usize, &edges));
                }
            }
            _ => {}
        }
    }
}
