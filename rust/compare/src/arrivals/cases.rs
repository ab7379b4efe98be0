//! Random calls: graphs of all sizes, sound lists and ones with a fault, edges that are there and not.
use crate::compared::Compared;
use crate::library::{refused, Library};
use dapohiru::numbers::ACCEPTED;
use dapohiru_generators::arrivals as graphs;
use dapohiru_generators::random::Random;
use dapohiru_second::arrivals::{
    answer, flat, Answer, Asked, Call, Edge, Lists, MOST_EDGES, MOST_NODES,
};
use dapohiru_second::slip::Slip;

/// One call on three lists.
#[derive(Clone, Debug)]
pub struct Case {
    pub call: Call,
    pub lists: Lists,
}

/// Which call is made.
#[derive(Clone, Copy, Debug, PartialEq, Eq, PartialOrd, Ord)]
pub enum Kind {
    Add,
    Drop,
    Index,
}

impl Kind {
    pub const ALL: [Kind; 3] = [Kind::Add, Kind::Drop, Kind::Index];

    /// The call of this kind; making the index is not asked for an edge.
    pub fn of(self, (from, to): Edge) -> Asked {
        match self {
            Kind::Add => Asked::Add(from.into(), to.into()),
            Kind::Drop => Asked::Drop(from.into(), to.into()),
            Kind::Index => Asked::Index,
        }
    }
}

/// Which call is made, and its refusal; nothing where it is accepted.
pub type Said = (Kind, Option<u64>);

impl Case {
    /// A call on the lists of these edges, which need not be sound, just as long as they need to be.
    pub fn of(nodes: usize, edges: &[Edge], asked: Asked) -> Self {
        let mut lists = Lists::of(nodes, edges);
        if let Asked::Add(..) = asked {
            lists.edges.extend([0, 0]);
            lists.predecessors.push(0);
        }
        Case {
            call: Call {
                asked,
                nodes: nodes as u64,
                count: edges.len() as u64,
            },
            lists,
        }
    }

    /// The kind of the call.
    pub fn kind(&self) -> Kind {
        match self.call.asked {
            Asked::Add(..) => Kind::Add,
            Asked::Drop(..) => Kind::Drop,
            Asked::Index => Kind::Index,
        }
    }

    /// The number of the call on these lists.
    pub fn call(&self, library: Library, lists: [&mut [u16]; 3]) -> u64 {
        let [edges, predecessors, starts] = lists;
        let Call {
            asked,
            nodes,
            count,
        } = self.call;
        match asked {
            Asked::Add(from, to) => {
                (library.add_edge)(edges, predecessors, starts, nodes, count, from, to)
            }
            Asked::Drop(from, to) => {
                (library.drop_edge)(edges, predecessors, starts, nodes, count, from, to)
            }
            Asked::Index => (library.index_edges)(edges, predecessors, starts, nodes, count),
        }
    }

    /// The same with numbers past the lists; making the index finds any numbers in the places of it.
    pub fn extended(mut self, random: &mut Random) -> Self {
        let most = random.pick(&[0, 1, 5]);
        graphs::extend(random, &mut self.lists, self.call.nodes as usize, most);
        if self.kind() == Kind::Index {
            for list in [&mut self.lists.predecessors, &mut self.lists.starts] {
                list.iter_mut()
                    .for_each(|number| *number = random.number() as u16);
            }
        }
        self
    }

    /// The same with this list shorter by one, or longer by 2^16 numbers than it need be.
    pub fn with_list(mut self, list: usize, resized: impl Fn(usize) -> usize) -> Self {
        let list = &mut self.lists.all_mut()[list];
        list.resize(resized(list.len()), 0);
        self
    }
}

impl Compared for Case {
    type Memory = Library;
    type Said = Said;
    type Seen = (u64, Lists);

    fn memory(library: Library) -> Library {
        library
    }

    fn said(&self, (number, _): &(u64, Lists)) -> Said {
        (self.kind(), refused(*number))
    }

    fn seen(&self, library: &mut Library) -> Result<(u64, Lists), String> {
        let mut lists = self.lists.clone();
        let number = self.call(*library, lists.all_mut().map(|list| &mut list[..]));
        Ok((number, lists))
    }

    fn wanted(&self, slip: Option<Slip>) -> (u64, Lists) {
        let (answer, lists) = answer(&self.call, &self.lists, slip);
        let number = match answer {
            Answer::Counted(count) => ACCEPTED.wrapping_add(count),
            Answer::Refused(number) => number,
        };
        (number, lists)
    }

    fn leaves((number, lists): &(u64, Lists)) -> String {
        format!("number {number:#x}, {lists:?}")
    }

    fn words(&self) -> String {
        format!("{self:?}")
    }
}

/// The calls on a graph: sound ones on edges that are there and not, and calls of each kind with each sort of fault.
pub fn cases(random: &mut Random) -> Vec<Case> {
    let nodes = graphs::nodes(random);
    let count = graphs::count(random, nodes);
    let edges = graphs::edges(random, nodes, count);
    let mut cases = sound(random, nodes, &edges);
    for kind in Kind::ALL {
        cases.extend(damaged(random, nodes, &edges, kind));
        cases.extend(misnumbered(random, nodes, &edges, kind));
        cases.extend(of_other_length(random, nodes, &edges, kind));
    }
    if random.once_in(8) {
        cases.extend(at_limits(random));
    }
    cases
}

/// The edges that calls of a graph are for: one that is there and one that is not, where there are such.
fn both(random: &mut Random, nodes: usize, edges: &[Edge]) -> Vec<Edge> {
    let edges = [
        graphs::present(random, edges),
        graphs::absent(random, nodes, edges),
    ];
    edges.into_iter().flatten().collect()
}

/// An edge with which a call of this kind is accepted, where there is one; else any.
fn fitting(random: &mut Random, nodes: usize, edges: &[Edge], kind: Kind) -> Edge {
    let edge = match kind {
        Kind::Add => graphs::absent(random, nodes, edges),
        _ => graphs::present(random, edges),
    };
    edge.unwrap_or_else(|| graphs::any(random, nodes))
}

/// Calls on sound lists.
fn sound(random: &mut Random, nodes: usize, edges: &[Edge]) -> Vec<Case> {
    let mut cases = vec![Case::of(nodes, edges, Asked::Index).extended(random)];
    for edge in both(random, nodes, edges) {
        for kind in [Kind::Add, Kind::Drop] {
            cases.push(Case::of(nodes, edges, kind.of(edge)));
            cases.push(Case::of(nodes, edges, kind.of(edge)).extended(random));
        }
        // the edge stands right past the list
        let mut case = Case::of(nodes, edges, Kind::Add.of(edge));
        case.lists.edges.truncate(2 * edges.len());
        case.lists.edges.extend(flat(&[edge]));
        cases.push(case);
    }
    cases
}

/// Calls on edges that are none, and on lists with a damage.
fn damaged(random: &mut Random, nodes: usize, edges: &[Edge], kind: Kind) -> Vec<Case> {
    let edge = fitting(random, nodes, edges, kind);
    let unsound = graphs::unsound(random, nodes, edges);
    let mut cases = vec![Case::of(nodes, &unsound, kind.of(edge)).extended(random)];
    for _ in 0..2 {
        let mut case = Case::of(nodes, edges, kind.of(edge)).extended(random);
        graphs::damage(random, &mut case.lists, nodes, edges.len());
        cases.push(case);
    }
    cases
}

/// Calls with another N, count or edge than the lists are for.
fn misnumbered(random: &mut Random, nodes: usize, edges: &[Edge], kind: Kind) -> Vec<Case> {
    let edge = fitting(random, nodes, edges, kind);
    let sound = Case::of(nodes, edges, kind.of(edge)).extended(random);
    let Call {
        asked,
        nodes,
        count,
    } = sound.call;
    let near = |random: &mut Random, number: u64| match random.below(3) {
        0 => number + 1,
        1 => number.saturating_sub(1),
        _ => graphs::with_high_bits(random, number),
    };
    let (other_nodes, other_count) = (near(random, nodes), near(random, count));
    let high = graphs::with_high_bits(random, 0);
    let from = asked.with(|from, to| (from.wrapping_add(high), to));
    let to = asked.with(|from, to| (from, to.wrapping_add(high)));
    let to_n = asked.with(|from, _| (from, nodes));
    let from_n = asked.with(|_, to| (nodes, to));
    let calls = [
        (asked, other_nodes, count),
        (asked, nodes, other_count),
        (from, nodes, count),
        (to, nodes, count),
        (from_n, nodes, count),
        (to_n, nodes, count),
    ];
    calls
        .map(|(asked, nodes, count)| Case {
            call: Call {
                asked,
                nodes,
                count,
            },
            ..sound.clone()
        })
        .into()
}

/// Calls on lists that are longer than they need be, or too short by one.
fn of_other_length(random: &mut Random, nodes: usize, edges: &[Edge], kind: Kind) -> Vec<Case> {
    // the last edge leads to 0, as a number that is missing could be taken for
    let last = nodes as u16 - 1;
    let mut to_0: Vec<_> = edges.iter().copied().filter(|edge| edge.0 < last).collect();
    to_0.push((last, 0));
    let mut cases = Vec::new();
    for edges in [edges, &to_0] {
        let edge = fitting(random, nodes, edges, kind);
        let sound = Case::of(nodes, edges, kind.of(edge));
        for list in 0..3 {
            if !sound.lists.all()[list].is_empty() {
                cases.push(sound.clone().with_list(list, |len| len - 1));
            }
        }
        if sound.lists.edges.len() > 1 {
            cases.push(sound.clone().with_list(0, |len| len - 2));
        }
        if random.once_in(16) {
            let list = random.place(3);
            let low = random.place(3);
            cases.push(sound.with_list(list, |len| 65_536 + low.min(len)));
        }
    }
    cases
}

/// Calls with 2,047 to 2,049 edges, with 512 and 513 nodes, and with none.
fn at_limits(random: &mut Random) -> Vec<Case> {
    let mut cases = vec![
        Case::of(0, &[], Asked::Index),
        Case::of(0, &[], Asked::Add(0, 0)),
    ];
    for nodes in [46, MOST_NODES as usize, MOST_NODES as usize + 1] {
        let count = MOST_EDGES as usize - 1 + random.place(3);
        let edges = graphs::edges(random, nodes, count);
        for kind in Kind::ALL {
            let edge = fitting(random, nodes, &edges, kind);
            cases.push(Case::of(nodes, &edges, kind.of(edge)).extended(random));
        }
    }
    cases
}
