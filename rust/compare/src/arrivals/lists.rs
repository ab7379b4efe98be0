//! The calls on edges by [`Arrivals`], which has lists of its own: they stand for lent ones where these are long enough
//! and have the edges' index.
use dapohiru::{Arrivals, Refusal};
use dapohiru_second::arrivals::{Edge, Lists};

/// The first edges of a list, where it has so many.
fn first_edges(edges: &[u16], count: u64) -> Option<Vec<Edge>> {
    let numbers = usize::try_from(count).ok()?.checked_mul(2)?;
    let edges = edges.get(..numbers)?.chunks(2);
    Some(edges.map(|edge| (edge[0], edge[1])).collect())
}

/// What [`Arrivals`] tells of its lists.
pub fn by_arrivals(graph: &Arrivals) -> Lists {
    let mut lists = Lists {
        starts: vec![0],
        ..Lists::default()
    };
    for (from, to) in graph.edges() {
        lists.edges.extend([from, to]);
    }
    for node in 0..graph.nodes() {
        lists.predecessors.extend(graph.predecessors(node));
        lists.starts.push(lists.predecessors.len() as u16);
    }
    lists
}

/// Makes the index by [`Arrivals::new`]; nothing where there are not so many edges, or where its lists would not fit.
pub fn index(
    edges: &[u16],
    predecessors: &mut [u16],
    starts: &mut [u16],
    nodes: u64,
    count: u64,
) -> Option<Result<u64, Refusal>> {
    let edges = first_edges(edges, count)?;
    let (nodes, predecessors) = (nodes as usize, predecessors.get_mut(..edges.len())?);
    let starts = starts.get_mut(..nodes.checked_add(1)?)?;
    Some(Arrivals::new(nodes, &edges).map(|graph| {
        let lists = by_arrivals(&graph);
        predecessors.copy_from_slice(&lists.predecessors);
        starts.copy_from_slice(&lists.starts);
        graph.count() as u64
    }))
}

/// Changes the edges by [`Arrivals`]; nothing where they or their index are not what it would have, or do not fit.
pub fn change(
    lent: [&mut [u16]; 3],
    nodes: u64,
    count: u64,
    change: impl Fn(&mut Arrivals) -> Result<(), Refusal>,
) -> Option<Result<u64, Refusal>> {
    let mut graph = Arrivals::new(nodes as usize, &first_edges(lent[0], count)?).ok()?;
    let before = by_arrivals(&graph);
    let has_index = lent
        .iter()
        .zip(before.all())
        .all(|(list, before)| list.starts_with(before));
    let changed = change(&mut graph);
    let mut after = by_arrivals(&graph);
    let fits = lent
        .iter()
        .zip(after.all())
        .all(|(list, after)| list.len() >= after.len());
    if !has_index || !fits {
        return None;
    }
    for ((list, before), after) in lent.into_iter().zip(before.all()).zip(after.all_mut()) {
        // a place that is free is zero
        after.resize(after.len().max(before.len()), 0);
        list[..after.len()].copy_from_slice(after);
    }
    Some(changed.map(|()| graph.count() as u64))
}
