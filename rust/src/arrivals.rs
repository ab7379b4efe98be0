//! The edges of a graph with the index of what leads to each node.
use crate::{numbers, Refusal, EDGES_LEN, PREDECESSORS_LEN, STARTS_LEN};
use std::fmt;

/// The edges of a graph of 1 to 512 nodes, at most 2,048, and beside them the nodes that lead to each node
/// ("arrivals"). Edges are added and removed one at a time, and the index is always that of the edges.
///
/// The lists are as long as any graph wants, so that none is ever too short: [`Arrivals::new`] and a clone
/// allocate, and nothing else does. They are zero past the edges and nodes, so that two values are equal where
/// their nodes and edges are.
///
/// ```
/// use dapohiru::{Arrivals, Refusal};
///
/// // seal, seal again, write: the edges of the job PAIR
/// let mut graph = Arrivals::new(3, &[(0, 1), (1, 2)]).unwrap();
/// assert_eq!(graph.predecessors(2), [1]);
///
/// // the second seal may be left out, and a batch may be written to twice
/// graph.add(2, 2).unwrap();
/// graph.add(0, 2).unwrap();
/// assert_eq!(graph.predecessors(2), [0, 1, 2]);
/// assert!(graph.edges().eq([(0, 1), (0, 2), (1, 2), (2, 2)]));
///
/// graph.remove(1, 2).unwrap();
/// assert_eq!((graph.predecessors(1), graph.predecessors(2)), (&[0][..], &[0, 2][..]));
/// assert_eq!((graph.nodes(), graph.count()), (3, 3));
///
/// // an edge that is there, one that is not, and a node that is none
/// assert_eq!(graph.add(0, 1), Err(Refusal(22)));
/// assert_eq!(graph.remove(1, 2), Err(Refusal(22)));
/// assert_eq!(graph.add(3, 0), Err(Refusal(22)));
/// assert_eq!(graph.count(), 3);
/// ```
#[derive(Clone, PartialEq, Eq)]
pub struct Arrivals {
    edges: Vec<u16>,
    predecessors: Vec<u16>,
    starts: Vec<u16>,
    nodes: usize,
    count: usize,
}

impl Arrivals {
    /// The graph of these edges, in ascending order by the node that they lead from and then by the one that
    /// they lead to.
    ///
    /// Refused as 22 are `nodes` outside 1 to 512, more than 2,048 edges, edges that do not ascend or of which
    /// one stands twice, and an end of `nodes` or more.
    ///
    /// ```
    /// use dapohiru::{Arrivals, Refusal};
    ///
    /// assert!(Arrivals::new(512, &[(0, 511), (511, 0)]).is_ok());
    /// for (nodes, edges) in [(0, &[][..]), (513, &[]), (2, &[(0, 2)]), (2, &[(1, 0), (0, 1)])] {
    ///     assert_eq!(Arrivals::new(nodes, edges), Err(Refusal(22)));
    /// }
    /// ```
    pub fn new(nodes: usize, edges: &[(u16, u16)]) -> Result<Arrivals, Refusal> {
        let mut list: Vec<_> = edges.iter().flat_map(|&(from, to)| [from, to]).collect();
        list.resize(EDGES_LEN.max(list.len()), 0);
        let mut graph = Arrivals {
            edges: list,
            predecessors: vec![0; PREDECESSORS_LEN],
            starts: vec![0; STARTS_LEN],
            nodes,
            count: edges.len(),
        };
        let number = numbers::index_edges(
            &graph.edges,
            &mut graph.predecessors,
            &mut graph.starts,
            nodes as u64,
            edges.len() as u64,
        );
        graph.counted(number)?;
        Ok(graph)
    }

    /// Adds an edge. Refused as 22 are an edge that is there, an end of [`Arrivals::nodes`] or more, and an
    /// edge beside 2,048; all stays as it was then.
    #[inline]
    pub fn add(&mut self, from: usize, to: usize) -> Result<(), Refusal> {
        let number = numbers::add_edge(
            &mut self.edges,
            &mut self.predecessors,
            &mut self.starts,
            self.nodes as u64,
            self.count as u64,
            from as u64,
            to as u64,
        );
        self.counted(number)
    }

    /// Removes an edge. Refused as 22 is an edge that is not there; all stays as it was then.
    #[inline]
    pub fn remove(&mut self, from: usize, to: usize) -> Result<(), Refusal> {
        let number = numbers::drop_edge(
            &mut self.edges,
            &mut self.predecessors,
            &mut self.starts,
            self.nodes as u64,
            self.count as u64,
            from as u64,
            to as u64,
        );
        self.counted(number)
    }

    /// How many nodes there are.
    #[inline]
    pub fn nodes(&self) -> usize {
        self.nodes
    }

    /// How many edges there are.
    #[inline]
    pub fn count(&self) -> usize {
        self.count
    }

    /// The edges, ascending, each as the node that it leads from and the one that it leads to.
    pub fn edges(&self) -> impl ExactSizeIterator<Item = (u16, u16)> + '_ {
        let edges = self.edges[..2 * self.count].chunks_exact(2);
        edges.map(|edge| (edge[0], edge[1]))
    }

    /// The nodes with an edge to this one, ascending; none for a node that is not of the graph.
    #[inline]
    pub fn predecessors(&self, node: usize) -> &[u16] {
        if node >= self.nodes {
            return &[];
        }
        let place = |node: usize| usize::from(self.starts[node]);
        &self.predecessors[place(node)..place(node + 1)]
    }

    /// Takes the count of an accepted call.
    #[inline]
    fn counted(&mut self, number: u64) -> Result<(), Refusal> {
        let count = number.checked_sub(numbers::ACCEPTED);
        self.count = count.ok_or(Refusal(number))? as usize;
        Ok(())
    }
}

/// The nodes and the edges.
impl fmt::Debug for Arrivals {
    fn fmt(&self, f: &mut fmt::Formatter<'_>) -> fmt::Result {
        write!(f, "Arrivals of {} nodes ", self.nodes)?;
        f.debug_list().entries(self.edges()).finish()
    }
}
