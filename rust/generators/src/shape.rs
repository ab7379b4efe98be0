//! What large jobs are like: their sizes and loops, and a histogram of these over many jobs.
use dapohiru_second::job::Job;
use std::collections::BTreeMap;

/// The sizes and the loops of a job.
#[derive(Clone, Debug, Default)]
pub struct Shape {
    pub states: usize,
    pub symbols: usize,
    pub edges: usize,
    pub points: usize,
    pub calls: usize,
    /// Calls that may come back in.
    pub reentrant: usize,
    pub exits: usize,
    /// Nodes on a cycle of edges.
    pub in_loops: usize,
    /// The sizes of the strongly connected parts that have a cycle.
    pub loops: Vec<usize>,
    /// How many of these have a cycle too without their lowest node.
    pub nested: usize,
}

/// For each node, as bits, the nodes that a path of one edge or more leads to.
struct Paths(Vec<[u64; 8]>);

impl Paths {
    /// The paths over these edges between at most 512 nodes.
    fn new(nodes: usize, edges: impl Iterator<Item = (usize, usize)>) -> Self {
        let mut rows = vec![[0; 8]; nodes];
        for (from, to) in edges {
            rows[from][to / 64] |= 1 << (to % 64);
        }
        let mut paths = Paths(rows);
        for middle in 0..nodes {
            let onward = paths.0[middle];
            for from in 0..nodes {
                if paths.lead(from, middle) {
                    let row = paths.0[from].iter_mut();
                    row.zip(onward).for_each(|(to, onward)| *to |= onward);
                }
            }
        }
        paths
    }

    fn lead(&self, from: usize, to: usize) -> bool {
        self.0[from][to / 64] >> (to % 64) & 1 == 1
    }

    /// The nodes on cycles, by the lowest node of their strongly connected part.
    fn parts(&self) -> BTreeMap<usize, Vec<usize>> {
        let mut parts: BTreeMap<_, Vec<_>> = BTreeMap::new();
        for node in (0..self.0.len()).filter(|&node| self.lead(node, node)) {
            let together = |&other: &usize| self.lead(node, other) && self.lead(other, node);
            let lowest = (0..=node).find(together).expect("a node is with itself");
            parts.entry(lowest).or_default().push(node);
        }
        parts
    }
}

impl Shape {
    /// What a job is like.
    pub fn of(job: &Job) -> Self {
        let edges = || {
            let edges = job.edges.iter();
            edges.map(|&(from, to)| (from as usize, to as usize))
        };
        let nodes = job.nodes.len();
        let parts = Paths::new(nodes, edges()).parts();
        let is_nested = |lowest: usize, part: &[usize]| {
            let inside = |node: &usize| *node != lowest && part.contains(node);
            let inner = edges().filter(|(from, to)| inside(from) && inside(to));
            !Paths::new(nodes, inner).parts().is_empty()
        };
        let of_kind = |kind: u64| job.nodes.iter().filter(|node| node.kind == kind).count();
        Shape {
            states: job.states(),
            symbols: job.symbols as usize,
            edges: job.edges.len(),
            points: of_kind(dapohiru_second::job::EVENT),
            calls: of_kind(dapohiru_second::job::CALL),
            reentrant: of_kind(dapohiru_second::job::REENTRANT),
            exits: job.nodes.iter().filter(|node| node.exit == 1).count(),
            in_loops: parts.values().map(Vec::len).sum(),
            nested: parts
                .iter()
                .filter(|(&lowest, part)| is_nested(lowest, part))
                .count(),
            loops: parts.into_values().map(|part| part.len()).collect(),
        }
    }
}

/// How often values fall into ranges of one width.
pub struct Histogram {
    name: &'static str,
    width: usize,
    counts: BTreeMap<usize, usize>,
}

impl Histogram {
    /// A histogram without values.
    pub fn new(name: &'static str, width: usize) -> Self {
        Histogram {
            name,
            width,
            counts: BTreeMap::new(),
        }
    }

    /// Counts one value.
    pub fn add(&mut self, value: usize) {
        *self.counts.entry(value / self.width).or_default() += 1;
    }

    /// Says each range with its count, in one line.
    pub fn print(&self) {
        let ranges: Vec<_> = self
            .counts
            .iter()
            .map(|(range, count)| match self.width {
                1 => format!("{range}: {count}"),
                width => format!("{}-{}: {count}", range * width, range * width + width - 1),
            })
            .collect();
        println!("  {:<28} {}", self.name, ranges.join(", "));
    }
}

/// The histograms of many jobs.
pub struct Shapes(Vec<Histogram>);

impl Shapes {
    /// The histograms of these shapes.
    pub fn of(shapes: &[Shape]) -> Self {
        let mut all = [
            Histogram::new("states", 1),
            Histogram::new("symbols", 1),
            Histogram::new("edges", 150),
            Histogram::new("points", 25),
            Histogram::new("calls", 25),
            Histogram::new("exits", 10),
            Histogram::new("nodes in loops", 16),
            Histogram::new("loops in a job", 4),
            Histogram::new("nested loops in a job", 2),
            Histogram::new("nodes of one loop", 4),
        ];
        for shape in shapes {
            let values = [
                shape.states,
                shape.symbols,
                shape.edges,
                shape.points,
                shape.calls,
                shape.exits,
                shape.in_loops,
                shape.loops.len(),
                shape.nested,
            ];
            for (histogram, value) in all.iter_mut().zip(values) {
                histogram.add(value);
            }
            shape.loops.iter().for_each(|&size| all[9].add(size));
        }
        let mut all = Vec::from(all);
        if shapes.iter().any(|shape| shape.reentrant > 0) {
            let mut reentrant = Histogram::new("calls that may come back in", 1);
            let counts = shapes.iter().map(|shape| shape.reentrant);
            counts.for_each(|count| reentrant.add(count));
            all.push(reentrant);
        }
        Shapes(all)
    }

    /// Says the histograms, a line for each.
    pub fn print(&self) {
        self.0.iter().for_each(Histogram::print);
    }
}
