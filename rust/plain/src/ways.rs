//! Where walks come in again and return: what comes past a call that may come back in goes on to every entry,
//! and what comes to the end of a word after an exit to every such call.
use crate::check::Rows;
use crate::read::Node;

/// Some nodes.
struct Nodes {
    numbers: [u16; 512],
    count: usize,
}

/// The nodes that walks come in at and return to, and what is to go on to them.
pub struct WaysBack {
    entries: Nodes,
    /// The calls that may come back in.
    calls: Nodes,
    /// What has come past such a call.
    again: Rows,
    /// What has come to the end of a word after an exit.
    back: Rows,
}

impl Nodes {
    const NONE: Nodes = Nodes {
        numbers: [0; 512],
        count: 0,
    };

    fn push(&mut self, number: usize) {
        self.numbers[self.count] = number as u16;
        self.count += 1;
    }

    /// Joins rows into those before each of the nodes; says whether any grew.
    fn join_before(&self, before: &mut [Rows; 512], rows: &Rows) -> bool {
        let mut grown = false;
        for &number in &self.numbers[..self.count] {
            grown |= join(&mut before[usize::from(number)], rows);
        }
        grown
    }
}

impl WaysBack {
    /// Those of no job.
    pub fn new() -> Box<Self> {
        Box::new(WaysBack {
            entries: Nodes::NONE,
            calls: Nodes::NONE,
            again: [0; 16],
            back: [0; 16],
        })
    }

    /// Finds the entries and the calls of a job.
    pub fn find(&mut self, nodes: &[Node]) {
        (self.entries.count, self.calls.count) = (0, 0);
        for (number, node) in nodes.iter().enumerate() {
            if node.entry != 0 {
                self.entries.push(number);
            }
            if node.kind == 3 {
                self.calls.push(number);
            }
        }
    }

    /// Lets nothing go on.
    pub fn begin(&mut self) {
        (self.again, self.back) = ([0; 16], [0; 16]);
    }

    /// Lets what has come past a call come in again.
    pub fn comes_in(&mut self, past: &Rows) {
        join(&mut self.again, past);
    }

    /// Lets what has come to the end of a word after an exit return, if there is a call for it.
    pub fn returns(&mut self, ended: &Rows) {
        if self.calls.count != 0 {
            join(&mut self.back, ended);
        }
    }

    /// Joins what goes on into the rows before the nodes that it goes to; says whether any grew.
    pub fn go_on(&self, before: &mut [Rows; 512]) -> bool {
        if self.calls.count == 0 {
            return false;
        }
        let returned = self.calls.join_before(before, &self.back);
        let came_in = self.entries.join_before(before, &self.again);
        returned || came_in
    }
}

/// Joins rows into others; says whether these grew.
#[inline]
pub fn join(into: &mut Rows, rows: &Rows) -> bool {
    let mut new = 0;
    for (held, row) in into.iter_mut().zip(rows) {
        new |= row & !*held;
        *held |= row;
    }
    new != 0
}
