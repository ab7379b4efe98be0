//! Jobs as values, and the files that spell them (document 01, "The job file").

/// The kind of a node that reports nothing.
pub const PLAIN: u64 = 0;
/// The kind of a node that reports its symbol.
pub const EVENT: u64 = 1;
/// The kind of a node that reports any word over its set.
pub const CALL: u64 = 2;
/// The kind of a call that may come back into the procedure (document 02, request 2).
pub const REENTRANT: u64 = 3;

/// A node: kind 0 plain, 1 event, 2 call, 3 call that may come back in. Sets are numbers whose bit k stands
/// for member k.
#[derive(Clone, Debug, PartialEq, Eq)]
pub struct Node {
    pub kind: u64,
    /// 0, the symbol of an event node or the set of a call.
    pub value: u64,
    /// The admitted start states; nonzero at an entry.
    pub entry: u64,
    /// 1 at an exit, else 0.
    pub exit: u64,
    /// The symbols that may follow an exit.
    pub after: u64,
}

/// A job.
#[derive(Clone, Debug, PartialEq, Eq)]
pub struct Job {
    /// How many symbols there are.
    pub symbols: u64,
    /// For each state whether it is final, 0 or 1.
    pub finals: Vec<u64>,
    /// For each state the next states.
    pub next: Vec<Vec<u64>>,
    pub nodes: Vec<Node>,
    /// The edges, from and to.
    pub edges: Vec<(u64, u64)>,
}

/// A line of a file, before it is spelled.
#[derive(Clone, Debug)]
pub struct Line {
    pub letter: u8,
    pub numbers: Vec<u64>,
}

impl Line {
    /// The line with this letter and these numbers.
    pub fn new(letter: u8, numbers: &[u64]) -> Self {
        Line {
            letter,
            numbers: numbers.to_vec(),
        }
    }

    /// The letter, the numbers right-justified in six columns each, and byte 10.
    pub fn spell(&self, file: &mut Vec<u8>) {
        file.push(self.letter);
        for &number in &self.numbers {
            let mut field = [b' '; 6];
            let mut left = number;
            for column in field.iter_mut().rev() {
                *column = b'0' + (left % 10) as u8;
                left /= 10;
                if left == 0 {
                    break;
                }
            }
            assert_eq!(left, 0, "{number} has more than six digits");
            file.extend(field);
        }
        file.push(b'\n');
    }
}

/// The file of these lines.
pub fn spell(lines: &[Line]) -> Vec<u8> {
    let mut file = Vec::new();
    lines.iter().for_each(|line| line.spell(&mut file));
    file
}

/// The members of a set.
pub fn members(set: u64) -> impl Iterator<Item = usize> {
    (0..64).filter(move |member| set >> member & 1 == 1)
}

impl Job {
    /// How many states there are.
    pub fn states(&self) -> usize {
        self.next.len()
    }

    /// The next states as the event step takes them, 16 rows of 16; the others have no meaning.
    pub fn table(&self) -> [u8; 256] {
        let mut table = [255; 256];
        for (row, next) in table.chunks_exact_mut(16).zip(&self.next) {
            let cells = row.iter_mut().zip(next);
            cells.for_each(|(cell, &next)| *cell = next as u8);
        }
        table
    }

    /// The set of final states.
    pub fn final_set(&self) -> u64 {
        let marks = self.finals.iter().enumerate();
        marks.fold(0, |set, (state, mark)| set | mark << state)
    }

    /// The event nodes ("points"), in number order.
    pub fn points(&self) -> Vec<usize> {
        let is_point = |&node: &usize| self.nodes[node].kind == EVENT;
        (0..self.nodes.len()).filter(is_point).collect()
    }

    /// The nodes with a nonzero entry set, in number order.
    pub fn entries(&self) -> Vec<usize> {
        let is_entry = |&node: &usize| self.nodes[node].entry != 0;
        (0..self.nodes.len()).filter(is_entry).collect()
    }

    /// The calls that may come back in, in number order.
    pub fn reentrant(&self) -> Vec<usize> {
        let is_reentrant = |&node: &usize| self.nodes[node].kind == REENTRANT;
        (0..self.nodes.len()).filter(is_reentrant).collect()
    }

    /// The plan in which exactly these nodes have byte 1.
    pub fn plan_of(&self, watched: &[usize]) -> Vec<u8> {
        let mut plan = vec![0; self.nodes.len()];
        watched.iter().for_each(|&node| plan[node] = 1);
        plan
    }

    /// The plan with all points watched.
    pub fn all_watched(&self) -> Vec<u8> {
        self.plan_of(&self.points())
    }

    /// The lines of the job's file.
    pub fn lines(&self) -> Vec<Line> {
        let sizes = [
            self.next.len() as u64,
            self.symbols,
            self.nodes.len() as u64,
            self.edges.len() as u64,
        ];
        let mut lines = vec![Line::new(b'J', &sizes)];
        for (state, (next, &is_final)) in self.next.iter().zip(&self.finals).enumerate() {
            let mut numbers = vec![state as u64, is_final];
            numbers.extend(next);
            lines.push(Line::new(b'R', &numbers));
        }
        for (number, node) in self.nodes.iter().enumerate() {
            let numbers = [
                number as u64,
                node.kind,
                node.value,
                node.entry,
                node.exit,
                node.after,
            ];
            lines.push(Line::new(b'P', &numbers));
        }
        for &(from, to) in &self.edges {
            lines.push(Line::new(b'F', &[from, to]));
        }
        lines
    }

    /// The job's file.
    pub fn file(&self) -> Vec<u8> {
        spell(&self.lines())
    }

    /// Takes every entry away.
    pub fn without_entry(mut self) -> Self {
        self.nodes.iter_mut().for_each(|node| node.entry = 0);
        self
    }
}
