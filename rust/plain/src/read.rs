//! Reads a job file: makes the tests of refusals 3 to 10, and decodes the job into a buffer.

/// A node as the plain reader decodes it.
#[derive(Clone, Copy, Default)]
pub struct Node {
    pub kind: u8,
    pub exit: bool,
    pub value: u16,
    pub entry: u16,
    pub after: u16,
}

/// The buffer into which the plain reader decodes a job.
pub struct Decoded {
    pub states: usize,
    pub symbols: usize,
    pub finals: u16,
    pub next: [[u8; 16]; 16],
    pub node_count: usize,
    pub nodes: [Node; 512],
    pub edge_count: usize,
    pub edges: [(u16, u16); 2048],
    /// For each node the number of the first edge from it or from a later node.
    pub first: [u16; 513],
}

impl Decoded {
    /// A buffer without a job.
    pub fn new() -> Box<Self> {
        Box::new(Decoded {
            states: 0,
            symbols: 0,
            finals: 0,
            next: [[0; 16]; 16],
            node_count: 0,
            nodes: [Node::default(); 512],
            edge_count: 0,
            edges: [(0, 0); 2048],
            first: [0; 513],
        })
    }

    /// Decodes a file in plain Rust, or gives its refusal.
    pub fn decode(&mut self, file: &[u8]) -> Result<(), u64> {
        let mut rest = file;
        let mut sizes = [0; 4];
        take(&mut rest, b'J', &mut sizes)?;
        let [states, symbols, nodes, edges] = sizes;
        if !(1..=16).contains(&states)
            || !(1..=16).contains(&symbols)
            || !(1..=512).contains(&nodes)
            || edges > 2048
        {
            return Err(5);
        }
        self.states = states as usize;
        self.symbols = symbols as usize;
        self.node_count = nodes as usize;
        self.edge_count = edges as usize;
        self.rules(&mut rest)?;
        let entries = self.points(&mut rest)?;
        self.arrows(&mut rest)?;
        if !rest.is_empty() {
            return Err(9);
        }
        if !entries {
            return Err(10);
        }
        Ok(())
    }

    /// The tests of refusals 11 and 12 on a plan of the job.
    pub fn accept(&self, plan: &[u8]) -> Result<(), u64> {
        let nodes = &self.nodes[..self.node_count];
        if plan.len() != nodes.len() {
            return Err(11);
        }
        let fault = |(node, &byte): (&Node, &u8)| byte > u8::from(node.kind == 1);
        if nodes.iter().zip(plan).any(fault) {
            return Err(12);
        }
        Ok(())
    }

    /// Decodes the R lines.
    fn rules(&mut self, rest: &mut &[u8]) -> Result<(), u64> {
        self.finals = 0;
        for state in 0..self.states {
            let mut numbers = [0; 18];
            let numbers = &mut numbers[..2 + self.symbols];
            take(rest, b'R', numbers)?;
            let (head, next) = numbers.split_at(2);
            if head[0] as usize != state
                || head[1] > 1
                || next.iter().any(|&next| next as usize >= self.states)
            {
                return Err(6);
            }
            self.finals |= (head[1] as u16) << state;
            for (cell, &next) in self.next[state].iter_mut().zip(next.iter()) {
                *cell = next as u8;
            }
        }
        Ok(())
    }

    /// Decodes the P lines, and says whether some node is an entry.
    fn points(&mut self, rest: &mut &[u8]) -> Result<bool, u64> {
        let mut entries = 0;
        for (number, node) in self.nodes[..self.node_count].iter_mut().enumerate() {
            let mut numbers = [0; 6];
            take(rest, b'P', &mut numbers)?;
            let [place, kind, value, entry, exit, after] = numbers;
            let value_is_good = match kind {
                0 => value == 0,
                1 => (value as usize) < self.symbols,
                2 | 3 => value >> self.symbols == 0,
                _ => false,
            };
            if place as usize != number
                || !value_is_good
                || entry >> self.states != 0
                || exit > 1
                || after >> self.symbols != 0
                || (exit == 0 && after != 0)
            {
                return Err(7);
            }
            entries |= entry;
            *node = Node {
                kind: kind as u8,
                exit: exit == 1,
                value: value as u16,
                entry: entry as u16,
                after: after as u16,
            };
        }
        Ok(entries != 0)
    }

    /// Decodes the F lines, with the index of edges by the node that they leave.
    fn arrows(&mut self, rest: &mut &[u8]) -> Result<(), u64> {
        let mut before = None;
        let mut indexed = 0;
        for number in 0..self.edge_count {
            let mut edge = [0; 2];
            take(rest, b'F', &mut edge)?;
            let nodes = self.node_count as u32;
            if edge[0] >= nodes || edge[1] >= nodes || before.is_some_and(|before| edge <= before) {
                return Err(8);
            }
            before = Some(edge);
            self.edges[number] = (edge[0] as u16, edge[1] as u16);
            while indexed <= edge[0] as usize {
                self.first[indexed] = number as u16;
                indexed += 1;
            }
        }
        self.first[indexed..=self.node_count].fill(self.edge_count as u16);
        Ok(())
    }
}

/// Takes the line due, with this letter and as many fields as there are numbers.
pub(crate) fn take(rest: &mut &[u8], letter: u8, numbers: &mut [u32]) -> Result<(), u64> {
    if rest.is_empty() {
        return Err(3);
    }
    let length = 2 + 6 * numbers.len();
    if rest.len() < length {
        return Err(4);
    }
    let (line, after) = rest.split_at(length);
    *rest = after;
    if line[0] != letter || line[length - 1] != b'\n' {
        return Err(4);
    }
    for (number, columns) in numbers.iter_mut().zip(line[1..].chunks_exact(6)) {
        *number = field(columns).ok_or(4u64)?;
    }
    Ok(())
}

/// The number in six columns: spaces, then digits.
fn field(columns: &[u8]) -> Option<u32> {
    let spaces = columns.iter().take_while(|&&byte| byte == b' ').count();
    let digits = &columns[spaces..];
    if digits.is_empty() {
        return None;
    }
    let mut number = 0;
    for digit in digits {
        let digit = digit.wrapping_sub(b'0');
        if digit > 9 {
            return None;
        }
        number = 10 * number + u32::from(digit);
    }
    Some(number)
}
