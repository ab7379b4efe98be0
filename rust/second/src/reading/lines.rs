//! The lines of a file, taken in turn, and the job that they spell.
use super::{Reader, Slip};
use crate::job::{Job, Node};

/// The lines of a file, and how far they are taken.
pub struct Lines<'a> {
    reader: Reader,
    /// The bytes after the lines taken.
    pub rest: &'a [u8],
    /// A refusal that a slip puts off.
    held: Option<u64>,
    /// How many lines were due so far.
    pub due: usize,
    /// The file from the line due last on.
    pub line: &'a [u8],
    /// The numbers of the line due last, where they are refused.
    pub numbers: Vec<u64>,
    /// S, A, N and E, from the J line.
    pub sizes: [u64; 4],
    /// The edge of the F line before the one due.
    pub before: Option<(u64, u64)>,
}

impl<'a> Lines<'a> {
    /// The lines of a file, for this reader.
    pub fn of(reader: Reader, file: &'a [u8]) -> Self {
        Lines {
            reader,
            rest: file,
            held: None,
            due: 0,
            line: file,
            numbers: Vec::new(),
            sizes: [0; 4],
            before: None,
        }
    }

    fn slips(&self, slip: Slip) -> bool {
        self.reader.slips(slip)
    }

    /// The job that the file spells, or the first refusal's number.
    pub fn job(&mut self) -> Result<Job, u64> {
        let reader = self.reader;
        let sizes = self.take(b'J', 4, 5, |numbers| reader.job_fault(numbers))?;
        let [states, symbols, nodes, edges] = sizes[..] else {
            unreachable!("a J line has four fields");
        };
        self.sizes = [states, symbols, nodes, edges];
        let mut job = Job {
            symbols,
            finals: Vec::new(),
            next: Vec::new(),
            nodes: Vec::new(),
            edges: Vec::new(),
        };
        for state in 0..states {
            let row = self.take(b'R', 2 + symbols as usize, 6, |numbers| {
                reader.rule_fault(state, states, numbers)
            })?;
            job.finals.push(row[1]);
            job.next.push(row[2..].to_vec());
        }
        if self.slips(Slip::NoFinalRefused) && job.finals.iter().all(|&mark| mark == 0) {
            return Err(6);
        }
        for node in 0..nodes {
            let numbers = self.take(b'P', 6, 7, |numbers| {
                reader.node_fault(node, states, symbols, numbers)
            })?;
            job.nodes.push(Node {
                kind: numbers[1],
                value: numbers[2],
                entry: numbers[3],
                exit: numbers[4],
                after: numbers[5],
            });
        }
        if self.slips(Slip::NodesBeforeRule) {
            self.held.map_or(Ok(()), Err)?;
        }
        let no_entry = job.nodes.iter().all(|node| node.entry == 0);
        if no_entry && self.slips(Slip::EntryBeforeEdges) {
            return Err(10);
        }
        for _ in 0..edges {
            let before = self.before;
            let numbers = self.take(b'F', 2, 8, |numbers| {
                reader.edge_fault(before, nodes, numbers)
            })?;
            let edge = reader.edge(numbers[0], numbers[1]);
            self.before = Some(edge);
            job.edges.push(edge);
        }
        self.held.map_or(Ok(()), Err)?;
        if no_entry && self.slips(Slip::EntryBeforeBytes) {
            return Err(10);
        }
        let bytes_follow = match reader.slip {
            Some(Slip::BytesAfterAccepted) => false,
            Some(Slip::EmptyLineAfterAccepted) => !matches!(self.rest, b"" | b"\n"),
            _ => !self.rest.is_empty(),
        };
        if bytes_follow {
            return Err(9);
        }
        if no_entry && !self.slips(Slip::NoEntryAccepted) {
            return Err(10);
        }
        Ok(job)
    }

    /// The numbers of the line due. `refusal` is the number of those that its numbers may meet,
    /// and `fault` says of the fields read whether they do.
    fn take(
        &mut self,
        letter: u8,
        fields: usize,
        refusal: u64,
        fault: impl Fn(&[u64]) -> bool,
    ) -> Result<Vec<u64>, u64> {
        (self.due, self.line) = (self.due + 1, self.rest);
        let line = self.next_line(letter, fields)?;
        let mut numbers = Vec::with_capacity(fields);
        let mut columns = &line[1..];
        while numbers.len() < fields {
            let width = self.width(columns, fields - numbers.len());
            let (field, rest) = columns.split_at(width);
            columns = rest;
            numbers.push(self.reader.number(field).ok_or(4_u64)?);
            if self.slips(Slip::FieldByField) && fault(&numbers) {
                return Err(refusal);
            }
        }
        if self.slips(Slip::SevenDigitsAccepted) && !columns.is_empty() {
            return Err(4);
        }
        if fault(&numbers) {
            match self.reader.slip {
                Some(Slip::FormOfAllLinesFirst) if refusal > 5 => {
                    self.held = self.held.or(Some(refusal));
                }
                Some(Slip::NodesBeforeRule) if refusal == 6 => self.held = Some(6),
                Some(Slip::EdgesBeforeNodes) if refusal == 7 => self.held = Some(7),
                _ => {
                    self.numbers = numbers;
                    return Err(refusal);
                }
            }
        }
        Ok(numbers)
    }

    /// How many of a line's columns the next field takes, where so many fields are due in them.
    fn width(&self, columns: &[u8], fields: usize) -> usize {
        let is_longer = self.slips(Slip::SevenDigitsAccepted)
            && columns.len() > 6 * fields
            && columns[..7].iter().all(u8::is_ascii_digit);
        6 + usize::from(is_longer)
    }

    /// The line due without its end byte, of the right letter and length.
    fn next_line(&mut self, letter: u8, fields: usize) -> Result<&'a [u8], u64> {
        if self.rest.is_empty() {
            return Err(3 + u64::from(self.slips(Slip::EmptyRemainderAs4)));
        }
        let (mut line, rest) = match self.rest.iter().position(|&byte| byte == 10) {
            Some(end) => (&self.rest[..end], &self.rest[end + 1..]),
            None if self.slips(Slip::LastEndByteMissingAccepted) => (self.rest, &self.rest[..0]),
            None if self.slips(Slip::CutLineAs3) => return Err(3),
            None => return Err(4),
        };
        self.rest = rest;
        if self.slips(Slip::CrAccepted) {
            line = line.strip_suffix(b"\r").unwrap_or(line);
        }
        let length = 1 + 6 * fields;
        let longer = match self.reader.slip {
            Some(Slip::ByteAfterFieldsAccepted | Slip::SevenDigitsAccepted) => {
                line.len() == length + 1
            }
            Some(Slip::ExtraFieldAccepted) => line.len() == length + 6,
            _ => false,
        };
        if line.len() != length && !longer {
            return Err(4);
        }
        let good = line[0] == letter
            || self.slips(Slip::LetterNotTested)
            || (self.slips(Slip::SmallLetterAccepted) && line[0] == letter.to_ascii_lowercase());
        if good {
            Ok(line)
        } else {
            Err(4)
        }
    }
}
