//! The plan check: sweeps over all nodes until nothing changes. What comes in again and what returns is
//! gathered on the way and goes on after each sweep.
use crate::read::Decoded;
use crate::ways::{join, WaysBack};

/// For each full state the set of planned states that arrive together with it.
pub type Rows = [u16; 16];

/// The greatest length of a file.
pub const LONGEST: usize = 49_914;
/// The least length of a work buffer, and the bytes of it that are cleared.
pub const WORK: usize = 65_536;

/// The buffers that checks use again and again.
pub struct Checker {
    job: Box<Decoded>,
    /// For each symbol and state the set of the next state alone.
    next: [[u16; 16]; 16],
    /// For each node the pairs of states before it.
    before: Box<[Rows; 512]>,
    ways: Box<WaysBack>,
    /// How many sweeps the last check made.
    pub sweeps: u64,
}

impl Default for Checker {
    fn default() -> Self {
        Checker {
            job: Decoded::new(),
            next: [[0; 16]; 16],
            before: Box::new([[0; 16]; 512]),
            ways: WaysBack::new(),
            sweeps: 0,
        }
    }
}

impl Checker {
    /// Whether a plan is faithful to the job that a file spells, or the refusal.
    pub fn check(&mut self, file: &[u8], plan: &[u8], work: &mut [u8]) -> Result<bool, u64> {
        if file.len() > LONGEST {
            return Err(1);
        }
        if work.len() < WORK {
            return Err(2);
        }
        let answer = self.read(file).and_then(|()| {
            self.job.accept(plan)?;
            Ok(self.faithful(plan))
        });
        work[..WORK].fill(0);
        answer
    }

    /// Reads the job that later checks are of.
    pub fn read(&mut self, file: &[u8]) -> Result<(), u64> {
        self.job.decode(file)?;
        let job = &self.job;
        for (symbol, column) in self.next[..job.symbols].iter_mut().enumerate() {
            for (to, row) in column.iter_mut().zip(&job.next[..job.states]) {
                *to = 1 << row[symbol];
            }
        }
        self.ways.find(&job.nodes[..job.node_count]);
        Ok(())
    }

    /// How many nodes the job has.
    pub fn nodes(&self) -> usize {
        self.job.node_count
    }

    /// Whether a node of the job is an event node.
    pub fn is_point(&self, node: usize) -> bool {
        self.job.nodes[node].kind == 1
    }

    /// Whether a plan of the job that was read is faithful.
    pub fn faithful(&mut self, plan: &[u8]) -> bool {
        let count = self.job.node_count;
        for (rows, node) in self.before.iter_mut().zip(&self.job.nodes[..count]) {
            for (state, row) in rows.iter_mut().enumerate() {
                *row = node.entry & 1 << state;
            }
        }
        self.ways.begin();
        self.sweeps = 0;
        loop {
            self.sweeps += 1;
            let Some(swept) = self.sweep(plan) else {
                return false;
            };
            let gone_on = self.ways.go_on(&mut self.before);
            if !swept && !gone_on {
                return true;
            }
        }
    }

    /// Sweeps over all nodes once; says whether anything changed, or nothing where an alarm differs.
    fn sweep(&mut self, plan: &[u8]) -> Option<bool> {
        let mut changed = false;
        for (number, &watched) in plan.iter().enumerate() {
            let rows = self.before[number];
            if rows == [0; 16] {
                continue;
            }
            let node = self.job.nodes[number];
            let past = match node.kind {
                0 => rows,
                1 if watched == 1 => self.told(&rows, node.value)?,
                1 => self.skipped(&rows, node.value)?,
                _ => self.closed(rows, node.value)?,
            };
            if node.exit {
                let ended = self.closed(past, node.after)?;
                self.ways.returns(&ended);
            }
            if node.kind == 3 {
                self.ways.comes_in(&past);
            }
            let edges = self.job.first[number].into()..self.job.first[number + 1].into();
            for &(_, to) in &self.job.edges[edges] {
                changed |= join(&mut self.before[usize::from(to)], &past);
            }
        }
        Some(changed)
    }

    /// Both monitors take the symbol; nothing where an alarm differs.
    #[inline]
    fn told(&self, rows: &Rows, symbol: u16) -> Option<Rows> {
        let next = &self.next[usize::from(symbol)];
        let mut told = [0; 16];
        for (&row, &to) in rows.iter().zip(next) {
            if row == 0 {
                continue;
            }
            let (mut left, mut set) = (row, 0);
            while left != 0 {
                set |= next[left.trailing_zeros() as usize];
                left &= left - 1;
            }
            let wrong = if to & self.job.finals != 0 {
                !self.job.finals
            } else {
                self.job.finals
            };
            if set & wrong != 0 {
                return None;
            }
            told[to.trailing_zeros() as usize & 15] |= set;
        }
        Some(told)
    }

    /// The full monitor alone takes the symbol; nothing where it alarms.
    #[inline]
    fn skipped(&self, rows: &Rows, symbol: u16) -> Option<Rows> {
        let mut skipped = [0; 16];
        for (&row, &to) in rows.iter().zip(&self.next[usize::from(symbol)]) {
            if row != 0 && to & self.job.finals != 0 {
                return None;
            }
            skipped[to.trailing_zeros() as usize & 15] |= row;
        }
        Some(skipped)
    }

    /// Both monitors take any word over the set; nothing where an alarm differs.
    #[inline]
    fn closed(&self, mut rows: Rows, set: u16) -> Option<Rows> {
        loop {
            let before = rows;
            let mut left = set;
            while left != 0 {
                let told = self.told(&rows, left.trailing_zeros() as u16)?;
                rows.iter_mut()
                    .zip(told)
                    .for_each(|(row, told)| *row |= told);
                left &= left - 1;
            }
            if rows == before {
                return Some(rows);
            }
        }
    }
}
