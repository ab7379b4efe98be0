//! Memory that calls are made on, with every byte that they could reach looked at afterwards, and
//! counts of their answers.
use dapohiru_generators::random::Random;
use dapohiru_second::reading::WORK;
use std::collections::BTreeMap;
use std::fmt::{Debug, Display};

/// An F line, to stand past a file in memory.
pub const PAST_FILE: &[u8] = b"F     0     0\n";
/// The longest work buffer that is lent.
pub const MOST_WORK: usize = 70_000;
/// The bytes on both sides of a buffer, which no call may change.
const MARGIN: usize = 64;

/// A buffer between two margins, as it was before a call and as it is.
pub struct Lent {
    /// Random bytes to fill a buffer and its margins with.
    fill: Vec<u8>,
    before: Vec<u8>,
    now: Vec<u8>,
    len: usize,
}

impl Lent {
    /// Buffers of at most this length, filled with random bytes that are at least `lowest`.
    pub fn new(random: &mut Random, most: usize, lowest: u8) -> Self {
        Lent::new_between(random, most, lowest, 255)
    }

    /// Buffers of at most this length, filled with random bytes from `lowest` to `highest`.
    pub fn new_between(random: &mut Random, most: usize, lowest: u8, highest: u8) -> Self {
        let fill = (0..most + 2 * MARGIN + 256)
            .map(|_| random.between(lowest.into(), highest.into()) as u8)
            .collect();
        Lent {
            fill,
            before: Vec::new(),
            now: Vec::new(),
            len: 0,
        }
    }

    /// A buffer of this length that holds random bytes.
    pub fn fresh(&mut self, random: &mut Random, len: usize) {
        let start = random.place(256);
        let most = self.fill.len() - 256;
        assert!(len + 2 * MARGIN <= most, "{len} bytes are too many");
        self.before.clear();
        self.before.extend(&self.fill[start..start + most]);
        self.now.clone_from(&self.before);
        self.len = len;
    }

    /// A buffer that holds these bytes, with others right past it.
    pub fn holding(&mut self, bytes: &[u8], past: &[u8]) {
        let margin = &self.fill[..MARGIN];
        self.before.clear();
        for part in [margin, bytes, past, margin] {
            self.before.extend(part);
        }
        self.now.clone_from(&self.before);
        self.len = bytes.len();
    }

    /// The buffer, to be lent.
    pub fn bytes(&mut self) -> &mut [u8] {
        &mut self.now[MARGIN..MARGIN + self.len]
    }

    /// Whether every byte of the buffer and beside it is as it was.
    pub fn is_unchanged(&self) -> bool {
        self.now == self.before
    }

    /// Whether the buffer's first bytes, so many, are zero, and every other byte is as it was.
    pub fn is_cleared(&self, count: usize) -> bool {
        let end = MARGIN + count;
        count <= self.len
            && self.now[..MARGIN] == self.before[..MARGIN]
            && is_zero(&self.now[MARGIN..end])
            && self.now[end..] == self.before[end..]
    }

    /// The bytes of the buffer from its start to the last that is changed, each where it is changed;
    /// nothing if a byte beside the buffer is.
    pub fn written(&self) -> Option<Vec<Option<u8>>> {
        let end = MARGIN + self.len;
        let beside =
            self.now[..MARGIN] == self.before[..MARGIN] && self.now[end..] == self.before[end..];
        let pairs = self.now[MARGIN..end].iter().zip(&self.before[MARGIN..end]);
        let mut written: Vec<_> = pairs
            .map(|(&now, &before)| (now != before).then_some(now))
            .collect();
        let last = written.iter().rposition(Option::is_some);
        written.truncate(last.map_or(0, |last| last + 1));
        beside.then_some(written)
    }
}

/// What every call with a work buffer is lent: the file and that buffer.
pub struct Buffers {
    /// Places the next buffers.
    pub random: Random,
    pub work: Lent,
    pub file: Lent,
}

impl Buffers {
    /// Buffers that are filled and placed from this seed on.
    pub fn new(seed: u64) -> Self {
        let mut random = Random(seed);
        Buffers {
            work: Lent::new(&mut random, MOST_WORK, 1),
            file: Lent::new(&mut random, 0, 1),
            random,
        }
    }

    /// A fresh work buffer of this length, and a file with other bytes right past it.
    pub fn fresh(&mut self, work_len: usize, file: &[u8], past: &[u8]) {
        self.work.fresh(&mut self.random, work_len);
        self.file.holding(file, past);
    }

    /// Says so if a call with this answer has changed the file.
    pub fn keeps_file(&self, answer: &impl Debug) -> Result<(), String> {
        match self.file.is_unchanged() {
            true => Ok(()),
            false => Err(format!("{answer:?} changes the file or bytes beside it")),
        }
    }

    /// How many bytes of the work buffer a call with this answer has cleared, all of them or none; says
    /// so if it has left another byte than those.
    pub fn cleared(&self, answer: &impl Debug) -> Result<usize, String> {
        if self.work.is_unchanged() {
            return Ok(0);
        }
        match self.work.is_cleared(WORK) {
            true => Ok(WORK),
            false => Err(format!(
                "after {answer:?} a work buffer of {} bytes is neither as it was nor zero in its first {WORK} bytes alone",
                self.work.len
            )),
        }
    }
}

/// The start of a file, for a message: each line in a line of its own.
pub fn start_of(file: &[u8]) -> String {
    let start = &file[..file.len().min(2_000)];
    start.escape_ascii().to_string().replace("\\n", "\\n\n")
}

/// Whether all of these bytes are zero.
fn is_zero(bytes: &[u8]) -> bool {
    const ZEROS: [u8; 4_096] = [0; 4_096];
    bytes
        .chunks(ZEROS.len())
        .all(|part| part == &ZEROS[..part.len()])
}

/// How often each answer came.
pub struct Counts<T>(BTreeMap<T, u64>);

impl<T> Default for Counts<T> {
    fn default() -> Self {
        Counts(BTreeMap::new())
    }
}

impl<T: Ord + Copy + Debug> Counts<T> {
    pub fn add(&mut self, answer: T) {
        *self.0.entry(answer).or_default() += 1;
    }

    /// Asks that a comparison found the two to agree, adds the answer, and gives what was seen.
    #[track_caller]
    pub fn agree<S>(
        &mut self,
        name: impl Display,
        compared: Result<S, String>,
        answer: impl FnOnce(&S) -> T,
    ) -> S {
        let seen = compared.unwrap_or_else(|why| panic!("{name}: {why}"));
        self.add(answer(&seen));
        seen
    }

    pub fn of(&self, answer: T) -> u64 {
        self.0.get(&answer).copied().unwrap_or(0)
    }

    /// Says the counts.
    pub fn print(&self, what: &str) {
        let counts: Vec<_> = self
            .0
            .iter()
            .map(|(answer, count)| format!("{answer:?} {count}"))
            .collect();
        println!(
            "{what}: {} calls, {}",
            self.0.values().sum::<u64>(),
            counts.join(", ")
        );
    }

    /// Asks that each of these came.
    pub fn came(&self, answers: impl IntoIterator<Item = T>) {
        for answer in answers {
            assert!(self.of(answer) > 0, "no {answer:?}");
        }
    }
}
