//! Random calls: jobs, files with random faults of all kinds, and random bytes.
use dapohiru_compare::damage::{columns, misspelled, numbers_near, sizes, BYTES};
use dapohiru_compare::memory::PAST_FILE;
use dapohiru_generators::faults::short_work;
use dapohiru_generators::random::Random;
use dapohiru_generators::sized::{self, Sizes, FULL};
use dapohiru_generators::zeros::{filled, spoil};
use dapohiru_second::job::{spell, Line};

/// One call: a file, the bytes that stand past it in memory, and the length of the work buffer.
#[derive(Clone, Debug)]
pub struct Case {
    pub file: Vec<u8>,
    pub past: Vec<u8>,
    pub work_len: usize,
}

impl Case {
    /// A file with a work buffer that is just long enough, and an F line past its end in memory.
    pub fn of(file: Vec<u8>) -> Self {
        Case {
            file,
            past: PAST_FILE.to_vec(),
            work_len: 65_536,
        }
    }
}

/// Random calls.
pub struct Cases {
    random: Random,
    /// A file of 49,914 bytes that is a job.
    full: Vec<Line>,
}

impl Cases {
    pub fn new(mut random: Random) -> Self {
        let full = sized::job(&mut random, FULL).lines();
        Cases { random, full }
    }

    /// Any call: a job, or one with some faults, or one of random bytes.
    pub fn any(&mut self) -> Case {
        let mut case = Case::of(Vec::new());
        match self.random.below(256) {
            0..=7 => case.file = self.bytes(),
            8..=10 => case.file = self.long(),
            11 => self.damage(self.full.clone(), &mut case),
            _ => {
                let sizes = Sizes::random(&mut self.random);
                let mut job = sized::job(&mut self.random, sizes);
                if self.random.once_in(10) {
                    job = job.without_entry();
                }
                self.damage(job.lines(), &mut case);
            }
        }
        let any = self.random.place(70_001);
        case.work_len = match self.random.below(32) {
            0 => any,
            1 => short_work(&mut self.random),
            2..=4 => self.random.pick(&[65_537, 65_600, 70_000]),
            _ => 65_536,
        };
        case
    }

    /// Random bytes: any, or those that files have.
    fn bytes(&mut self) -> Vec<u8> {
        let len = self.random.place(120);
        let any = self.random.once_in(2);
        let from = if any { BYTES } else { b"JRPF     0123\n" };
        (0..len).map(|_| self.random.pick(from)).collect()
    }

    /// A file near the greatest length: the longest job with bytes after it, or any bytes.
    fn long(&mut self) -> Vec<u8> {
        let mut file = filled(&mut self.random, spell(&self.full));
        let len = self.random.between(49_912, 49_917) as usize;
        if self.random.once_in(3) {
            let any = self.random.between(0, 60_000) as usize;
            file.resize(self.random.pick(&[any, 65_536 + len, 200_000]), b'0');
        } else {
            let byte = self.random.pick(BYTES);
            file.resize(len, byte);
        }
        file
    }

    /// Any zeros, and faults, mostly none, one or two: in the lines, then in the bytes that spell them.
    fn damage(&mut self, mut lines: Vec<Line>, case: &mut Case) {
        for _ in 0..self.random.pick(&[0, 0, 1, 1, 1, 2, 3]) {
            self.damage_lines(&mut lines);
        }
        let file = filled(&mut self.random, spell(&lines));
        let spelled = file.split_inclusive(|&byte| byte == b'\n');
        let mut spelled: Vec<_> = spelled.map(<[u8]>::to_vec).collect();
        if self.random.once_in(8) {
            let line = self.random.place(lines.len());
            self.damage_form(&lines[line].numbers, &mut spelled[line]);
        }
        case.file = spelled.concat();
        if self.random.once_in(32) {
            spoil(&mut self.random, &mut case.file);
        }
        for _ in 0..self.random.pick(&[0, 0, 0, 0, 1, 1, 2]) {
            self.damage_bytes(case);
        }
    }

    /// Two lines swapped, one doubled or missing, or most often a number replaced.
    fn damage_lines(&mut self, lines: &mut Vec<Line>) {
        let random = &mut self.random;
        let line = random.place(lines.len());
        match random.below(8) {
            0 => {
                let other = random.place(lines.len());
                lines.swap(line, other);
            }
            1 => lines.insert(line, lines[line].clone()),
            2 if lines.len() > 1 => drop(lines.remove(line)),
            _ if lines[0].letter != b'J' => {}
            _ => {
                // lines of each letter as often as those of another
                let sizes = sizes(lines);
                let letter = random.pick(b"JRPF");
                let mut those: Vec<_> = lines
                    .iter_mut()
                    .filter(|line| line.letter == letter)
                    .collect();
                if those.is_empty() {
                    return;
                }
                let place = random.place(those.len());
                let line = &mut those[place];
                let field = random.place(line.numbers.len());
                line.numbers[field] = if random.once_in(2) {
                    past_limit(random, line, field, sizes)
                } else {
                    random.pick(&numbers_near(line.numbers[field], sizes))
                };
            }
        }
    }

    /// A line spelled otherwise: a field, the letter or the end.
    fn damage_form(&mut self, numbers: &[u64], line: &mut Vec<u8>) {
        match self.random.below(4) {
            0 => line[0] = self.random.pick(b"JRPFjrpf "),
            1 => {
                let end = self.random.pick(&["\r\n", "\r", " \n", "     0\n", ""]);
                line.pop();
                line.extend(end.bytes());
            }
            _ => {
                let field = self.random.place(numbers.len());
                let ways = misspelled(numbers[field]);
                let way = &ways[self.random.place(ways.len())];
                line.splice(columns(0, field), way.bytes());
            }
        }
    }

    /// A cut, or one byte put in, taken out or replaced.
    fn damage_bytes(&mut self, case: &mut Case) {
        let random = &mut self.random;
        let file = &mut case.file;
        let place = random.place(file.len() + 1);
        let byte = random.pick(BYTES);
        match random.below(6) {
            0 => case.past = file.split_off(place),
            1 => file.push(byte),
            2 => file.insert(place, byte),
            _ if place == file.len() => {}
            3 => drop(file.remove(place)),
            _ => file[place] = byte,
        }
    }
}

/// The least number that is too large for a field; for S, A and N in turn with 0, which is too small.
fn past_limit(random: &mut Random, line: &Line, field: usize, sizes: Sizes) -> u64 {
    let set = |count: u64| 1 << count.min(16);
    let numbers = &line.numbers;
    match (line.letter, field) {
        (b'J', 0 | 1) => random.pick(&[0, 17]),
        (b'J', 2) => random.pick(&[0, 513]),
        (b'J', _) => 2049,
        (b'R' | b'P', 0) => (numbers[0] + 1).min(999_999),
        (b'R', 1) => 2,
        (b'R', _) => sizes.states,
        (b'P', 1) => 4,
        (b'P', 2) => match numbers[1] {
            0 => 1,
            1 => sizes.symbols,
            _ => set(sizes.symbols),
        },
        (b'P', 3) => set(sizes.states),
        (b'P', 4) => 2,
        (b'P', _) if numbers[4] == 0 => 1,
        (b'P', _) => set(sizes.symbols),
        _ => sizes.nodes,
    }
}
