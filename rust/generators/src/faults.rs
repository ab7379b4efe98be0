//! Faults that are put into the file of a job, alone or together.
use crate::random::Random;
use crate::zeros::filled;
use dapohiru_second::job::{spell, Job, Line};
use dapohiru_second::reading::{LONGEST, WORK};
use std::slice::from_ref;

/// The refusals that a file deserves by what it holds.
pub const NUMBERS: [u64; 8] = [3, 4, 5, 6, 7, 8, 9, 10];

/// This refusal of [`NUMBERS`], or 10 for one that no file like this job's deserves: 8 asks for an edge.
pub fn possible(job: &Job, number: u64) -> u64 {
    match number {
        8 if job.edges.is_empty() => 10,
        _ => number,
    }
}

/// Makes a file longer than any may be.
pub fn lengthen(random: &mut Random, file: &mut Vec<u8>) {
    let len = LONGEST + random.pick(&[1, 1, 2, 20_000]);
    file.resize(len, b'\n');
}

/// The length of a work buffer that is too short.
pub fn short_work(random: &mut Random) -> usize {
    random.pick(&[0, 1, 32_768, WORK - 1, WORK - 1])
}

/// A fault of a file, with the lines counted from the J line on.
#[derive(Clone, Copy, Debug)]
pub enum Fault {
    /// 3: the file ends where this line is due.
    Ends(usize),
    /// 4: this line has not its form.
    Form(usize, Form),
    /// 5 to 8: this line has this number in this field.
    Number(usize, usize, u64),
    /// 9: these bytes follow the last line.
    Follow(&'static [u8]),
    /// 10: no node is an entry.
    NoEntry,
}

/// What a line of the wrong form lacks.
#[derive(Clone, Copy, Debug)]
pub enum Form {
    Letter,
    Field,
    Column,
    EndByte,
    /// Its first field has a zero before a space.
    ZeroBeforeSpace,
    /// Its last field has seven digits, zeros before the number's own.
    SeventhDigit,
}

impl Form {
    /// Those that have nothing to do with zeros.
    pub const WITHOUT_ZEROS: [Form; 4] = [Form::Letter, Form::Field, Form::Column, Form::EndByte];

    /// All of them.
    pub const ALL: [Form; 6] = [
        Form::Letter,
        Form::Field,
        Form::Column,
        Form::EndByte,
        Form::ZeroBeforeSpace,
        Form::SeventhDigit,
    ];
}

impl Fault {
    /// Every fault that these lines can have, some in more than one way.
    pub fn all(job: &Job) -> Vec<Fault> {
        Fault::with_forms(job, &Form::ALL)
    }

    /// As [`Fault::all`], with these faults in the form of a line.
    fn with_forms(job: &Job, forms: &[Form]) -> Vec<Fault> {
        let lines = job.lines();
        let (states, nodes) = (job.next.len(), job.nodes.len());
        let mut faults = vec![Fault::NoEntry];
        faults.extend([&b"\n"[..], b"0", b"F     0     0\n"].map(Fault::Follow));
        faults.extend((0..lines.len()).map(Fault::Ends));
        for (number, line) in lines.iter().enumerate() {
            faults.extend(forms.iter().map(|&form| Fault::Form(number, form)));
            let mut numbers = match line.letter {
                b'J' => vec![
                    (0, 0),
                    (0, 17),
                    (1, 0),
                    (1, 17),
                    (2, 0),
                    (2, 513),
                    (3, 2049),
                ],
                b'R' => vec![
                    (0, line.numbers[0] + 1),
                    (1, 2),
                    (2, states as u64),
                    (1 + job.symbols as usize, 999_999),
                ],
                b'P' => vec![
                    (0, line.numbers[0] + 1),
                    (1, 4),
                    (2, 1 << job.symbols),
                    (3, 1 << states),
                    (4, 2),
                    (5, 1 << job.symbols),
                ],
                _ => vec![(0, nodes as u64), (1, nodes as u64)],
            };
            if line.letter == b'P' && line.numbers[4] == 0 {
                numbers.push((5, 1));
            }
            faults.extend(
                numbers
                    .into_iter()
                    .map(|(field, value)| Fault::Number(number, field, value)),
            );
            // from 0 to 0 is below every edge after it
            if line.letter == b'F' && lines[number - 1].letter == b'F' && line.numbers[1] == 0 {
                faults.push(Fault::Number(number, 0, 0));
            }
        }
        faults
    }

    /// The refusal's number, and the line on which it is met; 9 and 10 come after every line.
    pub fn place(self, lines: &[Line]) -> (usize, u64) {
        match self {
            Fault::Ends(line) => (line, 3),
            Fault::Form(line, _) => (line, 4),
            Fault::Number(line, ..) => {
                let number = match lines[line].letter {
                    b'J' => 5,
                    b'R' => 6,
                    b'P' => 7,
                    _ => 8,
                };
                (line, number)
            }
            Fault::Follow(_) => (lines.len(), 9),
            Fault::NoEntry => (lines.len(), 10),
        }
    }

    /// Whether a file can have both faults: nothing stands past the end of a file that ends early,
    /// and whether a node is an entry is known from the last P line on.
    pub fn goes_with(self, other: Fault, lines: &[Line]) -> bool {
        let nodes = lines.iter().rposition(|line| line.letter == b'P').unwrap();
        match (self, other) {
            (Fault::Ends(end), Fault::NoEntry) | (Fault::NoEntry, Fault::Ends(end)) => end > nodes,
            (Fault::Ends(end), fault) | (fault, Fault::Ends(end)) => fault.place(lines).0 < end,
            _ => true,
        }
    }
}

/// The file of a job with these faults.
pub fn faulty(lines: &[Line], faults: &[Fault]) -> Vec<u8> {
    let mut lines = lines.to_vec();
    let (mut end, mut follow) = (lines.len(), &b""[..]);
    for fault in faults {
        match *fault {
            Fault::Ends(line) => end = line,
            Fault::Follow(bytes) => follow = bytes,
            Fault::NoEntry => lines
                .iter_mut()
                .filter(|line| line.letter == b'P')
                .for_each(|line| line.numbers[3] = 0),
            _ => {}
        }
    }
    for fault in faults {
        if let Fault::Number(line, field, value) = *fault {
            lines[line].numbers[field] = value;
        }
    }
    let mut spelled: Vec<_> = lines.iter().map(|line| spell(from_ref(line))).collect();
    for fault in faults {
        if let Fault::Form(line, form) = *fault {
            let number = lines[line].numbers.last();
            let line = &mut spelled[line];
            let last = line.len() - 1;
            match form {
                Form::Letter => line[0] = b'X',
                Form::Field => line[last - 1] = b' ',
                Form::Column => drop(line.remove(1)),
                Form::EndByte => line[last] = b'\r',
                Form::ZeroBeforeSpace => line[1..3].copy_from_slice(b"0 "),
                Form::SeventhDigit => {
                    let digits = format!("{:07}", number.expect("a line has fields"));
                    line.splice(last - 6..last, digits.bytes());
                }
            }
        }
    }
    spelled.truncate(end);
    [&spelled.concat()[..], follow].concat()
}

/// A file like the job's with one fault, which deserves this refusal; in the form of a line it is one of
/// these. 8 asks for a job with an edge.
pub fn refused_with_forms(random: &mut Random, job: &Job, number: u64, forms: &[Form]) -> Vec<u8> {
    let lines = job.lines();
    let mut faults = Fault::with_forms(job, forms);
    faults.retain(|fault| fault.place(&lines).1 == number);
    faulty(&lines, &[random.pick(&faults)])
}

/// A file like the job's with any zeros and one fault, which deserves this refusal; 8 asks for a job with an
/// edge.
pub fn refused(random: &mut Random, job: &Job, number: u64) -> Vec<u8> {
    let file = refused_with_forms(random, job, number, &Form::ALL);
    filled(random, file)
}
