//! Reading a job file a second time (document 01, "The job file" and "Turned back, by number"; document 02,
//! "Zero-filled columns" and "Procedures that call themselves"), by itself and as a call with a work buffer. A slip can be switched on, to see that
//! a comparison notices it.
mod fields;
mod lines;
mod slip;

use crate::job::Job;
use lines::Lines;
pub use slip::Slip;

/// The greatest length of a file.
pub const LONGEST: usize = 49_914;
/// The least length of a work buffer, and the bytes of it that an answer clears.
pub const WORK: usize = 65_536;

/// The job that a file spells, or the refusal, 3 to 10, that it deserves by what it holds.
pub fn job(file: &[u8]) -> Result<Job, u64> {
    Lines::of(Reader { slip: None }, file).job()
}

/// Where the reading of a refused file has stopped.
#[derive(Clone, Debug, PartialEq, Eq)]
pub struct Stop<'a> {
    /// The refusal, 3 to 10, that the file deserves by what it holds.
    pub number: u64,
    /// How many lines were due, the last of them the one that is refused, if it is one.
    pub due: usize,
    /// The file from the line due last on.
    pub line: &'a [u8],
    /// The bytes after the last line; they are refused as 9.
    pub rest: &'a [u8],
    /// The numbers of the line, where 5 to 8 refuses them.
    pub numbers: Vec<u64>,
    /// S, A, N and E, where the J line is not refused.
    pub sizes: [u64; 4],
    /// The edge of the F line before the one due.
    pub before: Option<(u64, u64)>,
}

/// Where the reading of a file stops, if it is refused by what it holds.
pub fn stop(file: &[u8]) -> Option<Stop<'_>> {
    let mut lines = Lines::of(Reader { slip: None }, file);
    let number = lines.job().err()?;
    Some(Stop {
        number,
        due: lines.due,
        line: lines.line,
        rest: lines.rest,
        numbers: lines.numbers,
        sizes: lines.sizes,
        before: lines.before,
    })
}

/// The number in a field of six columns, if they hold one.
pub fn number(columns: &[u8]) -> Option<u64> {
    Reader { slip: None }.number(columns)
}

/// The answer to one call.
#[derive(Clone, Debug, PartialEq, Eq)]
pub enum Answer {
    Accepted(Job),
    Refused(u64),
}

/// What a call leaves: its answer, and how many bytes of the work buffer are zero from its start on.
/// The bytes past them are as they were.
#[derive(Clone, Debug, PartialEq, Eq)]
pub struct Outcome {
    pub answer: Answer,
    pub cleared: usize,
}

/// The reader, with one slip or with none.
#[derive(Clone, Copy)]
pub struct Reader {
    pub slip: Option<Slip>,
}

impl Reader {
    fn slips(self, slip: Slip) -> bool {
        self.slip == Some(slip)
    }

    /// Reads a file, with a work buffer of this length.
    pub fn read(self, file: &[u8], work_len: usize) -> Outcome {
        let answer = self.answer(file, work_len);
        let unchanged = match answer {
            Answer::Refused(1 | 2) => !self.slips(Slip::ClearsAfterOneAndTwo),
            Answer::Refused(_) => self.slips(Slip::RefusalLeavesWork),
            Answer::Accepted(_) => self.slips(Slip::AcceptedLeavesWork),
        };
        let cleared = match self.slip {
            _ if unchanged => 0,
            Some(Slip::ClearsAllOfWork) => work_len,
            Some(Slip::ClearsOneByteLess) => WORK - 1,
            _ => WORK,
        };
        Outcome {
            answer,
            cleared: cleared.min(work_len),
        }
    }

    fn answer(self, file: &[u8], work_len: usize) -> Answer {
        let longest = match self.slip {
            Some(Slip::LongestFileRefused) => LONGEST - 1,
            Some(Slip::LongestFileByOneMore) => LONGEST + 1,
            _ => LONGEST,
        };
        let shortest = match self.slip {
            Some(Slip::WorkByOneLess) => WORK - 1,
            Some(Slip::WorkByOneMore) => WORK + 1,
            _ => WORK,
        };
        let mut tests = [(file.len() > longest, 1), (work_len < shortest, 2)];
        match self.slip {
            Some(Slip::WorkBeforeLength) => tests.swap(0, 1),
            Some(Slip::WorkAfterFile) => tests[1].0 = false,
            _ => {}
        }
        if let Some(&(_, number)) = tests.iter().find(|(applies, _)| *applies) {
            return Answer::Refused(number);
        }
        match Lines::of(self, file).job() {
            Err(number) => Answer::Refused(number),
            Ok(_) if work_len < shortest => Answer::Refused(2),
            Ok(job) => Answer::Accepted(job),
        }
    }
}
