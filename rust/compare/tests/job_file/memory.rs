//! Calls of the library with every byte that they could reach looked at, and counts of their answers.
use crate::cases::Case;
use dapohiru::Refusal;
use dapohiru_compare::memory::{start_of, Buffers, Counts};
use dapohiru_compare::wrapper::check;
use dapohiru_generators::random::{self, Random};
use dapohiru_generators::zeros::filled;
use dapohiru_second::reading::{Answer, Outcome, Reader};

/// Whether a file is a job, or its refusal: the check of a plan of no bytes, on guarded buffers too. Every
/// job has a node, so that the plan is refused as 11 exactly where nothing is wrong with the file.
pub fn read(file: &[u8], work: &mut [u8]) -> Result<(), Refusal> {
    match check(file, &[], work) {
        Err(Refusal(11)) => Ok(()),
        Err(refusal @ Refusal(1..=10)) => Err(refusal),
        answer => panic!("{answer:?} for a plan of no bytes"),
    }
}

/// What a call of the library is seen to leave: its number, if it is a refusal, and how many bytes
/// of the work buffer are zero from its start on; the others are as they were.
#[derive(Clone, Copy, Debug, PartialEq, Eq)]
pub struct Seen {
    pub refused: Option<u64>,
    pub cleared: usize,
}

impl Seen {
    /// What the second reader says.
    pub fn of(outcome: &Outcome) -> Self {
        Seen {
            refused: match outcome.answer {
                Answer::Accepted(_) => None,
                Answer::Refused(number) => Some(number),
            },
            cleared: outcome.cleared,
        }
    }
}

/// The memory that calls are made on.
pub struct Memory(Buffers);

impl Memory {
    pub fn new() -> Self {
        Memory(Buffers::new(random::seed()))
    }

    /// Calls the library, and looks at every byte that it could reach.
    pub fn call(&mut self, case: &Case) -> Result<Seen, String> {
        let Memory(buffers) = self;
        buffers.fresh(case.work_len, &case.file, &case.past);
        let answer = read(buffers.file.bytes(), buffers.work.bytes());
        let refused = answer.err().map(|Refusal(number)| number);
        buffers.keeps_file(&refused)?;
        let cleared = buffers.cleared(&refused)?;
        Ok(Seen { refused, cleared })
    }

    /// What a comparison of one call finds: the library's answer, or in words how the two differ.
    pub fn compare(&mut self, case: &Case) -> Result<Option<u64>, String> {
        let outcome = Reader { slip: None }.read(&case.file, case.work_len);
        let wanted = Seen::of(&outcome);
        match self.call(case) {
            Ok(seen) if seen == wanted => Ok(seen.refused),
            Ok(seen) => Err(format!(
                "the library leaves {seen:?}, and the second reader {wanted:?}; {}",
                words(case)
            )),
            Err(why) => Err(format!("{why}; {}", words(case))),
        }
    }
}

/// A call in words; of a long file only its start.
pub fn words(case: &Case) -> String {
    format!(
        "work buffer of {} bytes, file of {} bytes:\n{}",
        case.work_len,
        case.file.len(),
        start_of(&case.file)
    )
}

/// Compares all of these files, each as it is and with any zeros, and says and gives the counts.
pub fn compare_all(what: &str, files: impl IntoIterator<Item = Vec<u8>>) -> Counts<Option<u64>> {
    let mut random = Random::of_this_run();
    let mut memory = Memory::new();
    let mut counts = Counts::default();
    for (number, file) in files.into_iter().enumerate() {
        let with_zeros = filled(&mut random, file.clone());
        let files = [file, with_zeros];
        let answers = files.each_ref().map(|file| {
            let name = format_args!("{what}, file {number}");
            let compared = memory.compare(&Case::of(file.clone()));
            counts.agree(name, compared, |&refused| refused)
        });
        assert_eq!(
            answers[0],
            answers[1],
            "{what}, file {number}, without zeros and with:\n{}\nand\n{}",
            start_of(&files[0]),
            start_of(&files[1])
        );
    }
    counts.print(what);
    counts
}
