//! Sound calls, and the volume file or the price file of each that is damaged.
use crate::agreement::Calls;
use crate::refusals::all_kinds;
use dapohiru_compare::memory::{start_of, Counts};
use dapohiru_compare::pricing::{Case, Memory};
use dapohiru_generators::numbered::numbers;
use dapohiru_generators::random::Random;
use dapohiru_generators::samples::{one_seal, pair, points};
use dapohiru_generators::zeros::{filled, zero_filled};
use dapohiru_generators::{prices, volumes};
use dapohiru_second::job::{spell, Job, Line};
use dapohiru_second::numbered::{Kind, PRICES, VOLUMES};
use dapohiru_second::pricing::Answer;

/// Which file of a call is damaged.
#[derive(Clone, Copy)]
pub enum Part {
    Volumes,
    Prices,
}

impl Part {
    /// Its lines.
    pub fn kind(self) -> Kind {
        match self {
            Part::Volumes => VOLUMES,
            Part::Prices => PRICES,
        }
    }

    /// Any numbers for it and a job with so many nodes.
    fn numbers(self, random: &mut Random, nodes: usize) -> Vec<u64> {
        numbers(random, self.kind(), nodes)
    }
}

/// A sound call, and the file of it that is damaged.
pub struct Sample {
    pub what: &'static str,
    pub case: Case,
    pub part: Part,
    /// The numbers of that file.
    numbers: Vec<u64>,
}

/// Volume files that are damaged in every way: for one point, for PAIR with a point unwatched, and for nodes of
/// all kinds.
pub fn volume_samples() -> [Sample; 3] {
    let sample = |what, job: Job, plan: &[u8], events: &[u64]| Sample {
        what,
        case: Case::of(&job, plan.to_vec(), volumes::file(events)),
        part: Part::Volumes,
        numbers: events.to_vec(),
    };
    let kinds = all_kinds();
    let plan = kinds.all_watched();
    [
        sample("one point", one_seal(0), &[1], &[7]),
        sample("PAIR", pair(), &[0, 1, 1], &[1_000, 49, 999_999]),
        sample(
            "nodes of all kinds",
            kinds,
            &plan,
            &[0, 12, 345, 6_789, 65_536, 999_999],
        ),
    ]
}

/// Price files that are damaged in every way: for PAIR, which has three symbols, and for a point of the last of
/// sixteen.
pub fn price_samples() -> [Sample; 2] {
    let cents = [
        12, 0, 150, 9_999, 1, 255, 256, 1_000, 5, 4_096, 20, 25, 30, 0, 9_998, 7,
    ];
    let sample = |what, job: Job, events: &[u64]| Sample {
        what,
        case: Case::of(&job, job.all_watched(), volumes::file(events)).by(prices::file(&cents)),
        part: Part::Prices,
        numbers: cents.to_vec(),
    };
    [
        sample("prices of PAIR", pair(), &[1_000, 49, 999_999]),
        sample("prices of symbol 15", points(15, 1), &[1_000]),
    ]
}

/// All of them.
pub fn samples() -> Vec<Sample> {
    volume_samples()
        .into_iter()
        .chain(price_samples())
        .collect()
}

impl Sample {
    /// The lines of the file.
    pub fn lines(&self) -> Vec<Line> {
        self.part.kind().lines(&self.numbers)
    }

    /// The file, with spaces before its numbers and with zeros.
    pub fn spelled(&self) -> [Vec<u8>; 2] {
        let file = spell(&self.lines());
        [file.clone(), zero_filled(file)]
    }

    /// The call with this file.
    pub fn with(&self, file: Vec<u8>) -> Case {
        let mut case = self.case.clone();
        match self.part {
            Part::Volumes => case.volumes = file,
            Part::Prices => case.prices = Some(file),
        }
        case
    }

    /// Asks that the library refuses this file.
    #[track_caller]
    pub fn is_refused(&self, memory: &mut Memory, file: Vec<u8>) {
        let case = self.with(file);
        let wanted = Answer::Refused(self.part.kind().refusal);
        assert_eq!(case.answer(memory), Ok(wanted), "{}", case.words());
    }

    /// Compares all of these files, each as it is and with any zeros, and says and gives the counts.
    pub fn compare_all(&self, files: impl IntoIterator<Item = Vec<u8>>) -> Counts<Option<u64>> {
        let mut random = Random::of_this_run();
        let mut calls = Calls::new();
        for (number, file) in files.into_iter().enumerate() {
            let with_zeros = filled(&mut random, file.clone());
            let files = [file, with_zeros];
            let answers = files.each_ref().map(|file| {
                let name = format_args!("{}, file {number}", self.what);
                calls.agree(name, &self.with(file.clone()))
            });
            assert_eq!(
                answers[0],
                answers[1],
                "{}, file {number}, without zeros and with:\n{}\nand\n{}",
                self.what,
                start_of(&files[0]),
                start_of(&files[1])
            );
        }
        calls.counts.print(self.what);
        calls.counts
    }

    /// Any numbers for the file.
    pub fn any_numbers(&self, random: &mut Random) -> Vec<u64> {
        self.part
            .numbers(random, self.case.checking.job.nodes.len())
    }

    /// The answers that damage can leave: the price, and the refusal of the file.
    pub fn answers(&self) -> [Option<u64>; 2] {
        [None, Some(self.part.kind().refusal)]
    }
}
