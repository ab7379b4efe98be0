//! Calls that are lent a rule buffer (taking the rule of a job, making one from rows or from an expression) and calls on
//! edges. Each is made in both ways, by number and by the wrapper, and compared with the second implementation, whose
//! slips must be noticed.
use crate::library::{Library, GUARDED};
use crate::memory::Counts;
use crate::seen::held_to;
use crate::wrapper::WRAPPER;
use dapohiru_second::slip::Slip;
use std::fmt::{Debug, Display};

/// One call.
pub trait Compared {
    /// The memory that calls are made on.
    type Memory;
    /// What a call answers, but for the numbers of a rule and counts.
    type Said: Ord + Copy + Debug;
    /// What is seen of a call.
    type Seen: PartialEq;

    /// Memory for calls of this library.
    fn memory(library: Library) -> Self::Memory;

    /// What the call answers of which this is seen.
    fn said(&self, seen: &Self::Seen) -> Self::Said;

    /// What is seen of the library.
    fn seen(&self, memory: &mut Self::Memory) -> Result<Self::Seen, String>;

    /// What the second implementation wants to be seen, with one slip or with none.
    fn wanted(&self, slip: Option<Slip>) -> Self::Seen;

    /// What a call leaves, in words.
    fn leaves(seen: &Self::Seen) -> String;

    /// The call in words; of a long file or text only its start.
    fn words(&self) -> String;

    /// What is seen of the library, or in words how it differs from the second implementation with this slip or with
    /// none.
    fn compare(&self, memory: &mut Self::Memory, slip: Option<Slip>) -> Result<Self::Seen, String> {
        let wanted = self.wanted(slip);
        held_to(&wanted, self.seen(memory), Self::leaves, || self.words())
    }
}

/// Calls that the two are compared on, with counts of the answers: by number, and by the wrapper.
pub struct Calls<Case: Compared> {
    memories: [Case::Memory; 2],
    pub counts: Counts<Case::Said>,
}

impl<Case: Compared> Default for Calls<Case> {
    fn default() -> Self {
        Calls::new()
    }
}

impl<Case: Compared> Calls<Case> {
    /// No call so far.
    pub fn new() -> Self {
        Calls {
            memories: [GUARDED, WRAPPER].map(Case::memory),
            counts: Counts::default(),
        }
    }

    /// Makes a call in both ways, asks that each agrees with the second implementation, and gives what is seen of it.
    #[track_caller]
    pub fn agree(&mut self, name: impl Display, case: &Case) -> Case::Seen {
        let [by_number, by_wrapper] = &mut self.memories;
        let compared = case.compare(by_number, None);
        let compared = compared.and_then(|_| case.compare(by_wrapper, None));
        self.counts.agree(name, compared, |seen| case.said(seen))
    }
}

/// Asks that the calls of so many samples agree, which are made by their numbers from 0 on, and that each of these
/// answers comes.
#[track_caller]
pub fn samples_agree<Case: Compared>(
    samples: usize,
    answers: impl IntoIterator<Item = Case::Said>,
    mut cases: impl FnMut(usize) -> Vec<Case>,
) {
    let mut calls = Calls::new();
    for number in 0..samples {
        for case in cases(number) {
            calls.agree(format_args!("sample {number}"), &case);
        }
    }
    calls.counts.print(&format!("{samples} samples"));
    calls.counts.came(answers);
}

/// How many samples slips are looked for in.
#[derive(Clone, Copy)]
pub struct Samples {
    /// So many in any case.
    pub least: usize,
    /// And up to so many where a slip is not noticed yet: a rare one may take more.
    pub most: usize,
    /// Of those slips that were noticed twenty times one call in so many is enough.
    pub part: usize,
}

/// Asks that each of these slips is noticed in the calls of some samples, which are made by their numbers from 1 on.
/// Without a slip the calls agree.
pub fn notice_every_slip<Case: Compared>(
    slips: &[Slip],
    of: Samples,
    mut cases: impl FnMut(usize) -> Vec<Case>,
) {
    const OFTEN: usize = 20;
    let mut calls = Calls::new();
    let mut noticed = vec![0; slips.len()];
    let (mut samples, mut made) = (0, 0);
    while samples < of.least || (samples < of.most && noticed.contains(&0)) {
        samples += 1;
        for case in cases(samples) {
            let seen = calls.agree(format_args!("sample {samples}"), &case);
            for (&slip, noticed) in slips.iter().zip(&mut noticed) {
                if *noticed < OFTEN || made % of.part == 0 {
                    *noticed += usize::from(case.wanted(Some(slip)) != seen);
                }
            }
            made += 1;
        }
    }
    println!(
        "{} slips on {made} calls of {samples} samples; calls that differ:",
        slips.len()
    );
    for (slip, noticed) in slips.iter().zip(&noticed) {
        println!("{noticed:>8}   {slip:?}");
    }
    for (slip, &noticed) in slips.iter().zip(&noticed) {
        assert!(noticed > 0, "{slip:?} is not noticed");
    }
}

/// Asks that each of these slips is the one that has its name.
pub fn find_by_name(slips: &[Slip]) {
    for &slip in slips {
        assert_eq!(Slip::named(&format!("{slip:?}")), Some(slip));
    }
}
