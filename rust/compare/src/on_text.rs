//! Calls that make a rule from a text, on memory whose every byte is looked at afterwards.
use crate::compared::Compared;
use crate::library::{refused, Library};
use crate::memory::{start_of, Lent};
use crate::rulebuffer;
use crate::seen::Seen;
use dapohiru::numbers::ACCEPTED;
use dapohiru_generators::random::Random;
use dapohiru_second::rulebuffer::{Answer, Outcome};
use dapohiru_second::slip::Slip;

/// What is given with a text; it says which call the text is for.
pub trait GivenWithText: Copy {
    /// What could go on with a text, to stand past it in memory.
    const PAST: &'static [u8];

    /// The number of the call on a text and a rule buffer.
    fn make(self, library: Library, text: &[u8], rule: &mut [u8]) -> u64;

    /// What is given, in words.
    fn words(self) -> String;
}

/// One call on a text.
pub trait OnText {
    type Given: GivenWithText;

    fn text(&self) -> &[u8];

    fn given(&self) -> Self::Given;

    fn rule_len(&self) -> usize;

    /// What the call leaves by the second implementation.
    fn outcome(&self, slip: Option<Slip>) -> Outcome;
}

impl<Case: OnText> Compared for Case {
    type Memory = TextMemory;
    type Said = Option<u64>;
    type Seen = Seen;

    fn memory(library: Library) -> TextMemory {
        TextMemory::new(library)
    }

    fn said(&self, seen: &Seen) -> Option<u64> {
        refused(seen.number)
    }

    fn seen(&self, memory: &mut TextMemory) -> Result<Seen, String> {
        memory.call(self.text(), self.given(), self.rule_len())
    }

    fn wanted(&self, slip: Option<Slip>) -> Seen {
        let outcome = self.outcome(slip);
        let number = match outcome.answer {
            Answer::Made(more) => ACCEPTED + more,
            Answer::Refused(number) => number,
        };
        Seen::wanted(number, outcome)
    }

    fn leaves(seen: &Seen) -> String {
        rulebuffer::leaves(seen)
    }

    fn words(&self) -> String {
        format!(
            "{}, rule buffer of {}, text of {} bytes:\n{}",
            self.given().words(),
            self.rule_len(),
            self.text().len(),
            start_of(self.text())
        )
    }
}

/// The memory that calls are made on.
pub struct TextMemory {
    library: Library,
    /// Places the next buffers.
    random: Random,
    text: Lent,
    rule: Lent,
}

impl TextMemory {
    /// Memory for calls of this library.
    pub fn new(library: Library) -> Self {
        let mut random = Random(1);
        TextMemory {
            library,
            text: Lent::new(&mut random, 0, 1),
            rule: rulebuffer::lent(&mut random),
            random,
        }
    }

    /// Places the next buffers by this seed.
    pub fn begin(&mut self, seed: u64) {
        self.random = Random(seed);
    }

    /// Calls the library, and looks at every byte that it could reach.
    pub fn call<Given: GivenWithText>(
        &mut self,
        text: &[u8],
        given: Given,
        rule_len: usize,
    ) -> Result<Seen, String> {
        self.call_before(text, Given::PAST, given, rule_len)
    }

    /// The same, with these bytes past the text.
    pub fn call_before(
        &mut self,
        text: &[u8],
        past: &[u8],
        given: impl GivenWithText,
        rule_len: usize,
    ) -> Result<Seen, String> {
        self.text.holding(text, past);
        self.rule.fresh(&mut self.random, rule_len);
        let (text, rule) = (self.text.bytes(), self.rule.bytes());
        let number = given.make(self.library, text, rule);
        if !self.text.is_unchanged() {
            return Err(format!("{number} changes the text or bytes beside it"));
        }
        let called = format!("a rule buffer of {rule_len} bytes");
        Seen::without_work(number, &self.rule, &called)
    }
}
