//! The call on an expression.
use crate::library::Library;
use crate::on_text::GivenWithText;

/// A, which is given with an expression.
#[derive(Clone, Copy, Debug, PartialEq, Eq)]
pub struct Symbols(pub u64);

impl GivenWithText for Symbols {
    /// A letter of every A, and stars.
    const PAST: &'static [u8] = b"a*|a**";

    fn make(self, library: Library, text: &[u8], rule: &mut [u8]) -> u64 {
        (library.expression)(text, self.0, rule)
    }

    fn words(self) -> String {
        format!("A {}", self.0)
    }
}
