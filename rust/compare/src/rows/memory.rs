//! The call on a text of rows.
use crate::library::Library;
use crate::on_text::GivenWithText;
use dapohiru_second::rows::Given;

impl GivenWithText for Given {
    /// A row.
    const PAST: &'static [u8] = b"Q     0     0     0     0     0\n";

    fn make(self, library: Library, text: &[u8], rule: &mut [u8]) -> u64 {
        let Given {
            states,
            symbols,
            finals,
        } = self;
        (library.rows)(text, states, symbols, finals, rule)
    }

    fn words(self) -> String {
        let Given {
            states,
            symbols,
            finals,
        } = self;
        format!("S {states}, A {symbols}, finals {finals:#x}")
    }
}
