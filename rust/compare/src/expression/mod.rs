//! Rules made from expressions by the library on random calls, beside the second implementation.
mod cases;
mod memory;

pub use crate::library::refused;
pub use crate::on_text::TextMemory as Memory;
pub use cases::{cases, Case};
pub use memory::Symbols;
