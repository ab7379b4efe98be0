//! Planning and listing by the library on random calls, beside the second implementation.
mod cases;
mod memory;

pub use cases::{cases, Case};
pub use memory::{Memory, Said, MOST_LENT};
