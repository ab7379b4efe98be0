//! Pricing by the library on random calls, beside the second implementation.
mod cases;
mod memory;

pub use cases::{cases, refused, By, Case};
pub use memory::Memory;
