//! The rule of a job taken by the library on random calls, beside the second implementation; the rule that the
//! events of walks are taken by.
mod cases;
mod memory;
mod steps;
mod taken;

pub use cases::{cases, Case};
pub use memory::{Memory, Said};
pub use steps::every_step;
pub use taken::taken;
