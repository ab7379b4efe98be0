//! The calls on edges by the library, beside the second implementation.
mod cases;
pub mod lists;
mod run;

pub use cases::{cases, Case, Kind, Said};
pub use run::Run;
