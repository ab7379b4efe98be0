//! Plain Rust for the benchmarks to compare with, made for speed: a reader of job files that decodes into
//! fixed arrays and allocates nothing, a plan check that sweeps all nodes until nothing changes, a planner
//! over it, the price of a plan, the rules that rows and expressions make, the event step, and edges with their arrivals.
//! Refusals are their numbers in documents 01 and 02.
pub mod arrivals;
pub mod check;
pub mod event;
pub mod expression;
pub mod plan;
pub mod price;
pub mod read;
pub mod rows;
mod ways;
