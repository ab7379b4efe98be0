//! The calls on edges, beside a second implementation and by themselves: one at a time, in long runs, on damaged lists,
//! and by the wrapper.
mod agreement;
mod lengths;
mod refusals;
mod runs;
mod slips;
mod stack;
mod trials;
