//! A job as the wrapper makes it of a file: what it holds, what it turns down, and what its monitors report on walks.
mod held;
mod plans;
mod refusals;
mod walks;
