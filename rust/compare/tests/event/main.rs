//! The event step of the library, beside a second implementation and by itself.
mod agreement;
mod answers;
mod refusals;
mod steps;
