//! Rules that the library makes from expressions, beside a second implementation and by themselves; the event step
//! under them.
mod agreement;
mod damaged;
mod events;
mod lengths;
mod refusals;
mod short;
mod slips;
mod stack;
mod trials;
mod wide;
