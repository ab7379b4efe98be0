//! Rules that the library makes from rows, beside a second implementation and by themselves; the event step and jobs
//! under them.
mod agreement;
mod alike;
mod damaged;
mod events;
mod lengths;
mod refusals;
mod slips;
mod trials;
