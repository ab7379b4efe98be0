//! The rule of a job as the library takes it from a file, beside a second implementation and by itself; the event
//! step under it.
mod agreement;
mod damaged;
mod events;
mod lengths;
mod refusals;
mod slips;
mod trials;
