//! Pricing by the library, beside a second implementation written from document 02, and by itself.
mod agreement;
mod alike;
mod damaged;
mod refusals;
mod samples;
mod saves;
mod slips;
mod stack;
mod trials;
mod trials_by;
