//! The plan check of the library, beside a second implementation that walks, and by itself.
mod agreement;
mod refusals;
mod replay;
mod sizes;
mod slips;
mod trials;
mod work;
