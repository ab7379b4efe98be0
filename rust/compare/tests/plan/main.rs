//! Planning and listing of the library, beside a second implementation that walks, and by themselves;
//! the two monitors on walks of planned jobs.
mod agreement;
mod damaged;
mod lengths;
mod monitors;
mod needed;
mod refusals;
mod sizes;
mod slips;
mod totals;
mod trials;
