//! Jobs, job files, walks, plans, listings, prices, rules, rule rows, expressions, the event step and edges with their
//! arrivals a second time, written from documents 01 and 02 alone. It links nothing and shares nothing with the library: places of a walk are explicit,
//! two real monitors take the walk's events, and a search ends when no new place and pair of states is
//! left. Wrong readings of the documents ("slips") can be switched on, to see that a comparison notices
//! them.
pub mod apart;
pub mod arrivals;
pub mod checking;
pub mod expression;
pub mod found;
pub mod job;
pub mod listing;
pub mod numbered;
pub mod outcome;
mod place;
pub mod planning;
pub mod pricing;
pub mod reading;
mod reentry;
pub mod rows;
pub mod rulebuffer;
pub mod ruling;
pub mod search;
pub mod serving;
pub mod slip;
pub mod step;
pub mod walk;
mod work;
