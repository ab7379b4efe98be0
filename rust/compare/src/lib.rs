//! The calls of the library beside the second implementation: on random calls and on memory whose every
//! byte is looked at, between pages that fault, and both halves of the third promise on real walks.
pub mod arrivals;
pub mod checking;
pub mod compared;
pub mod damage;
pub mod expression;
pub mod guarded;
pub mod library;
pub mod memory;
pub mod on_file;
pub mod on_job;
pub mod on_text;
pub mod pricing;
pub mod promise;
pub mod records;
pub mod rows;
pub mod rulebuffer;
pub mod ruling;
pub mod seen;
pub mod serving;
pub mod stack;
pub mod step;
pub mod wrapper;
