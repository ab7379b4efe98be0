//! Reading a job file by the library, beside a second reader and by itself.
mod agreement;
mod cases;
mod damaged;
mod memory;
mod samples;
mod trials;
mod two_faults;
mod work;
