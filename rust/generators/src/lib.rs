//! What tests and benchmarks are made of, from a printed seed: random jobs, small and large, volume files and
//! price files, rule rows, expressions, edges with their arrivals, damaged files, zeros before the numbers of files, random walks and random
//! calls of the event step; and jobs written by hand.
pub mod arrivals;
pub mod damage;
pub mod events;
pub mod expressions;
pub mod faults;
pub mod features;
pub mod large;
pub mod mixed;
pub mod numbered;
pub mod prices;
pub mod random;
pub mod reentry;
pub mod rings;
pub mod rows;
pub mod samples;
pub mod shape;
pub mod sized;
pub mod small;
pub mod spread;
pub mod story;
pub mod volumes;
pub mod walker;
pub mod widen;
pub mod zeros;
