//! Nanoseconds for one event: the library's call beside a plain Rust step that makes the same tests
//! on the same 256 bytes in place. `cargo bench --offline -p dapohiru-plain --bench event` runs it.
use dapohiru::event;
use std::hint::black_box;
use std::time::Instant;

/// Events in one repetition.
const EVENTS: usize = 2_000;
/// Repetitions of each step, taken in turn.
const REPETITIONS: usize = 501;

/// A rule of `size` states and symbols, and the events to take.
struct Load {
    rule: [u8; 256],
    size: u64,
    finals: u64,
    symbols: Vec<u64>,
}

impl Load {
    fn new(size: u64) -> Self {
        let mut seed = size;
        let mut below = |bound: u64| {
            seed ^= seed << 13;
            seed ^= seed >> 7;
            seed ^= seed << 17;
            (seed >> 11) % bound
        };
        let mut rule = [0; 256];
        for next in &mut rule {
            *next = below(size) as u8;
        }
        Load {
            rule,
            size,
            finals: 0b0101_0101_0101_0101 & ((1 << size) - 1),
            symbols: (0..EVENTS).map(|_| below(size)).collect(),
        }
    }
}

/// Takes all events of a load by one of the steps; gives the nanoseconds for each and the record.
macro_rules! time {
    ($step:path, $load:expr) => {{
        let load = $load;
        let mut record = [0; 16];
        let start = Instant::now();
        for &symbol in &load.symbols {
            let (rule, size, finals) = black_box((&load.rule[..], load.size, load.finals));
            let _ = black_box($step(rule, size, size, finals, symbol, &mut record));
        }
        (start.elapsed().as_nanos() as f64 / EVENTS as f64, record)
    }};
}

fn median(mut times: Vec<f64>) -> f64 {
    times.sort_by(f64::total_cmp);
    times[times.len() / 2]
}

fn main() {
    println!("nanoseconds for one event, median of {REPETITIONS} repetitions of {EVENTS} events");
    println!("  S = A   dapohiru_event   plain Rust   ratio");
    for size in [3, 8, 16] {
        let load = Load::new(size);
        let (mut ours, mut theirs) = (Vec::new(), Vec::new());
        for _ in 0..REPETITIONS {
            let (our_time, our_record) = time!(event, &load);
            let (their_time, their_record) = time!(dapohiru_plain::event::event, &load);
            assert_eq!(our_record, their_record, "the two steps differ");
            ours.push(our_time);
            theirs.push(their_time);
        }
        let (ours, theirs) = (median(ours), median(theirs));
        println!(
            "{size:>7}   {ours:>14.1}   {theirs:>10.1}   {:>5.2}",
            ours / theirs
        );
    }
}
