//! Milliseconds to price plans of 300 jobs of 512 nodes: the library's two calls beside plain Rust programs that
//! make the same tests on the same bytes. Files are written with spaces before the numbers and filled with
//! zeros; jobs of full size, and jobs of 512 points without an edge, of which the volume file is a larger part.
//! The library holds the job in a buffer on its stack, which it clears, and the plain program in one that it
//! uses again and again. `cargo bench --offline -p dapohiru-plain --bench price` runs it.
use dapohiru::Refusal;
use dapohiru_generators::random::Random;
use dapohiru_generators::sized::{self, Sizes, FULL};
use dapohiru_generators::zeros::zero_filled;
use dapohiru_generators::{prices, volumes};
use dapohiru_plain::price::{price, price_by};
use dapohiru_plain::read::Decoded;
use dapohiru_second::job::{Job, EVENT};
use std::array;
use std::hint::black_box;
use std::time::Instant;

/// Jobs in one repetition.
const JOBS: usize = 300;
/// Repetitions of each program, taken in turn.
const REPETITIONS: usize = 41;

/// Makes a job.
type Make = fn(&mut Random) -> Job;

/// What the two calls get; the price file is lent to one of them.
#[derive(Clone)]
struct Load {
    file: Vec<u8>,
    plan: Vec<u8>,
    volumes: Vec<u8>,
    prices: Vec<u8>,
}

impl Load {
    /// A job with half of its points watched, with any events a day and any prices; its files are changed in this way.
    fn new(random: &mut Random, job: &Job, change: fn(Vec<u8>) -> Vec<u8>) -> Self {
        let mut watched = job.points();
        watched.retain(|_| random.once_in(2));
        let events: Vec<_> = (0..job.nodes.len())
            .map(|_| random.below(1_000_000))
            .collect();
        Load {
            file: change(job.file()),
            plan: job.plan_of(&watched),
            volumes: change(volumes::file(&events)),
            prices: change(prices::file(&array::from_fn(|_| random.below(10_000)))),
        }
    }

    /// Asks that the programs are of one mind on these files, and on them with one damaged.
    fn agree(&self, random: &mut Random, decoded: &mut Decoded) {
        for (ours, theirs) in PROGRAMS.map(|(_, ours, theirs)| (ours, theirs)) {
            let answer = ours(self);
            assert!(answer.is_ok(), "{answer:?}");
            assert_eq!(answer, theirs(self, decoded), "the two prices differ");
            let damaged = self.damaged(random);
            let answer = ours(&damaged);
            assert_eq!(answer, theirs(&damaged, decoded), "the two programs differ");
        }
    }

    /// The same with one file damaged.
    fn damaged(&self, random: &mut Random) -> Self {
        let mut load = self.clone();
        let damaged = match random.below(3) {
            0 => &mut load.file,
            1 => &mut load.volumes,
            _ => &mut load.prices,
        };
        let (place, whole) = (random.place(damaged.len()), damaged.len());
        damaged[place] = random.pick(b" 0129:\n");
        damaged.truncate(random.pick(&[place, whole, whole]));
        load
    }
}

/// The library's program for a load, and the one in plain Rust.
type Ours = fn(&Load) -> Result<u64, u64>;
type Theirs = fn(&Load, &mut Decoded) -> Result<u64, u64>;

/// Both calls, each beside plain Rust.
const PROGRAMS: [(&str, Ours, Theirs); 2] = [
    (
        "dapohiru_price",
        |load| {
            let (file, plan, volumes) = black_box((&load.file, &load.plan, &load.volumes));
            dapohiru::price(file, plan, volumes).map_err(|Refusal(number)| number)
        },
        |load, decoded| {
            let (file, plan, volumes) = black_box((&load.file, &load.plan, &load.volumes));
            price(black_box(decoded), file, plan, volumes)
        },
    ),
    (
        "dapohiru_price_by",
        |load| {
            let (file, plan, volumes) = black_box((&load.file, &load.plan, &load.volumes));
            let prices = black_box(&load.prices);
            let price = dapohiru::price_by(file, plan, volumes, prices);
            price.map_err(|Refusal(number)| number)
        },
        |load, decoded| {
            let (file, plan, volumes) = black_box((&load.file, &load.plan, &load.volumes));
            price_by(
                black_box(decoded),
                file,
                plan,
                volumes,
                black_box(&load.prices),
            )
        },
    ),
];

/// The milliseconds that a program takes for all jobs, each of which it prices.
fn time(loads: &[Load], mut program: impl FnMut(&Load) -> Result<u64, u64>) -> f64 {
    let start = Instant::now();
    for load in loads {
        assert!(black_box(program(load)).is_ok());
    }
    start.elapsed().as_secs_f64() * 1_000.0
}

fn median(mut times: Vec<f64>) -> f64 {
    times.sort_by(f64::total_cmp);
    times[times.len() / 2]
}

/// Times both calls and their plain programs on these jobs, in turn, and prints the medians and their ratios.
fn print(what: &str, loads: &[Load], decoded: &mut Decoded) {
    for (call, ours, theirs) in PROGRAMS {
        let (mut by_library, mut plain) = (Vec::new(), Vec::new());
        for _ in 0..REPETITIONS {
            by_library.push(time(loads, ours));
            plain.push(time(loads, |load| theirs(load, decoded)));
        }
        let (by_library, plain) = (median(by_library), median(plain));
        println!(
            "  {call:<17} {what:<38} {by_library:>7.2}   {plain:>10.2}   {:>5.2}",
            by_library / plain
        );
    }
}

/// A job of 512 points without an edge.
fn points(random: &mut Random) -> Job {
    let mut job = sized::job(random, Sizes { edges: 0, ..FULL });
    for node in &mut job.nodes {
        (node.kind, node.value) = (EVENT, random.below(16));
    }
    job
}

fn main() {
    let mut random = Random::of_this_run();
    let mut decoded = Decoded::new();
    println!("milliseconds for {JOBS} plans, median of {REPETITIONS} repetitions");
    println!("{:<58} library   plain Rust   ratio", "");
    let jobs: [(&str, Make); 2] = [
        ("full size", |random| sized::job(random, FULL)),
        ("512 points, no edge", points),
    ];
    for (what, job) in jobs {
        let (mut spaced, mut filled) = (Vec::new(), Vec::new());
        for _ in 0..JOBS {
            let job = job(&mut random);
            spaced.push(Load::new(&mut random, &job, |file| file));
            filled.push(Load::new(&mut random, &job, zero_filled));
        }
        for load in spaced.iter().chain(&filled) {
            load.agree(&mut random, &mut decoded);
        }
        print(&format!("{what}, with spaces"), &spaced, &mut decoded);
        print(&format!("{what}, filled with zeros"), &filled, &mut decoded);
    }
}
