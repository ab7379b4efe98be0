//! Milliseconds to read 300 job files of full size, written with spaces before the numbers and filled with
//! zeros: the library's check of a plan of no bytes, which reads the file and no more, and its taking of the
//! job's rule, beside a plain Rust reader that makes the same tests on the same bytes, decodes the job, makes
//! its rule and clears as many bytes.
//! `cargo bench --offline -p dapohiru-plain --bench job_file` runs it.
use dapohiru::{check, rule, Refusal, Rule};
use dapohiru_generators::random::Random;
use dapohiru_generators::sized::{self, FULL};
use dapohiru_generators::zeros::zero_filled;
use dapohiru_plain::read::Decoded;
use dapohiru_second::job::{Job, Node};
use std::hint::black_box;
use std::time::Instant;

/// Files in one repetition.
const FILES: usize = 300;
/// Repetitions of each reader, taken in turn.
const REPETITIONS: usize = 41;
/// The length of the work buffer.
const WORK: usize = 65_536;

/// Whether the plain reader has decoded that job.
fn holds(decoded: &Decoded, job: &Job) -> bool {
    let next = decoded.next[..decoded.states].iter().map(|row| {
        row[..decoded.symbols]
            .iter()
            .map(|&next| next.into())
            .collect()
    });
    let nodes = decoded.nodes[..decoded.node_count].iter().map(|node| Node {
        kind: node.kind.into(),
        value: node.value.into(),
        entry: node.entry.into(),
        exit: node.exit.into(),
        after: node.after.into(),
    });
    // the edges by the index
    let edges = (0..decoded.node_count).flat_map(|node| {
        let of_node = decoded.first[node].into()..decoded.first[node + 1].into();
        decoded.edges[of_node].iter().map(move |&(from, to)| {
            assert_eq!(usize::from(from), node);
            (from.into(), to.into())
        })
    });
    let held = Job {
        symbols: decoded.symbols as u64,
        finals: (0..decoded.states)
            .map(|state| u64::from(decoded.finals >> state & 1))
            .collect(),
        next: next.collect(),
        nodes: nodes.collect(),
        edges: edges.collect(),
    };
    held.edges.len() == decoded.edge_count && held == *job
}

/// Reads a file by the library: where nothing is wrong with it the plan of no bytes is refused as 11.
#[inline]
fn read(file: &[u8], work: &mut [u8]) -> Result<(), Refusal> {
    match check(file, &[], work) {
        Err(Refusal(11)) => Ok(()),
        Err(refusal) => Err(refusal),
        Ok(verdict) => panic!("{verdict:?} for a plan of no bytes"),
    }
}

/// Reads a file in plain Rust.
#[inline(never)]
fn plain(file: &[u8], decoded: &mut Decoded, work: &mut [u8]) -> Result<(), Refusal> {
    if file.len() > 49_914 {
        return Err(Refusal(1));
    }
    if work.len() < WORK {
        return Err(Refusal(2));
    }
    let answer = decoded.decode(file).map_err(Refusal);
    work[..WORK].fill(0);
    answer
}

/// The rule of a file in plain Rust: zero past its states and symbols.
#[inline(never)]
fn plain_rule(file: &[u8], decoded: &mut Decoded, work: &mut [u8]) -> Result<Rule, Refusal> {
    plain(file, decoded, work)?;
    let symbols = decoded.symbols;
    let mut table = [0; 256];
    for (row, next) in table.chunks_mut(16).zip(&decoded.next).take(decoded.states) {
        row[..symbols].copy_from_slice(&next[..symbols]);
    }
    Ok(Rule {
        table,
        states: decoded.states as u64,
        symbols: symbols as u64,
        finals: decoded.finals.into(),
    })
}

/// The milliseconds that a reader takes for all files, each of which it accepts.
fn time<T>(files: &[Vec<u8>], mut reader: impl FnMut(&[u8]) -> Result<T, Refusal>) -> f64 {
    let start = Instant::now();
    for file in files {
        assert!(black_box(reader(black_box(file))).is_ok());
    }
    start.elapsed().as_secs_f64() * 1_000.0
}

fn median(mut times: Vec<f64>) -> f64 {
    times.sort_by(f64::total_cmp);
    times[times.len() / 2]
}

/// Asks that the plain reader decodes this job from its file, and that the two readers are of one mind on a
/// damaged file.
fn agree(random: &mut Random, decoded: &mut Decoded, work: &mut [u8], file: &[u8], job: &Job) {
    assert_eq!(plain(file, decoded, work), Ok(()));
    assert!(holds(decoded, job), "the plain reader decodes another job");
    let mut damaged = file.to_vec();
    let place = random.place(damaged.len());
    damaged[place] = random.pick(b" 0129:\n");
    damaged.truncate(random.pick(&[place, file.len(), file.len()]));
    let answer = plain(&damaged, decoded, work);
    assert_eq!(read(&damaged, work), answer, "the two readers differ");
    for file in [file, &damaged] {
        let wanted = plain_rule(file, decoded, work);
        assert_eq!(rule(file, work), wanted, "the two rules differ");
    }
}

/// A reader in plain Rust, with what it decodes into and a work buffer.
type PlainReader<T> = fn(&[u8], &mut Decoded, &mut [u8]) -> Result<T, Refusal>;

/// Times two readers on these files, in turn, and prints the medians and their ratio.
fn print<T>(
    what: &str,
    files: &[Vec<u8>],
    work: &mut [u8],
    our: fn(&[u8], &mut [u8]) -> Result<T, Refusal>,
    their: PlainReader<T>,
) {
    let mut decoded = Decoded::new();
    let (mut ours, mut theirs) = (Vec::new(), Vec::new());
    for _ in 0..REPETITIONS {
        ours.push(time(files, |file| our(file, black_box(&mut *work))));
        theirs.push(time(files, |file| {
            let answer = their(file, black_box(&mut decoded), black_box(work));
            black_box(&decoded);
            answer
        }));
    }
    let (ours, theirs) = (median(ours), median(theirs));
    println!(
        "  {what:<34} {ours:>8.2}   {theirs:>10.2}   {:>5.2}",
        ours / theirs
    );
}

fn main() {
    let mut random = Random::of_this_run();
    let mut work = vec![0; WORK];
    let mut decoded = Decoded::new();
    let (mut spaced, mut filled) = (Vec::new(), Vec::new());
    for _ in 0..FILES {
        let job = sized::job(&mut random, FULL);
        spaced.push(job.file());
        filled.push(zero_filled(job.file()));
        for file in [&spaced, &filled].map(|files| &files[files.len() - 1]) {
            agree(&mut random, &mut decoded, &mut work, file, &job);
        }
    }
    let bytes: usize = spaced.iter().map(Vec::len).sum();
    println!(
        "milliseconds for {FILES} files of full size ({bytes} bytes), median of {REPETITIONS} repetitions"
    );
    println!("{:<36} library   plain Rust   ratio", "");
    for (files, what) in [(&spaced, "with spaces"), (&filled, "filled with zeros")] {
        let work = &mut work;
        print(&format!("dapohiru_check, {what}"), files, work, read, plain);
        print(
            &format!("dapohiru_rule, {what}"),
            files,
            work,
            rule,
            plain_rule,
        );
    }
}
