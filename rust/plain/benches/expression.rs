//! Microseconds to make a rule from an expression: the library's call beside a plain Rust program that makes the same
//! tests on the same bytes. The texts are what officers write, the longest ones of each kind, and one that is searched for:
//! the slowest of these is changed by a character or two at a time, to what the library takes longer for. The last line is
//! the worst of all.
//! `cargo bench --offline -p dapohiru-plain --bench expression` runs it.
use dapohiru::numbers::{self, ACCEPTED};
use dapohiru_generators::expressions::{self, SEALED};
use dapohiru_generators::random::Random;
use dapohiru_plain::expression::expression;
use std::hint::black_box;
use std::time::Instant;

/// Calls in one repetition.
const CALLS: usize = 200;
/// Repetitions of each program, taken in turn.
const REPETITIONS: usize = 201;
/// Changes that are tried for the worst text.
const CHANGES: usize = 20_000;

/// The library's answer, with what it leaves in the rule.
fn by_library(text: &[u8], symbols: u64, rule: &mut [u8]) -> Result<(u64, u64), u64> {
    match numbers::expression(text, symbols, rule) {
        number if number < ACCEPTED => Err(number),
        number => Ok((number >> 16 & 0xffff, number & 0xffff)),
    }
}

/// A program: text, A, rule.
type Program = fn(&[u8], u64, &mut [u8]) -> Result<(u64, u64), u64>;

/// The microseconds that a program takes for one text, in so many calls.
fn time(text: &[u8], symbols: u64, calls: usize, program: Program) -> f64 {
    let mut rule = [0; 256];
    let start = Instant::now();
    for _ in 0..calls {
        let _ = black_box(program(black_box(text), symbols, black_box(&mut rule)));
    }
    start.elapsed().as_secs_f64() * 1e6 / calls as f64
}

fn median(mut times: Vec<f64>) -> f64 {
    times.sort_by(f64::total_cmp);
    times[times.len() / 2]
}

/// A text with its A, and the microseconds that the two programs take for it.
struct Line {
    what: &'static str,
    text: Vec<u8>,
    symbols: u64,
    answer: Result<(u64, u64), u64>,
    library: f64,
    plain: f64,
}

impl Line {
    /// Times both programs on a text in turn, takes the medians, and prints them with their ratio.
    fn timed(what: &'static str, text: &[u8], symbols: u64) -> Self {
        let (mut ours, mut theirs) = ([7; 256], [7; 256]);
        let answer = by_library(text, symbols, &mut ours);
        assert_eq!(expression(text, symbols, &mut theirs), answer);
        assert_eq!(ours, theirs, "the two rules differ");
        let (mut library, mut plain) = (Vec::new(), Vec::new());
        for _ in 0..REPETITIONS {
            library.push(time(text, symbols, CALLS, by_library));
            plain.push(time(text, symbols, CALLS, expression));
        }
        let line = Line {
            what,
            text: text.to_vec(),
            symbols,
            answer,
            library: median(library),
            plain: median(plain),
        };
        line.print(what);
        line
    }

    fn print(&self, what: &str) {
        let answer = match self.answer {
            Ok((states, _)) => format!("{states} states"),
            Err(number) => format!("refused {number}"),
        };
        println!(
            "  {:<46} {:>7.2}   {:>10.2}   {:>5.2}",
            format!("{what}, {answer}"),
            self.library,
            self.plain,
            self.library / self.plain
        );
    }
}

/// The least of some times that the library takes for a text of sixteen symbols.
fn least(text: &[u8]) -> f64 {
    let times = (0..7).map(|_| time(text, 16, 4, by_library));
    times.fold(f64::MAX, f64::min)
}

/// A text for which the library takes long: from this one on, any text of 64 characters that a change makes slower goes
/// on to be changed.
fn searched(random: &mut Random, from: &[u8]) -> Vec<u8> {
    let (mut worst, mut longest) = (from.to_vec(), least(from));
    for change in 0..CHANGES {
        // now and then another text altogether
        let mut text = match change % 16 {
            0 => expressions::sound(random, 16),
            _ => worst.clone(),
        };
        for _ in 0..1 + random.place(2) {
            let place = random.place(text.len());
            text[place] = random.pick(b"abcdefghijklmnop*******||()");
        }
        text.resize(64, b'*');
        let taken = least(&text);
        if taken > longest {
            // once more, for a time that was another program's
            let again = least(&text);
            if again > longest {
                (worst, longest) = (text, again.min(taken));
            }
        }
    }
    worst
}

/// The line that the library takes longest for.
fn worst(lines: &[Line]) -> &Line {
    let longest = |one: &&Line, other: &&Line| one.library.total_cmp(&other.library);
    lines.iter().max_by(longest).expect("there are lines")
}

fn main() {
    let mut random = Random::of_this_run();
    println!("microseconds for one text, median of {REPETITIONS} repetitions of {CALLS} calls");
    println!("{:<48} library   plain Rust   ratio", "");
    let starred = [&b"a"[..], &[b'*'; 63]].concat();
    let deep = [&[b'('; 31][..], b"a", &[b')'; 31], b"*"].concat();
    let every = b"(a|b|c|d|e|f|g|h|i|j|k|l|m|n)*";
    let choice = [&b"("[..], &b"a|".repeat(30), b"a)*"].concat();
    // every letter can follow every other, and begin and end a word
    let round = [&[b'('; 9][..], &b"a*b*)*".repeat(9)].concat();
    let any_order = [&b"(a*b*c*d*e*f*g*h*i*j*k*l*m*n*)*".repeat(2)[..], b"a*"].concat();
    let refused = [&[b'a'; 63][..], b"("].concat();
    let known: [(_, &[u8], _); 12] = [
        ("sealed, not reopened, written", SEALED, 3),
        ("the same with sixteen symbols", SEALED, 16),
        ("one letter", b"a", 1),
        ("a letter with 63 stars", &starred, 16),
        ("a letter in 31 parentheses", &deep, 16),
        ("fourteen letters in a row", &[b'a'; 14], 16),
        ("fourteen letters in any order", every, 16),
        ("the same twice, of starred letters", &any_order, 16),
        ("a letter 31 times in a choice", &choice, 16),
        ("64 letters in a row", &[b'a'; 64], 16),
        ("64 characters, the last refused", &refused, 16),
        ("stars of stars", &round, 16),
    ];
    let mut lines: Vec<_> = known
        .into_iter()
        .map(|(what, text, symbols)| Line::timed(what, text, symbols))
        .collect();
    let found = searched(&mut random, &worst(&lines).text);
    lines.push(Line::timed("a text that is searched for", &found, 16));
    let worst = worst(&lines);
    worst.print("the worst text");
    println!(
        "  which is {} for {} symbols ({})",
        worst.text.escape_ascii(),
        worst.symbols,
        worst.what
    );
}
