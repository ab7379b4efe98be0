//! The command line.
use dapohiru_second::{slip, step};
use std::ffi::OsString;
use std::ops::Range;

pub const USAGE: &str = "\
usage: dapohiru-selftest SEED N [--slip NAME]
       dapohiru-selftest again SEED NUMBER [--slip NAME]
       dapohiru-selftest memory SEED N
       dapohiru-selftest soak EVENTS
       dapohiru-selftest slips | help | --version

SEED N       makes N rounds of random and damaged calls of planning, listing, the plan check, pricing,
             the rule of a job, rule rows, expressions, the event step and edges, and walks with two
             monitors, and compares every answer and every lent byte with a second implementation. Ends at
             the first difference.
again        makes one round again, by its seed and number.
memory       makes calls on N damaged files and on buffers of all lengths around the limits, each
             buffer an allocation of its own size, for valgrind to watch (tools/fuzz).
soak         takes EVENTS events, compares reports and records with a plain step after each batch,
             and gives the events per second.
slips        lists the wrong readings of the documents that --slip can give the second implementation,
             by name and in words.
--slip NAME  gives it one of them, so that a difference must be found.
help         prints this, as --help and -h do anywhere; --version and -V print the version.

SEED, N, NUMBER and EVENTS are decimal numbers below 2^64; N rounds and EVENTS are at least 1.

Exit status: 0 no difference, 1 a difference, 2 wrong arguments or an output that cannot be written.
";

/// What a command line asks for.
pub enum Asked {
    Help,
    Version,
    Slips,
    Rounds(Rounds),
    Memory { seed: u64, files: u64 },
    Soak { events: u64 },
}

/// Rounds to be made.
pub struct Rounds {
    pub seed: u64,
    pub numbers: Range<u64>,
    pub slips: Slips,
}

/// A wrong reading that the second implementation is given, so that the comparison must go red.
#[derive(Clone, Copy, Default)]
pub struct Slips {
    pub walks: Option<slip::Slip>,
    pub step: Option<step::Slip>,
}

/// What the arguments ask for, or in words what is wrong with them.
pub fn read(arguments: impl Iterator<Item = OsString>) -> Result<Asked, String> {
    let mut words = Vec::new();
    for argument in arguments {
        let word = argument.into_string();
        words.push(word.map_err(|word| format!("{word:?} is no text"))?);
    }
    if words.iter().any(|word| word == "--help" || word == "-h") {
        return Ok(Asked::Help);
    }
    let slips = take_slip(&mut words)?;
    let words: Vec<_> = words.iter().map(String::as_str).collect();
    let asked = match words[..] {
        ["memory" | "soak" | "slips" | "help" | "--version" | "-V", ..]
            if slips.words().is_some() =>
        {
            return Err("--slip goes with SEED N and again only".to_string());
        }
        ["help"] => Asked::Help,
        ["--version" | "-V"] => Asked::Version,
        ["slips"] => Asked::Slips,
        ["again", seed, number] => {
            let number = numeral(number, "NUMBER")?;
            let past = number.checked_add(1).ok_or("NUMBER is too large")?;
            Asked::Rounds(Rounds {
                seed: numeral(seed, "SEED")?,
                numbers: number..past,
                slips,
            })
        }
        ["memory", seed, files] => Asked::Memory {
            seed: numeral(seed, "SEED")?,
            files: numeral(files, "N")?,
        },
        ["soak", events] => Asked::Soak {
            events: count(events, "EVENTS")?,
        },
        [word @ ("help" | "slips" | "--version" | "-V"), after, ..] => {
            let after = after.escape_debug();
            return Err(format!("nothing follows {word}, and '{after}' does"));
        }
        ["again", ..] => return Err(goes_with("again", &["SEED", "NUMBER"], &words)),
        ["memory", ..] => return Err(goes_with("memory", &["SEED", "N"], &words)),
        ["soak", ..] => return Err(goes_with("soak", &["EVENTS"], &words)),
        [seed, rounds] => Asked::Rounds(Rounds {
            seed: numeral(seed, "SEED")?,
            numbers: 0..count(rounds, "N")?,
            slips,
        }),
        [] => return Err("SEED and N are missing".to_string()),
        _ => {
            let words = words.join(" ").escape_debug().to_string();
            return Err(format!("'{words}' asks for nothing known"));
        }
    };
    Ok(asked)
}

/// That a word goes with these numbers and not with those that follow it.
fn goes_with(word: &str, numbers: &[&str], words: &[&str]) -> String {
    let numbers = numbers.join(" and ");
    match words[1..].join(" ").escape_debug().to_string() {
        none if none.is_empty() => format!("{word} goes with {numbers}, and nothing follows it"),
        after => format!("{word} goes with {numbers}, and '{after}' follows it"),
    }
}

/// A decimal number.
fn numeral(word: &str, what: &str) -> Result<u64, String> {
    let digits = !word.is_empty() && word.bytes().all(|byte| byte.is_ascii_digit());
    let shown = word.escape_debug();
    match (digits, word.parse()) {
        (true, Ok(number)) => Ok(number),
        (true, Err(_)) => Err(format!(
            "{what} is a number below 2^64, and '{shown}' is none"
        )),
        (false, _) => Err(format!("{what} is a decimal number, and '{shown}' is none")),
    }
}

/// A decimal number from 1 on: of nothing nothing can be said.
fn count(word: &str, what: &str) -> Result<u64, String> {
    match numeral(word, what)? {
        0 => Err(format!(
            "{what} is a number from 1 on, and '{word}' is none"
        )),
        number => Ok(number),
    }
}

/// Takes `--slip NAME` out of the words.
fn take_slip(words: &mut Vec<String>) -> Result<Slips, String> {
    let mut slips = Slips::default();
    if let Some(place) = words.iter().position(|word| word == "--slip") {
        let taken: Vec<_> = words.drain(place..words.len().min(place + 2)).collect();
        let name = taken.get(1).ok_or("--slip has no name")?;
        slips = Slips {
            walks: slip::Slip::named(name),
            step: step::Slip::named(name),
        };
        if slips.words().is_none() {
            let name = name.escape_debug();
            return Err(format!(
                "'{name}' is no slip; `dapohiru-selftest slips` lists them"
            ));
        }
    }
    Ok(slips)
}

impl Slips {
    /// The name of the slip that is switched on.
    pub fn words(self) -> Option<String> {
        let of_walks = self.walks.map(|slip| format!("{slip:?}"));
        of_walks.or(self.step.map(|slip| format!("{slip:?}")))
    }
}
