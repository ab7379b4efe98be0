//! The words of a command line, taken apart.
use crate::events::decimal;
use crate::shown;
use std::ffi::{OsStr, OsString};
use std::os::unix::ffi::OsStrExt;

/// The options that every command has.
const HELP: [&str; 2] = ["--help", "-h"];

/// A command: what it is called, what it takes, and what it does.
pub struct Command {
    pub name: &'static str,
    /// The command with its words, in one line.
    pub usage: &'static str,
    /// What it does, in one line.
    pub summary: &'static str,
    /// All that the help says more.
    pub details: &'static str,
    /// What the names are that must be given.
    pub names: &'static [&'static str],
    /// How many names may follow them.
    pub more: usize,
    /// The options without a value.
    pub flags: &'static [&'static str],
    /// The options with a value, and what the value is.
    pub options: &'static [(&'static str, &'static str)],
    /// Those of them that may be given several times.
    pub several: &'static [&'static str],
    /// Runs the command, and gives the exit status.
    pub run: fn(&Given) -> Result<u8, String>,
}

impl Command {
    /// The command's help.
    pub fn help(&self) -> String {
        let Command {
            usage,
            summary,
            details,
            ..
        } = self;
        format!("usage: dapohiru {usage}\n\n{summary}\n{details}")
    }

    /// Whether a word is one of its options, with a value joined to it or without.
    fn has_option(&self, word: &OsStr) -> bool {
        let (begin, _) = parts(word);
        let mut flags = self.flags.iter().chain(&HELP);
        let mut options = self.options.iter();
        flags.any(|flag| word == *flag) || options.any(|(name, _)| name.as_bytes() == begin)
    }

    /// What is wrong with the words, with the usage.
    pub fn wrong(&self, why: String) -> String {
        let Command { name, usage, .. } = self;
        format!("{name}: {why}\nusage: dapohiru {usage}\n`dapohiru {name} --help` tells more")
    }
}

/// The words that a command was given.
#[derive(Default)]
pub struct Given {
    names: Vec<OsString>,
    flags: Vec<&'static str>,
    values: Vec<(&'static str, OsString)>,
}

/// What the words of a command ask for.
pub enum Asked {
    Help,
    Run(Given),
}

impl Given {
    /// The name at this place, which the command says must be given.
    pub fn name(&self, place: usize) -> &OsStr {
        &self.names[place]
    }

    /// The name at this place, if it is given.
    pub fn further(&self, place: usize) -> Option<&OsStr> {
        self.names.get(place).map(OsString::as_os_str)
    }

    /// Whether an option without a value is given.
    pub fn has(&self, flag: &str) -> bool {
        self.flags.contains(&flag)
    }

    /// The value of an option, if it is given.
    pub fn value(&self, option: &str) -> Option<&OsStr> {
        let found = self.values.iter().find(|(name, _)| *name == option);
        found.map(|(_, value)| value.as_os_str())
    }

    /// The values of these options, each with its option, in the order in which they are given.
    pub fn in_order(&self, options: &[&str]) -> Vec<(&'static str, &OsStr)> {
        let values = self.values.iter();
        let values = values.filter(|(name, _)| options.contains(name));
        values
            .map(|(name, value)| (*name, value.as_os_str()))
            .collect()
    }
}

/// Takes apart the words after a command's name.
pub fn take(command: &Command, words: &[OsString]) -> Result<Asked, String> {
    let mut given = Given::default();
    let mut words = words.iter();
    let mut options_end = false;
    while let Some(word) = words.next() {
        if options_end || word == "-" || !word.as_bytes().starts_with(b"-") {
            given.names.push(word.clone());
        } else if word == "--" {
            options_end = true;
        } else if HELP.iter().any(|help| word == help) {
            return Ok(Asked::Help);
        } else if let Some(&flag) = command.flags.iter().find(|&&flag| word == flag) {
            given.flags.push(flag);
        } else {
            let (name, value) = option(command, word, || words.next().cloned())?;
            if given.value(name).is_some() && !command.several.contains(&name) {
                return Err(command.wrong(format!("{name} is given twice")));
            }
            given.values.push((name, value));
        }
    }
    let count = given.names.len();
    if let Some(missing) = command.names.get(count) {
        return Err(command.wrong(format!("{missing} is missing")));
    }
    if let Some(extra) = given.names.get(command.names.len() + command.more) {
        let extra = shown::name(extra);
        return Err(command.wrong(format!("{extra} is one name too many")));
    }
    Ok(Asked::Run(given))
}

/// The number that an option of a command gives for one of so many nodes or states.
pub fn number(
    command: &str,
    option: &str,
    asked: &OsStr,
    things: &str,
    count: usize,
) -> Result<usize, String> {
    match decimal(asked.as_bytes()) {
        Some(number) if number < count as u64 => Ok(number as usize),
        _ => {
            let (asked, last) = (shown::name(asked), count - 1);
            Err(format!(
                "{command}: {option} is {asked}, and the {things} are 0 to {last}"
            ))
        }
    }
}

/// What a word begins with, and the value that is joined to it in `--NAME=VALUE`.
fn parts(word: &OsStr) -> (&[u8], Option<&[u8]>) {
    let bytes = word.as_bytes();
    let end = bytes.iter().position(|&byte| byte == b'=');
    match end {
        Some(end) if bytes.starts_with(b"--") => (&bytes[..end], Some(&bytes[end + 1..])),
        _ => (bytes, None),
    }
}

/// The option with a value that a word begins, and its value: the one joined to it, or the next word, unless that is
/// an option.
fn option(
    command: &Command,
    word: &OsStr,
    next: impl FnOnce() -> Option<OsString>,
) -> Result<(&'static str, OsString), String> {
    let (begin, joined) = parts(word);
    let known = |(name, _): &&(&str, &str)| name.as_bytes() == begin;
    let Some(&(name, value)) = command.options.iter().find(known) else {
        let word = shown::name(word);
        return Err(command.wrong(format!("{word} is no option")));
    };
    let given = match joined {
        Some(value) => Some(OsStr::from_bytes(value).to_os_string()),
        None => next().filter(|next| !command.has_option(next)),
    };
    let wrong = match given {
        Some(given) if !given.is_empty() => return Ok((name, given)),
        // an empty name is told from an empty file
        Some(_) if ["FILE", "OUTDIR"].contains(&value) => {
            format!("{name}: the name for {value} is empty")
        }
        Some(_) => format!("{name}: {value} is empty"),
        None => format!("{name} is not followed by {value}"),
    };
    Err(command.wrong(wrong))
}
