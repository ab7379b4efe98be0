//! S, A and the final states of a rule, as options give them.
use crate::args::{Command, Given};
use crate::fault::Fault;
use crate::place::SIZES;
use crate::shown;
use std::ffi::OsStr;

/// A number as decimal digits write it.
#[derive(PartialEq, Eq)]
struct Number {
    /// Its digits, without zeros before them.
    digits: String,
    /// What they write, where 64 bits hold it.
    value: Option<u64>,
}

/// S or A; what it may be the proved call says.
pub struct Size {
    option: &'static str,
    number: Number,
    /// What it is, and its limits.
    is: (&'static str, u64, u64),
}

impl Size {
    /// S, as an option of a command says it.
    fn of_states(given: &Given, command: &Command) -> Result<Self, String> {
        Size::of(given, command, ("--states", "S"), SIZES[0])
    }

    /// A, as an option of a command says it.
    pub fn of_symbols(given: &Given, command: &Command) -> Result<Self, String> {
        Size::of(given, command, ("--symbols", "A"), SIZES[1])
    }

    fn of(
        given: &Given,
        command: &Command,
        (option, letter): (&'static str, &str),
        is: (&'static str, u64, u64),
    ) -> Result<Self, String> {
        let Some(asked) = given.value(option) else {
            return Err(command.wrong(format!("{option} {letter} is missing")));
        };
        let number = Number::of(asked.as_encoded_bytes()).ok_or_else(|| {
            let (_, low, high) = is;
            let (name, asked) = (command.name, shown::name(asked));
            format!("{name}: {option} is `{asked}`, and {letter} is a number, {low} to {high}")
        })?;
        Ok(Size { option, number, is })
    }

    /// The number, where a call can be given it.
    pub fn passed(&self) -> Option<u64> {
        self.number.value
    }

    /// The number, where it is within its limits.
    pub fn within(&self) -> Option<usize> {
        let (_, low, high) = self.is;
        let value = self.passed()?;
        (low..=high).contains(&value).then_some(value as usize)
    }

    /// Its fault, if it has one, which deserves this refusal.
    pub fn fault(&self, number: u64) -> Option<Fault> {
        let (name, low, high) = self.is;
        self.within().is_none().then(|| Fault {
            number,
            place: None,
            found: format!("{} {}", self.option, self.number.digits),
            expected: format!("{name}, {low} to {high}"),
        })
    }
}

/// The numbers of a rule that are given beside its rows.
pub struct Sizes {
    states: Size,
    symbols: Size,
    finals: Vec<Number>,
}

impl Sizes {
    /// The numbers that the options of a command say.
    pub fn of(given: &Given, command: &Command) -> Result<Self, String> {
        let finals = |option| {
            let asked = given.value(option).map(finals).unwrap_or(Ok(Vec::new()));
            asked.map_err(|why| format!("{}: {option} {why}", command.name))
        };
        Ok(Sizes {
            states: Size::of_states(given, command)?,
            symbols: Size::of_symbols(given, command)?,
            finals: finals("--finals")?,
        })
    }

    /// S, A and the set of final states, in which bit q stands for state q, where a call can be given them.
    pub fn passed(&self) -> Option<[u64; 3]> {
        let bit = |state: &Number| 1u64.checked_shl(state.value?.try_into().ok()?);
        let mut bits = self.finals.iter().map(bit);
        let finals = bits.try_fold(0, |set, bit| Some(set | bit?))?;
        Some([self.states.passed()?, self.symbols.passed()?, finals])
    }

    /// S and A, where both are within their limits.
    pub fn within(&self) -> Option<[usize; 2]> {
        Some([self.states.within()?, self.symbols.within()?])
    }

    /// The first fault of these numbers, if they have one.
    pub fn fault(&self) -> Option<Fault> {
        let number = 17;
        let size = self.states.fault(number);
        if let Some(fault) = size.or_else(|| self.symbols.fault(number)) {
            return Some(fault);
        }
        let last = self.states.passed()? - 1;
        let is_wrong = |state: &&Number| state.value.is_none_or(|state| state > last);
        let state = self.finals.iter().find(is_wrong)?;
        Some(Fault {
            number,
            place: None,
            found: format!("--finals with {}", state.digits),
            expected: format!("final states below S, 0 to {last}"),
        })
    }
}

impl Number {
    /// The number that decimal digits write, if they are such.
    fn of(digits: &[u8]) -> Option<Self> {
        let all = str::from_utf8(digits).ok()?;
        let (zeros, last) = all.split_at_checked(all.len().checked_sub(1)?)?;
        if !all.bytes().all(|byte| byte.is_ascii_digit()) {
            return None;
        }
        let digits = zeros.trim_start_matches('0').to_string() + last;
        let value = digits.parse().ok();
        Some(Number { digits, value })
    }
}

/// The final states in a list, or what is wrong with it.
fn finals(asked: &OsStr) -> Result<Vec<Number>, String> {
    let mut states = Vec::new();
    for digits in asked.as_encoded_bytes().split(|&byte| byte == b',') {
        let Some(state) = Number::of(digits) else {
            return Err(format!(
                "is `{}`, and final states are numbers with a comma between them, such as 0,2",
                shown::name(asked)
            ));
        };
        if states.contains(&state) {
            return Err(format!("names state {} twice", state.digits));
        }
        states.push(state);
    }
    Ok(states)
}
