//! Rule rows, read a second time for their first fault and what is expected there.
use crate::fault::{Due, Fault, Place};
use crate::input::NUMBERED_FILE;
use crate::names::Names;
use crate::sizes::Sizes;
use dapohiru_second::reading;
use dapohiru_second::rows::{LETTER, ROW};
use std::ops::RangeInclusive;

/// The most rows.
const ROWS: usize = dapohiru::ROWS_LEN / ROW;
/// The fields of a row.
const FIELDS: [&str; 5] = [
    "the first state",
    "the last state",
    "the first symbol",
    "the last symbol",
    "the next state",
];

/// A row within its limits.
struct Row {
    /// Its line, counted from 1.
    line: usize,
    states: RangeInclusive<usize>,
    symbols: RangeInclusive<usize>,
    next: usize,
}

/// The first fault of rows with these numbers given, if they have one.
pub fn first_fault(text: &[u8], sizes: &Sizes, names: &Names) -> Option<Fault> {
    if let Some(fault) = sizes.fault() {
        return Some(with_length(fault, text));
    }
    let limits = sizes.within()?;
    match rows(text, limits) {
        Err(fault) => Some(with_length(fault, text)),
        Ok(rows) => row_too_many(text)
            .or_else(|| named_twice(&rows, names))
            .or_else(|| unnamed(&rows, limits, names)),
    }
}

/// A fault, and that the text is too long besides, where it is.
fn with_length(mut fault: Fault, text: &[u8]) -> Fault {
    let (len, most) = (text.len(), dapohiru::ROWS_LEN);
    if len > most {
        // no more is read
        let more = if len == NUMBERED_FILE { " or more" } else { "" };
        fault.expected += &format!(
            "; besides, the text has {len}{more} bytes, and at most {most} are accepted ({ROWS} rows of {ROW})"
        );
    }
    fault
}

/// The fault of the first row after the most rows, if there is one.
fn row_too_many(text: &[u8]) -> Option<Fault> {
    let end = Due {
        number: 17,
        line: ROWS + 1,
        bytes: text.get(dapohiru::ROWS_LEN..)?,
    };
    Some(Fault {
        expected: format!("the end of the file, since there are at most {ROWS} rows"),
        ..end.end_fault()?
    })
}

/// The rows of a text, of a longer one the most rows, or the first fault of a row.
fn rows(text: &[u8], limits: [usize; 2]) -> Result<Vec<Row>, Fault> {
    let mut due = Due {
        number: 17,
        line: 1,
        bytes: text,
    };
    let mut rows = Vec::new();
    while !due.bytes.is_empty() && rows.len() < ROWS {
        rows.push(row(due, limits)?);
        due.line += 1;
        due.bytes = &due.bytes[ROW..];
    }
    Ok(rows)
}

/// The row that is due, or its fault, with S and A.
fn row(due: Due, limits: [usize; 2]) -> Result<Row, Fault> {
    let [state, symbol] = limits.map(|size| size as u64 - 1);
    let most = [state, state, symbol, symbol, state];
    let names: Vec<_> = FIELDS
        .iter()
        .zip(most)
        .map(|(name, most)| format!("{name}, 0 to {most}"))
        .collect();
    if let Some(fault) = due.form_fault(char::from(LETTER), &names) {
        return Err(fault);
    }
    let fields = due.bytes[1..ROW - 1].chunks(6);
    let numbers: Vec<_> = fields.filter_map(reading::number).collect();
    let wrong = |field: usize, found: u64| match field {
        _ if found > most[field] => Some(names[field].clone()),
        1 | 3 if found < numbers[field - 1] => {
            let (name, first) = (FIELDS[field], FIELDS[field - 1]);
            let least = numbers[field - 1];
            Some(format!("{name}, no less than {first}, which is {least}"))
        }
        _ => None,
    };
    if let Some(fault) = due.first_field_fault(&numbers, wrong) {
        return Err(fault);
    }
    let number = |field: usize| numbers[field] as usize;
    Ok(Row {
        line: due.line,
        states: number(0)..=number(1),
        symbols: number(2)..=number(3),
        next: number(4),
    })
}

/// The fault of the first row that names a pair of a row before it.
fn named_twice(rows: &[Row], names: &Names) -> Option<Fault> {
    let twice = |(place, row): (usize, &Row)| {
        rows[..place].iter().find_map(|before| {
            let pair = (
                first_shared(&row.states, &before.states)?,
                first_shared(&row.symbols, &before.symbols)?,
            );
            Some(row.fault_after(before, pair, names))
        })
    };
    rows.iter().enumerate().find_map(twice)
}

/// The first number of two ranges, if they share one.
fn first_shared(one: &RangeInclusive<usize>, other: &RangeInclusive<usize>) -> Option<usize> {
    let first = *one.start().max(other.start());
    (one.contains(&first) && other.contains(&first)).then_some(first)
}

/// The fault of rows that leave out a pair.
fn unnamed(rows: &[Row], [states, symbols]: [usize; 2], names: &Names) -> Option<Fault> {
    let pairs = (0..states).flat_map(|state| (0..symbols).map(move |symbol| (state, symbol)));
    let is_left_out = |(state, symbol): &(usize, usize)| {
        let names = |row: &Row| row.states.contains(state) && row.symbols.contains(symbol);
        !rows.iter().any(names)
    };
    let mut left_out = pairs.filter(is_left_out);
    let first = pair_words(left_out.next()?, names);
    let more = match left_out.count() {
        0 => String::new(),
        1 => ", and none for 1 more pair".to_string(),
        more => format!(", and none for {more} more pairs"),
    };
    let found = match rows {
        [] => "no row".to_string(),
        _ => format!("no row for {first}{more}"),
    };
    let (state, symbol) = (states - 1, symbols - 1);
    let all = format!("pair of a state, 0 to {state}, and a symbol, 0 to {symbol}");
    let expected = match rows {
        [] => format!("lines of the letter Q and 5 fields of six columns, which name every {all}"),
        _ => format!("a row for every {all}"),
    };
    Some(Fault {
        number: 19,
        place: None,
        found,
        expected,
    })
}

impl Row {
    /// The fault of this row, where a row before it has this pair too.
    fn fault_after(&self, before: &Row, pair: (usize, usize), names: &Names) -> Fault {
        let pair = pair_words(pair, names);
        let agree = match self.next == before.next {
            true => ", also where two agree",
            false => "",
        };
        Fault {
            number: 18,
            place: Some(Place::in_line(self.line, 2, 25)),
            found: format!("{pair} again ({})", self.words(names)),
            expected: format!(
                "every pair in one row alone{agree}; line {} has it too ({})",
                before.line,
                before.words(names)
            ),
        }
    }

    /// What the row says.
    fn words(&self, names: &Names) -> String {
        let states = range_words("state", &self.states, |state| names.state(state));
        let symbols = range_words("symbol", &self.symbols, |symbol| names.symbol(symbol));
        format!("{states}, {symbols}, next state {}", names.state(self.next))
    }
}

/// A pair in words.
fn pair_words((state, symbol): (usize, usize), names: &Names) -> String {
    let (state, symbol) = (names.state(state), names.symbol(symbol));
    format!("state {state} and symbol {symbol}")
}

/// One number or some in words.
fn range_words(
    word: &str,
    range: &RangeInclusive<usize>,
    named: impl Fn(usize) -> String,
) -> String {
    let [first, last] = [*range.start(), *range.end()];
    match first == last {
        true => format!("{word} {}", named(first)),
        false => format!("{word}s {} to {}", named(first), named(last)),
    }
}
