//! A fault of a job file, a volume file, a price file, rule rows, an expression or a plan, with its place; the first
//! fault of a line.
use crate::encoding::{self, MARK};
use crate::shown;
use dapohiru_second::reading;

/// Where a fault stands: its line in a text of lines, and its first and last column, counted from 1.
#[derive(Debug, PartialEq, Eq)]
pub struct Place {
    pub line: Option<usize>,
    pub columns: (usize, usize),
}

impl Place {
    /// Columns of a line.
    pub fn in_line(line: usize, first: usize, last: usize) -> Self {
        Place {
            line: Some(line),
            columns: (first, last),
        }
    }
}

/// A fault of a file, of a plan or of an expression.
#[derive(Debug, PartialEq, Eq)]
pub struct Fault {
    /// The refusal that it deserves.
    pub number: u64,
    /// Where it stands, if it has a place.
    pub place: Option<Place>,
    /// What stands there.
    pub found: String,
    pub expected: String,
}

/// The columns of a line that are counted; of a longer one more may stand in the file than was read.
const MOST_COLUMNS: usize = 1_000;

/// Where a file is looked at for a fault: a line that is due, or its end.
#[derive(Clone, Copy)]
pub struct Due<'a> {
    /// The refusal that a fault there deserves.
    pub number: u64,
    /// The line, counted from 1.
    pub line: usize,
    /// The file from there on.
    pub bytes: &'a [u8],
}

impl Due<'_> {
    /// The fault of a line that is missing or has the wrong form, if it has one: the line due has this letter
    /// and a field for each name.
    pub fn form_fault(self, letter: char, names: &[String]) -> Option<Fault> {
        let bytes = self.bytes;
        let wrong = |first: usize, last: usize, expected| {
            Some(Fault {
                number: self.number,
                place: Some(Place::in_line(self.line, first, last)),
                found: found(bytes.get(first - 1..).unwrap_or_default(), last + 1 - first),
                expected,
            })
        };
        let fields = names.len();
        if bytes.is_empty() {
            let expected =
                format!("a line of the letter {letter} and {fields} fields of six columns");
            return wrong(1, 1, expected);
        }
        if bytes[0] != letter as u8 {
            let mut fault = wrong(1, 1, format!("the letter {letter}"))?;
            if self.line == 1 && encoding::is_marked(bytes) {
                fault.found = MARK.to_string();
            }
            return Some(fault);
        }
        let (columns_due, columns) = (1 + 6 * fields, line_len(bytes));
        let mut form_due =
            format!("{letter} and {fields} fields of six columns, {columns_due} columns in all");
        if columns > MOST_COLUMNS {
            form_due += &format!("; this line has more than {MOST_COLUMNS}");
        } else if columns != columns_due {
            form_due += &format!("; this line has {columns}");
        }
        for (field, name) in names.iter().enumerate() {
            let first = 1 + 6 * field;
            let number = bytes.get(first..first + 6).and_then(reading::number);
            if number.is_none() {
                let mut expected = format!(
                    "{name}: a number in six columns, right-justified, with spaces or zeros before it and no space after a digit"
                );
                // a column too many or too few shifts the fields after it
                if columns != columns_due {
                    expected += &format!(", in a line of {form_due}");
                }
                return wrong(first + 1, first + 6, expected);
            }
        }
        if bytes.get(columns_due) == Some(&b'\n') {
            return None;
        }
        let end = columns_due + 1;
        wrong(
            end,
            end,
            format!("the end of the line (byte 10) after {form_due}"),
        )
    }

    /// The fault of the number in one field of the line.
    pub fn field_fault(self, field: usize, number: u64, expected: String) -> Fault {
        Fault {
            number: self.number,
            place: Some(Place::in_line(self.line, 6 * field + 2, 6 * field + 7)),
            found: number.to_string(),
            expected,
        }
    }

    /// The fault of the first of the line's numbers in whose place something else is expected.
    pub fn first_field_fault(
        self,
        numbers: &[u64],
        wrong: impl Fn(usize, u64) -> Option<String>,
    ) -> Option<Fault> {
        let mut numbers = numbers.iter().enumerate();
        numbers.find_map(|(field, &number)| {
            let expected = wrong(field, number)?;
            Some(self.field_fault(field, number, expected))
        })
    }

    /// The fault of bytes where the file must end.
    pub fn end_fault(self) -> Option<Fault> {
        Some(Fault {
            number: self.number,
            place: Some(Place::in_line(self.line, 1, 1)),
            found: format!("`{}`", shown::bytes(self.bytes.get(..1)?)),
            expected: "the end of the file".to_string(),
        })
    }
}

/// How many columns the first line of these bytes has.
fn line_len(bytes: &[u8]) -> usize {
    let end = bytes.iter().position(|&byte| byte == b'\n');
    end.unwrap_or(bytes.len())
}

/// What stands in so many bytes, for a message; it ends with the line or the file.
fn found(bytes: &[u8], most: usize) -> String {
    let within = &bytes[..most.min(bytes.len())];
    let end = within.iter().position(|&byte| byte == b'\n');
    let text = &within[..end.unwrap_or(within.len())];
    let ending = match end {
        Some(_) => "the end of the line",
        None if within.len() < most => "the end of the file",
        None => "",
    };
    match (text.is_empty(), ending) {
        (true, _) => ending.to_string(),
        (false, "") => format!("`{}`", shown::bytes(text)),
        (false, _) => format!("`{}` and then {ending}", shown::bytes(text)),
    }
}
