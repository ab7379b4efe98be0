//! Files of numbered lines, volume files and price files, read a second time for the number of each line, or for
//! the place of the first fault and what is expected there.
use crate::fault::{Due, Fault, Place};
use dapohiru_second::{numbered, reading};

/// The bytes of a line.
const LINE: usize = 14;

/// A kind of file: for each node, or each symbol, in order a line of the letter, its own number and the number
/// that the file is for.
pub struct Kind {
    lined: numbered::Kind,
    /// What has a line.
    owner: &'static str,
    /// What the number is.
    number: &'static str,
}

/// A volume file.
pub const VOLUMES: Kind = Kind {
    lined: numbered::VOLUMES,
    owner: "node",
    number: "the events a day",
};
/// A price file.
pub const PRICES: Kind = Kind {
    lined: numbered::PRICES,
    owner: "symbol",
    number: "the cents per thousand",
};

impl Kind {
    /// The numbers of so many lines, or the first fault of the file.
    pub fn read(&self, file: &[u8], lines: usize) -> Result<Vec<u64>, Fault> {
        let mut due = Due {
            number: self.lined.refusal,
            line: 1,
            bytes: file,
        };
        let mut numbers = Vec::new();
        for owner in 0..lines as u64 {
            numbers.push(self.number_in(due, owner)?);
            due.line += 1;
            due.bytes = &due.bytes[LINE..];
        }
        match due.end_fault() {
            Some(fault) => Err(fault),
            None => Ok(numbers),
        }
    }

    /// The number in the line due, which is this node's or symbol's, or the fault of the line.
    fn number_in(&self, due: Due, this: u64) -> Result<u64, Fault> {
        let Kind { owner, number, .. } = self;
        let numbered::Kind { letter, most, .. } = self.lined;
        let names = [format!("the {owner}"), format!("{number}, 0 to {most}")];
        if let Some(mut fault) = due.form_fault(char::from(letter), &names) {
            if due.bytes.is_empty() {
                fault.expected += &format!(", for {owner} {this}");
            }
            let is_end = fault.place == Some(Place::in_line(due.line, LINE, LINE));
            if is_end && runs_past(&due.bytes[7..], most) {
                fault.expected += &format!("; {number} are at most {most}");
            }
            return Err(fault);
        }
        let fields = due.bytes[1..LINE - 1].chunks(6);
        let numbers: Vec<_> = fields.filter_map(reading::number).collect();
        let wrong = |field: usize, found: u64| match field {
            0 => (found != this).then(|| format!("the {owner}, {this} in this line")),
            _ => (found > most).then(|| names[field].clone()),
        };
        match due.first_field_fault(&numbers, wrong) {
            Some(fault) => Err(fault),
            None => Ok(numbers[1]),
        }
    }
}

/// Whether the digits of a field go on past its six columns, and are a number above this one.
fn runs_past(columns: &[u8], most: u64) -> bool {
    let digits = columns.iter().skip_while(|&&byte| byte == b' ');
    let digits = digits.take_while(|byte| byte.is_ascii_digit());
    let number = digits.fold(0_u64, |number, digit| {
        number
            .saturating_mul(10)
            .saturating_add(u64::from(digit - b'0'))
    });
    columns.get(6).is_some_and(u8::is_ascii_digit) && number > most
}
