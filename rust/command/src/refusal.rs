//! What is said of a refusal: its number, and where the second reader finds the same number also the
//! meaning, the place and what was expected there.
use crate::encoding;
use crate::expression::{Letters, Typed};
use crate::fault::{Fault, Place};
use crate::grammar;
use crate::input::{Input, Plan};
use crate::json::Json;
use crate::names::Names;
use crate::numbered::{PRICES, VOLUMES};
use crate::place::first_fault;
use crate::rows;
use crate::sizes::{Size, Sizes};
use crate::tariff::Tariff;
use dapohiru::Refusal;
use dapohiru_second::job::{EVENT, REENTRANT};
use dapohiru_second::pricing::SYMBOLS;
use dapohiru_second::reading;

/// A refusal, with what is said of it.
pub struct Told {
    pub refusal: Refusal,
    /// What the second reader found, where it finds the same number.
    fault: Option<Box<Fault>>,
    /// How the file was written, where no file is written so.
    hint: Option<String>,
    /// All of it in words.
    pub text: String,
}

impl From<Told> for String {
    fn from(told: Told) -> Self {
        told.text
    }
}

impl Told {
    /// The number, and where there is more to say the meaning, the place, what stands there, what was expected, and
    /// what the file has that no file has.
    pub fn json(&self) -> Json {
        let mut fields = vec![("number", Json::Number(self.refusal.0))];
        if let Some(fault) = &self.fault {
            fields.extend(fields_of(meaning(fault.number), fault));
        }
        fields.extend(self.hint.iter().map(|hint| ("has", Json::text(hint))));
        Json::Object(fields)
    }
}

/// What is said of a refused job file.
pub fn of_job(job: &Input, refusal: Refusal) -> Told {
    told_of(job, refusal, first_fault(&job.bytes))
}

/// What is said of a refused job file or plan, whichever it is.
pub fn of_plan(job: &Input, plan: &Plan, names: &Names, refusal: Refusal) -> Told {
    match refusal.0 {
        11 | 12 => told(&plan.shown, refusal, plan_fault(job, &plan.bytes, names)),
        _ => of_job(job, refusal),
    }
}

/// What is said of a refused job file, plan, volume file or price file, whichever it is.
pub fn of_price(
    job: &Input,
    plan: &Plan,
    volumes: &Input,
    tariff: &Tariff,
    refusal: Refusal,
) -> Told {
    match (refusal.0, tariff) {
        (16, _) => told_of(volumes, refusal, volume_fault(job, &volumes.bytes)),
        (28, Tariff::Own(prices)) => {
            let fault = PRICES.read(&prices.bytes, SYMBOLS).err();
            told_of(prices, refusal, fault)
        }
        _ => of_plan(job, plan, &Names::default(), refusal),
    }
}

/// What is said of refused rule rows, or of the numbers given beside them.
pub fn of_rows(rows: &Input, sizes: &Sizes, names: &Names, refusal: Refusal) -> Told {
    told_of(rows, refusal, rows::first_fault(&rows.bytes, sizes, names))
}

/// What is said of a refused expression, or of the number given beside it.
pub fn of_expression(typed: &Typed, letters: &Letters, symbols: &Size, refusal: Refusal) -> Told {
    let fault = grammar::first_fault(letters, symbols, refusal);
    hinted(told(&typed.shown, refusal, fault), typed.hint.clone())
}

/// What is said of a refused edge, of which this is wrong.
pub fn of_edge(job: &Input, fault: Option<Fault>, refusal: Refusal) -> Told {
    told(&job.shown, refusal, fault)
}

/// What is said of what no call can be given, in a document and in words: its fault, with the meaning and the hint. It
/// has no number of a refusal.
pub fn before_the_call(
    command: &str,
    meaning: &str,
    fault: Option<Fault>,
    hint: Option<&String>,
) -> (Json, String) {
    let fields = fault.as_ref().map(|fault| fields_of(meaning, fault));
    let mut fields = fields.unwrap_or_default();
    fields.extend(hint.map(|hint| ("has", Json::text(hint))));
    let words = fault.as_ref().map(|fault| words(meaning, fault));
    let (words, hint) = (words.unwrap_or_default(), encoding::line(hint));
    let text = format!("{command}: refused before the call{words}{hint}");
    (Json::Object(fields), text)
}

/// The refusal of a file, with what is told of how it was written.
fn told_of(file: &Input, refusal: Refusal, fault: Option<Fault>) -> Told {
    let told = told(&file.shown, refusal, fault);
    hinted(told, encoding::hint(&file.bytes))
}

/// What is said of a refusal, with what the file has.
fn hinted(told: Told, hint: Option<String>) -> Told {
    Told {
        text: told.text + &encoding::line(hint.as_ref()),
        hint,
        ..told
    }
}

/// The refusal of the proved call, and the fault that a second reader found.
fn told(shown: &str, refusal: Refusal, fault: Option<Fault>) -> Told {
    let fault = fault.filter(|fault| fault.number == refusal.0);
    let fault = fault.map(Box::new);
    let words = |fault: &Fault| words(meaning(fault.number), fault);
    let more = fault.as_deref().map(words).unwrap_or_default();
    Told {
        refusal,
        fault,
        hint: None,
        text: format!("{shown}: {refusal}{more}"),
    }
}

/// A fault with its meaning, as fields of a document.
fn fields_of(meaning: &str, fault: &Fault) -> Vec<(&'static str, Json)> {
    let mut fields = vec![("meaning", Json::text(meaning))];
    if let Some(Place { line, columns }) = fault.place {
        let columns = [columns.0, columns.1].map(Json::number).to_vec();
        fields.extend(line.map(|line| ("line", Json::number(line))));
        fields.push(("columns", Json::List(columns)));
    }
    fields.push(("found", Json::text(&fault.found)));
    fields.push(("expected", Json::text(&fault.expected)));
    fields
}

/// A fault in words, with its meaning.
fn words(meaning: &str, fault: &Fault) -> String {
    let place = |Place { line, columns }: &Place| {
        let line = line.map(|line| format!("line {line}, "));
        let columns = match columns {
            (first, last) if first == last => format!("column {first}: "),
            (first, last) => format!("columns {first} to {last}: "),
        };
        line.unwrap_or_default() + &columns
    };
    let place = fault.place.as_ref().map(place).unwrap_or_default();
    let Fault {
        found, expected, ..
    } = fault;
    format!(": {meaning}\n  {place}found {found}\n  expected: {expected}")
}

/// What is said of a file that the proved call accepts and the second reader refuses.
pub fn by_second_reader_alone(shown: &str, number: u64) -> String {
    format!("{shown}: the library accepts the file, and the second reader refuses it as {number}: nothing can be shown of it")
}

/// The first fault of a plan for a job that is accepted.
fn plan_fault(job: &Input, plan: &[u8], names: &Names) -> Option<Fault> {
    let nodes = reading::job(&job.bytes).ok()?.nodes;
    let fault = |number, column, found, expected| {
        Some(Fault {
            number,
            place: Some(Place::in_line(1, column, column)),
            found,
            expected,
        })
    };
    if plan.len() != nodes.len() {
        let place = plan.len().min(nodes.len());
        let found = match plan.get(place) {
            Some(digit) => format!("`{digit}`"),
            None => "the end of the plan".to_string(),
        };
        let expected = format!("a digit for each of the {} nodes and no more", nodes.len());
        return fault(11, place + 1, found, expected);
    }
    let place = |(node, &digit): (usize, &u8)| digit > u8::from(nodes[node].kind == EVENT);
    let node = plan.iter().enumerate().position(place)?;
    let named = names.node(node);
    let expected = match nodes[node].kind {
        EVENT => format!("0 or 1 at node {named}, an event node"),
        REENTRANT => format!("0 at node {named}, a call that may come back in and no event node"),
        _ => format!("0 at node {named}, which is no event node"),
    };
    fault(12, node + 1, format!("`{}`", plan[node]), expected)
}

/// The first fault of a volume file for a job that is accepted.
fn volume_fault(job: &Input, volumes: &[u8]) -> Option<Fault> {
    let nodes = reading::job(&job.bytes).ok()?.nodes;
    VOLUMES.read(volumes, nodes.len()).err()
}

/// What a refusal means (document 01, "Turned back, by number", and document 02).
fn meaning(number: u64) -> &'static str {
    match number {
        1 => "the file is too long",
        2 => "a buffer is too short",
        3 => "the file ends where a line is due",
        4 => "the line due has not its letter, its fields or its end byte",
        5 => "a number of the J line is outside its limits",
        6 => "an R line has a state out of order, a final mark above 1 or a next state that the job lacks",
        7 => "a P line has a node out of order, a wrong kind or mark, or a value or set that the job lacks",
        8 => "an F line names a node that the job lacks, or does not ascend",
        9 => "bytes follow the last line",
        10 => "no node is an entry",
        11 => "the plan has not one digit for each node",
        12 => "the plan has a digit above 1, or a 1 at a node that is no event node",
        16 => "the volume file is not exactly one V line for each node, in order",
        17 => "S, A, the final set, the count of rows, a row's form or a number is outside its limits, or a first exceeds a last",
        18 => "two rows name one pair of a state and a symbol",
        19 => "a pair of a state and a symbol has no row",
        20 => "A is outside its limits, or the text is too long, outside the grammar or has a letter past A",
        21 => "more than 16 states are met",
        22 => "the edge to add is there, the edge to drop is not, an end is a node that the job lacks, or 2048 edges are there already",
        28 => "the price file is not exactly one B line for each of the symbols 0 to 15, in order",
        _ => "no refusal of a job, a plan, a volume file, rows, an expression, an edge or a price file",
    }
}

#[cfg(test)]
mod tests {
    use super::*;

    #[test]
    fn differing_second_reader_leaves_the_proved_number_alone() {
        let fault = || first_fault(b"K");
        assert_eq!(fault().unwrap().number, 4);
        for fault in [fault(), None] {
            let told = told("x.job", Refusal(5), fault);
            assert_eq!(told.text, "x.job: refused 5");
            assert_eq!(told.json().to_string(), "{\"number\":5}");
        }
        let told = told("x.job", Refusal(4), fault());
        assert_eq!(
            told.json().to_string(),
            "{\"number\":4,\"meaning\":\"the line due has not its letter, its fields or its end byte\",\
             \"line\":1,\"columns\":[1,1],\"found\":\"`K`\",\"expected\":\"the letter J\"}"
        );
        assert_eq!(
            told.text,
            "x.job: refused 4: the line due has not its letter, its fields or its end byte\n  \
             line 1, column 1: found `K`\n  expected: the letter J"
        );
    }
}
