//! The record of `watch` as a text: a monitor after a line of its input, and of which job, plan and start it is.
//! Its last line is a digest of all before it, so that a cut or damaged one is told.
use crate::digest::sha256;
use crate::encoding;
use crate::input::Input;
use crate::start::Start;
use dapohiru::Record;
use dapohiru_second::job::Job;
use dapohiru_second::walk::Place;

/// The first line.
const FORM: &str = "dapohiru watch record 1";
/// The beginning of the last line.
const END: &str = "end ";
/// What is said of a record without its end.
const CUT: &str = "it is cut: its last line is not that of a record";

/// What a record is of.
pub struct Subject<'a> {
    pub file: &'a Input,
    pub job: &'a Job,
    /// What the plan is called, and its bytes.
    pub plan: (&'a str, &'a [u8]),
}

/// What a monitor has come to after a line of its input.
#[derive(Clone, Debug, PartialEq, Eq)]
pub struct Held {
    /// Where it began.
    pub start: Start,
    /// The last line of the input that it holds, counted from 1.
    pub line: u64,
    /// How many events there were.
    pub events: u64,
    /// How many of them at unwatched points.
    pub unwatched: u64,
    /// How many of them in no walk of the job.
    pub outside: u64,
    /// How many lines were no event.
    pub wrong: u64,
    /// The state and the alarm total.
    pub record: Record,
    /// The places at which the last event has put the walk; none once the events are no walk.
    pub places: Vec<Place>,
}

impl Held {
    /// A monitor at its start.
    pub fn begin(start: Start) -> Self {
        let places = start.entries.iter().copied().map(Place::Before).collect();
        let record = Record {
            state: start.state as u64,
            alarms: 0,
        };
        Held {
            start,
            line: 0,
            events: 0,
            unwatched: 0,
            outside: 0,
            wrong: 0,
            record,
            places,
        }
    }

    /// Whether the events are no walk of the job.
    pub fn is_left(&self) -> bool {
        self.places.is_empty()
    }

    /// The first event in no walk of the job: all after it are in none either.
    pub fn left_at(&self) -> Option<u64> {
        let is_counted = (1..=self.events).contains(&self.outside);
        is_counted.then(|| self.events - self.outside + 1)
    }
}

impl Subject<'_> {
    /// The lines that say of which job and plan a record is: for the reader with their names.
    fn lines(&self) -> [String; 2] {
        let Input { shown, bytes } = self.file;
        let (name, plan) = (self.plan.0, dapohiru::planfile::write(self.plan.1));
        let (digits, len, digest) = (plan.trim_end(), bytes.len(), sha256(bytes));
        [
            format!("job {len} bytes, sha256 {digest}: {shown}"),
            format!("plan {digits}: {name}"),
        ]
    }

    /// What every record of it begins with.
    pub fn head(&self) -> String {
        let [job, plan] = self.lines();
        format!("{FORM}\n{job}\n{plan}\n")
    }

    /// The monitor that a record holds, or what is wrong with the record.
    pub fn held(&self, text: &[u8]) -> Result<Held, String> {
        let text = str::from_utf8(text).map_err(|_| whole(text))?;
        let mut lines = sound(text)?.lines().skip(1);
        for (what, own) in ["job", "plan"].into_iter().zip(self.lines()) {
            let line = lines.next().unwrap_or_default();
            // the name is for the reader alone
            let known = |line: &str| line.split(": ").next().map(str::to_string);
            if known(line) != known(&own) {
                return Err(format!(
                    "it is of another {what}:\n  the record has: {line}\n  given is:       {own}"
                ));
            }
        }
        fields(&mut lines, self.job)
            .ok_or("it is damaged: no monitor of the job holds what it says".to_string())
    }
}

/// The text of a record: what it is of, and what it holds.
pub fn text(head: &str, held: &Held) -> String {
    let Held {
        start,
        line,
        events,
        unwatched,
        outside,
        wrong,
        record: Record { state, alarms },
        places,
    } = held;
    let entries = joined(start.entries.iter().map(usize::to_string));
    let begun = start.state;
    let places = match places.is_empty() {
        true => "none".to_string(),
        false => joined(places.iter().map(shown)),
    };
    let text = format!(
        "{head}start state {begun} nodes {entries}\nline {line}\nevents {events}\nunwatched {unwatched}\noutside {outside}\nwrong {wrong}\nalarms {alarms}\nstate {state}\nplaces {places}\n"
    );
    let digest = sha256(text.as_bytes());
    format!("{text}{END}{digest}\n")
}

fn joined(parts: impl Iterator<Item = String>) -> String {
    parts.collect::<Vec<_>>().join(", ")
}

/// A place in words.
fn shown(place: &Place) -> String {
    match place {
        Place::Before(node) => format!("before {node}"),
        Place::Calling(node) => format!("calling {node}"),
        Place::Past(node) => format!("past {node}"),
        Place::Ended(node) => format!("ended {node}"),
        Place::Stopped(node) => format!("stopped {node}"),
        Place::ComingIn => "coming in".to_string(),
        Place::Returning => "returning".to_string(),
    }
}

/// The place of a job that these words say; an event leaves a walk nowhere else.
fn place(words: &str, job: &Job) -> Option<Place> {
    let (word, node) = words.split_once(' ')?;
    let node = node.parse().ok().filter(|&node| node < job.nodes.len())?;
    match word {
        "before" => Some(Place::Before(node)),
        "calling" => Some(Place::Calling(node)),
        "past" => Some(Place::Past(node)),
        "ended" => Some(Place::Ended(node)),
        _ => None,
    }
}

/// The text before the last line, if it is whole.
fn sound(text: &str) -> Result<&str, String> {
    if !text.starts_with(FORM) || !text[FORM.len()..].starts_with('\n') {
        return Err(whole(text.as_bytes()));
    }
    let hint = || encoding::told(text.as_bytes());
    let cut = || format!("{CUT}{}", hint());
    let body = text.strip_suffix('\n').ok_or_else(cut)?;
    let last = body.rfind('\n').ok_or_else(cut)? + 1;
    let digest = body[last..].strip_prefix(END).ok_or_else(cut)?;
    let body = &text[..last];
    match digest == sha256(body.as_bytes()) {
        true => Ok(body),
        false => Err(format!(
            "it is cut or damaged: its digest is of another text{}",
            hint()
        )),
    }
}

/// What is wrong with a text that has not the first line.
fn whole(text: &[u8]) -> String {
    match FORM.as_bytes().starts_with(text) {
        true => CUT.to_string(),
        false => format!(
            "it is no record of this form, whose first line is `{FORM}`{}",
            encoding::told(text)
        ),
    }
}

/// The monitor of a job that the lines after the plan hold.
fn fields<'a>(lines: &mut impl Iterator<Item = &'a str>, job: &Job) -> Option<Held> {
    let mut field = |name: &str| lines.next()?.strip_prefix(name)?.strip_prefix(' ');
    let (state, entries) = field("start state")?.split_once(" nodes ")?;
    let entries = entries.split(", ").map(|entry| entry.parse().ok());
    let start = Start {
        state: state.parse().ok()?,
        entries: entries.collect::<Option<_>>()?,
    };
    let mut number = |name| field(name)?.parse::<u64>().ok();
    let [line, events, unwatched] = [number("line")?, number("events")?, number("unwatched")?];
    let [outside, wrong, alarms] = [number("outside")?, number("wrong")?, number("alarms")?];
    let state = number("state")?;
    let places = match field("places")? {
        "none" => Vec::new(),
        places => places
            .split(", ")
            .map(|words| place(words, job))
            .collect::<Option<_>>()?,
    };
    let states = job.states();
    let known = start.state < states
        && start.entries.iter().all(|&entry| entry < job.nodes.len())
        && state < states as u64;
    known.then_some(Held {
        start,
        line,
        events,
        unwatched,
        outside,
        wrong,
        record: Record { state, alarms },
        places,
    })
}
