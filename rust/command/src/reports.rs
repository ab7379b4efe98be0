//! What `watch` tells: in words, or each thing as a line of JSON.
use crate::events::Event;
use crate::json::Json;
use crate::names::Names;
use crate::record::Held;
use crate::{check, clock, output};
use dapohiru::Verdict;
use dapohiru_second::job::Job;
use std::ffi::OsStr;
use std::time::SystemTime;

/// A part of a line of JSON.
type Field = (&'static str, Json);

/// How it is told, and of which job and plan.
pub struct Reports<'a> {
    pub job: &'a Job,
    pub names: &'a Names,
    /// The names of the job's file and of the plan's, if there is one.
    pub files: (&'a OsStr, Option<&'a OsStr>),
    /// What the proved check finds of the plan, if there is one.
    pub verdict: Option<Verdict>,
    /// The job and the plan for the words of an alarm.
    pub subject: String,
    /// Whether names are given.
    pub is_named: bool,
    /// Whether an alarm has its time.
    pub is_timed: bool,
    pub is_json: bool,
}

impl Reports<'_> {
    /// Where the monitor begins.
    pub fn start(&self, held: &Held) -> Result<(), String> {
        let text = format!("starts {}", held.start.shown(self.names));
        let entries = held.start.entries.iter();
        let fields = || {
            let mut fields = self.judged_fields();
            fields.push((
                "nodes",
                Json::List(entries.map(|&node| Json::number(node)).collect()),
            ));
            fields.push(("state", Json::number(held.start.state)));
            fields.extend(self.named_fields());
            fields
        };
        self.print("start", &text, fields)
    }

    /// Where a record goes on.
    pub fn goes_on(&self, held: &Held) -> Result<(), String> {
        let (line, alarms) = (held.line, held.record.alarms);
        let state = self.names.state(held.record.state as usize);
        let (is_left, since) = (held.is_left(), held.left_at());
        let left = match (is_left, since) {
            (false, _) => String::new(),
            (true, None) => "; the events are no walk of the job".to_string(),
            (true, Some(event)) => {
                format!("; the events are no walk of the job since event {event}")
            }
        };
        let text = format!("goes on after line {line} of the input, in state {state}, alarm total {alarms}{left}; give the events after line {line}");
        self.print("goes on", &text, || {
            let mut fields = self.judged_fields();
            fields.extend(counts(held));
            fields.push(("walk", Json::Bool(!is_left)));
            let since = since.filter(|_| is_left);
            fields.extend(since.map(|event| ("since", Json::Number(event))));
            fields.extend(self.named_fields());
            fields
        })
    }

    /// The names, where they are given.
    fn named_fields(&self) -> Option<(&'static str, Json)> {
        self.is_named.then(|| ("names", self.names.json()))
    }

    /// An alarm at the last event.
    pub fn alarm(&self, event: Event, held: &Held) -> Result<(), String> {
        let Held { events, line, .. } = held;
        let (shown, state) = (self.event(event, true), held.record.state);
        let time = self.is_timed.then(|| clock::utc(SystemTime::now()));
        let begin = time
            .iter()
            .fold(String::new(), |_, time| format!("{time} "));
        let named = self.names.state(state as usize);
        let subject = &self.subject;
        let text = format!(
            "{begin}alarm at event {events} (line {line}): {shown}, state {named} [{subject}]"
        );
        self.print("alarm", &text, || {
            let mut fields = Vec::new();
            fields.extend(time.iter().map(|time| ("time", Json::text(time))));
            fields.extend(self.subject_fields());
            fields.extend(self.event_fields(event, held));
            fields.push(("state", Json::Number(state)));
            fields
        })
    }

    /// That the last event is the first in no walk of the job.
    pub fn no_walk(&self, event: Event, held: &Held) -> Result<(), String> {
        let (number, shown) = (held.events, self.event(event, false));
        let why = format!("event {number} ({shown}): the events are no walk of the job from here on; the promise says nothing of them");
        match self.is_json {
            true => self.print("no walk", "", || self.event_fields(event, held)),
            false => complaint(held.line, &why),
        }
    }

    /// That a line is no event, and why.
    pub fn no_event(&self, line: u64, why: &str) -> Result<(), String> {
        let fields = || vec![("line", Json::Number(line)), ("why", Json::text(why))];
        match self.is_json {
            true => self.print("no event", "", fields),
            false => complaint(line, why),
        }
    }

    /// The last line: what was counted, and the state that the monitor is in.
    pub fn totals(&self, held: &Held) -> Result<(), String> {
        let Held {
            events,
            unwatched,
            outside,
            wrong,
            ..
        } = held;
        let (alarms, state) = (held.record.alarms, held.record.state);
        let state = self.names.state(state as usize);
        let text = format!("events {events}   unwatched {unwatched}   outside a walk {outside}   alarms {alarms}   lines that are no event {wrong}   state {state}");
        self.print("totals", &text, || counts(held))
    }

    /// Prints a line.
    fn print(
        &self,
        told: &str,
        text: &str,
        fields: impl FnOnce() -> Vec<Field>,
    ) -> Result<(), String> {
        let line = match self.is_json {
            false => format!("{text}\n"),
            true => {
                let mut all = vec![("told", Json::text(told))];
                all.extend(fields());
                format!("{}\n", Json::Object(all))
            }
        };
        output::print(line.as_bytes())
    }

    /// An event in words, with its symbol or without.
    fn event(&self, event: Event, with_symbol: bool) -> String {
        match event {
            Event::Word(symbol, _) => {
                format!("symbol {} of a word", self.names.symbol(symbol as usize))
            }
            Event::Point(node) => {
                let symbol = self.names.symbol(self.job.nodes[node].value as usize);
                let node = self.names.node(node);
                match with_symbol {
                    true => format!("node {node}, symbol {symbol}"),
                    false => format!("node {node}"),
                }
            }
        }
    }

    /// The last event, and its line.
    fn event_fields(&self, event: Event, held: &Held) -> Vec<Field> {
        let mut fields = vec![
            ("event", Json::Number(held.events)),
            ("line", Json::Number(held.line)),
        ];
        match event {
            Event::Word(symbol, _) => fields.push(("symbol", Json::Number(symbol))),
            Event::Point(node) => {
                fields.push(("node", Json::number(node)));
                fields.push(("symbol", Json::Number(self.job.nodes[node].value)));
            }
        }
        fields
    }

    /// The job, and the plan if there is one.
    fn subject_fields(&self) -> Vec<Field> {
        let (job, plan) = self.files;
        let mut fields = vec![("job", Json::name(job))];
        fields.extend(plan.map(|plan| ("plan", Json::name(plan))));
        fields
    }

    /// The same, with what the proved check finds of the plan.
    fn judged_fields(&self) -> Vec<Field> {
        let mut fields = self.subject_fields();
        let word = self.verdict.map(check::word);
        fields.extend(word.map(|word| ("verdict", Json::text(word))));
        fields
    }
}

/// Says on standard error what is wrong with a line of the input.
fn complaint(line: u64, why: &str) -> Result<(), String> {
    output::complain(&format!("standard input: line {line}: {why}"));
    Ok(())
}

/// What was counted, up to the last line that is held.
fn counts(held: &Held) -> Vec<Field> {
    vec![
        ("line", Json::Number(held.line)),
        ("events", Json::Number(held.events)),
        ("unwatched", Json::Number(held.unwatched)),
        ("outside", Json::Number(held.outside)),
        ("alarms", Json::Number(held.record.alarms)),
        ("wrong", Json::Number(held.wrong)),
        ("state", Json::Number(held.record.state)),
    ]
}
