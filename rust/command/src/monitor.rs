//! The monitor of `watch`: events taken one by one, with the walk that they follow and what is counted beside the
//! record.
use crate::encoding::Seen;
use crate::events::{event, Event};
use crate::lines::{Line, Lines, Next};
use crate::places::Walk;
use crate::record::{text, Held};
use crate::recordfile::RecordFile;
use crate::reports::Reports;
use dapohiru::{Refusal, Report, Rule};
use dapohiru_second::job::Job;
use std::time::Duration;

/// The exit statuses of a run that was not cut off. The first that holds wins.
const ALARM: u8 = 1;
const NO_WALK: u8 = 3;
const NO_EVENT: u8 = 4;

/// A record's file, and what each of its records begins with.
pub struct Kept {
    pub file: RecordFile,
    pub head: String,
}

/// A monitor.
pub struct Watch<'a> {
    pub job: &'a Job,
    pub rule: Rule,
    pub plan: Vec<u8>,
    pub walk: Walk<'a>,
    pub held: Held,
    pub seen: Seen,
    pub reports: Reports<'a>,
    pub kept: Option<Kept>,
}

impl Watch<'_> {
    /// Takes the event of each line, and gives the exit status.
    pub fn over(mut self, mut input: Lines) -> Result<u8, String> {
        let done = self.take_all(&mut input);
        let synced = self.kept.as_mut().map_or(Ok(()), |kept| kept.file.sync());
        let told = self.reports.totals(&self.held);
        done.and(synced).and(told)?;
        let Held {
            record,
            outside,
            wrong,
            ..
        } = self.held;
        Ok(match (record.alarms, outside, wrong) {
            (1.., _, _) => ALARM,
            (_, 1.., _) => NO_WALK,
            (_, _, 1..) => NO_EVENT,
            _ => 0,
        })
    }

    /// Takes the event of each line, up to the end of the input, a stop, or what cannot be read or written.
    fn take_all(&mut self, input: &mut Lines) -> Result<(), String> {
        let mut line = Line::default();
        loop {
            if let Some(kept) = &mut self.kept {
                let is_due = |left: Duration| left.is_zero() || !input.comes_within(left);
                if kept.file.time_left().is_some_and(is_due) {
                    kept.file.sync()?;
                }
            }
            let next = input
                .next(&mut line)
                .map_err(|why| format!("standard input: after line {}: {why}", self.held.line))?;
            match next {
                Next::Line => self.take_line(&line)?,
                Next::Unended => return self.leave(&line),
                Next::End => return Ok(()),
            }
            self.keep()?;
        }
    }

    /// Writes the record.
    pub fn keep(&mut self) -> Result<(), String> {
        let Some(kept) = &mut self.kept else {
            return Ok(());
        };
        self.held.places = self.walk.places().collect();
        kept.file.write(&text(&kept.head, &self.held))
    }

    /// Takes the event of a line, if it is one.
    fn take_line(&mut self, line: &Line) -> Result<(), String> {
        self.held.line += 1;
        let taken = match self.seen.hint(line, self.held.line, true) {
            Some(hint) => Err(format!("{} is no event: it has {hint}", line.shown())),
            None => event(self.job, line)
                .and_then(|event| self.reported(event).map(|report| (event, report))),
        };
        match taken {
            Ok((event, report)) => self.follow(event, report),
            Err(why) => {
                self.held.wrong += 1;
                self.reports.no_event(self.held.line, &why)
            }
        }
    }

    /// Leaves the last line, which has no end, as no event. The record does not hold it.
    fn leave(&mut self, line: &Line) -> Result<(), String> {
        let (shown, number) = (line.shown(), self.held.line + 1);
        let hint = self.seen.hint(line, number, false);
        let hint = hint.map_or(String::new(), |hint| format!("; it has {hint}"));
        let why = format!("{shown} is no event: the input ends before the end of the line{hint}");
        self.held.wrong += 1;
        self.reports.no_event(number, &why)
    }

    /// Gives an event to the monitor where it is watched; a refusal says why it is none.
    fn reported(&mut self, event: Event) -> Result<Report, String> {
        let symbol = match event {
            Event::Point(node) if self.plan[node] == 0 => {
                self.held.unwatched += 1;
                return Ok(Report::Quiet);
            }
            Event::Point(node) => self.job.nodes[node].value,
            Event::Word(symbol, _) => symbol,
        };
        let last = self.rule.symbols - 1;
        let report = self.rule.event(symbol, &mut self.held.record);
        report.map_err(|refusal| match (refusal, event) {
            (Refusal(14), Event::Word(_, digits)) if symbol > last => {
                format!("{refusal}: there is no symbol {digits}; the symbols are 0 to {last}")
            }
            _ => refusal.to_string(),
        })
    }

    /// Follows the walk by an event that was taken, and tells where the walk is left and its alarm.
    fn follow(&mut self, event: Event, report: Report) -> Result<(), String> {
        let (was_left, held) = (self.walk.is_left(), &mut self.held);
        held.events += 1;
        let is_walk = self.walk.take(event);
        held.outside += u64::from(!is_walk);
        if !is_walk && !was_left {
            self.reports.no_walk(event, held)?;
        }
        match report {
            Report::Alarm => self.reports.alarm(event, held),
            Report::Quiet => Ok(()),
        }
    }
}
