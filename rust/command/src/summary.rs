//! What is said of a release: the table of the planned jobs or a document, and the list of the others.
use crate::folder::{name_of, Folder};
use crate::json::{self, Json};
use crate::refusal::Told;
use crate::table::{table, Side};
use crate::{output, shown};
use dapohiru::Counts;
use std::borrow::Borrow;
use std::path::Path;
use std::time::Duration;

/// What became of a job.
pub enum Outcome {
    Planned(Counts, Duration),
    Refused(Told),
    /// Why it was not read or its plan not written.
    Failed(String),
}

/// The counts of all planned jobs, and how many these are.
fn totals(outcomes: &[(&Path, Outcome)]) -> (usize, Counts) {
    let counts = outcomes.iter().filter_map(|(_, outcome)| match outcome {
        Outcome::Planned(counts, _) => Some(counts),
        _ => None,
    });
    let none = Counts {
        points: 0,
        watched: 0,
        passes: 0,
    };
    counts.fold((0, none), |(planned, sum), counts| {
        let sum = Counts {
            points: sum.points + counts.points,
            watched: sum.watched + counts.watched,
            passes: sum.passes + counts.passes,
        };
        (planned + 1, sum)
    })
}

/// A row for each planned job, and one for all.
pub fn summary(outcomes: &[(&Path, Outcome)], elapsed: Duration) -> String {
    let headings = ["job", "points", "watched", "passes", "time"];
    let mut rows = vec![headings.map(str::to_string)];
    for (job, outcome) in outcomes {
        if let Outcome::Planned(counts, time) = outcome {
            rows.push(row(shown::name(name_of(job)), counts, *time));
        }
    }
    let (planned, sum) = totals(outcomes);
    let all = format!("{planned} planned");
    let (name, right) = (Side::Name(all.len()), Side::Right);
    rows.push(row(all, &sum, elapsed));
    table([name, right, right, right, right], &rows)
}

fn row(name: String, counts: &Counts, time: Duration) -> [String; 5] {
    [
        name,
        counts.points.to_string(),
        counts.watched.to_string(),
        counts.passes.to_string(),
        format!("{:.1} ms", time.as_secs_f64() * 1000.0),
    ]
}

/// The counts as fields of a document.
fn fields(counts: &Counts) -> Vec<(&'static str, Json)> {
    vec![
        ("points", Json::Number(counts.points)),
        ("watched", Json::Number(counts.watched)),
        ("passes", Json::Number(counts.passes)),
    ]
}

/// All jobs with what became of them, and the totals. It has no times, so that equal releases have equal documents.
pub fn document(found: &Folder, outcomes: &[(&Path, Outcome)]) -> String {
    let job = |(job, outcome): &(&Path, Outcome)| {
        let mut all = vec![("job", Json::name(name_of(job)))];
        match outcome {
            Outcome::Planned(counts, _) => all.extend(fields(counts)),
            Outcome::Refused(told) => all.push(("refused", told.json())),
            Outcome::Failed(why) => all.push(("failed", Json::text(why))),
        }
        Json::Object(all)
    };
    let (planned, sum) = totals(outcomes);
    let count = |is: fn(&Outcome) -> bool| {
        let counted = outcomes.iter().filter(|(_, outcome)| is(outcome));
        Json::number(counted.count())
    };
    let mut totals = vec![
        ("jobs", Json::number(found.jobs.len())),
        ("planned", Json::number(planned)),
        (
            "refused",
            count(|outcome| matches!(outcome, Outcome::Refused(_))),
        ),
        (
            "failed",
            count(|outcome| matches!(outcome, Outcome::Failed(_))),
        ),
        ("not_begun", Json::number(found.jobs.len() - outcomes.len())),
    ];
    totals.extend(fields(&sum));
    json::document(vec![
        ("jobs", Json::List(outcomes.iter().map(job).collect())),
        ("skipped", names(&found.skipped)),
        ("totals", Json::Object(totals)),
    ])
}

/// Names of files.
pub fn names(names: &[std::ffi::OsString]) -> Json {
    Json::List(names.iter().map(|name| Json::name(name)).collect())
}

/// Says which jobs of so many have no plan, and gives the exit status.
pub fn complaints(outcomes: &[(&Path, Outcome)], all: usize) -> u8 {
    let said = |of: fn(&Outcome) -> Option<&String>| -> Vec<_> {
        let said = outcomes.iter().filter_map(|(_, outcome)| of(outcome));
        said.map(String::as_str).collect()
    };
    let refused = said(|outcome| match outcome {
        Outcome::Refused(told) => Some(&told.text),
        _ => None,
    });
    let failed = said(|outcome| match outcome {
        Outcome::Failed(why) => Some(why),
        _ => None,
    });
    let left = all - outcomes.len();
    complain("refused", &refused, all);
    complain("not read or not written", &failed, all);
    complain_of_stop(left, all);
    match (failed.len() + left, refused.len()) {
        (0, 0) => 0,
        (0, _) => 1,
        _ => 2,
    }
}

/// Says of some of so many jobs, if there are any, what became of them.
pub fn complain(became: &str, said: &[impl Borrow<str>], all: usize) {
    if !said.is_empty() {
        let (count, list) = (said.len(), said.join("\n"));
        output::complain(&format!("{count} of {all} jobs {became}:\n{list}"));
    }
}

/// Says how many of so many jobs a stop left out, if it did.
pub fn complain_of_stop(left: usize, all: usize) {
    if left > 0 {
        output::complain(&format!("stopped: {left} of {all} jobs not begun"));
    }
}
