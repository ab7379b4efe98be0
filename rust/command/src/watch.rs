//! The command `watch`: the monitor of a job, under a plan or with all points watched.
use crate::args::{Command, Given};
use crate::encoding::Seen;
use crate::lines::Lines;
use crate::monitor::{Kept, Watch};
use crate::names::Names;
use crate::places::Walk;
use crate::record::{Held, Subject};
use crate::recordfile::RecordFile;
use crate::reports::Reports;
use crate::shown;
use crate::start::Asked;
use crate::{input, job};
use std::ffi::OsStr;

pub const COMMAND: Command = Command {
    name: "watch",
    usage: "watch JOB [PLAN] [--entry N] [--state Q] [--record FILE] [--names FILE] [--no-time] [--json]",
    summary: "Runs the monitor of a job over the events on standard input, and prints each alarm at once.",
    details: "
  JOB            a job file
  PLAN           a file that holds a line of 0 and 1; without it all points are watched
  --entry N      the walk begins before node N, an entry, in the one state that it admits
  --state Q      the walk begins in state Q, before N, or before any entry that admits Q
  --record FILE  keeps the monitor in a file after each line, and goes on where that file is
  --names FILE   names for symbols, nodes and states, in what is printed
  --no-time      alarms without the time
  --json         each thing that is told as an object of JSON on a line of standard output

An event is a line: the number of an event node, or = and a symbol for an event of a call word or an
after word (`2`, `=0`), the words of calls that may come back in too. A walk that comes in again or
returns reports nothing by it, so these steps have no line. Events at unwatched points are not given
to the monitor. An alarm is printed with its time, the number of its event, counted from 1, the job and
the plan, before the next line is read; the totals come last, also after SIGINT, SIGTERM or SIGHUP.
Another one of these signals, a second or more later, ends the program at once.
Without --entry and --state it runs only where a job has one admitted start; the first line says where
the walk begins.
The events are followed through the graph. At the first that no walk of the job has there, standard
error says so, once: the promise is about walks alone. The monitor takes the events after it too.
A line that is no event of the job is named on standard error with its number, stands for no event,
and is counted; so is a last line without its end.
A record is written whole after each line, once its alarm is printed. Where it is there already, the
job and the plan must be its own, and --entry and --state, if they are given; it prints the last line
that it holds, and the events after that line are to be given again. An alarm that was printed just
before the program was killed can come twice; none is lost. The file system of a record must have hard
links and locks.
Exit status: 0 no alarm, events of a walk, no other line; 1 one or more alarms; 3 no alarm, and the
events are no walk; 4 neither, and a line that is no event; 2 a refused job, plan, start or record, or
something that cannot be read or written, which wins over all. So it is after a signal too, and a record
counts from its beginning.
",
    names: &["JOB"],
    more: 1,
    flags: &["--no-time", "--json"],
    options: &[
        ("--entry", "N"),
        ("--state", "Q"),
        ("--record", "FILE"),
        ("--names", "FILE"),
    ],
    several: &[],
    run,
};

/// What stands for a plan that is not given.
const ALL_WATCHED: &str = "all points watched";

fn run(given: &Given) -> Result<u8, String> {
    let (name, plan_name) = (given.name(0), given.further(1));
    let names = given.value("--names");
    none_is_input(&[Some(name), plan_name], "JOB and PLAN are files")?;
    none_is_input(&[names], "the names are a file")?;
    none_is_input(&[given.value("--record")], "the record is a file")?;
    let file = input::job(name)?;
    let job = job::accepted(&file)?;
    let rule = job::rule(&file)?;
    let names = Names::read(names, &job)?;
    let (plan, verdict) = match plan_name {
        None => (job.all_watched(), None),
        Some(plan) => {
            let (plan, verdict) = job::judged_plan(&file, input::plan(plan)?, &names)?;
            (plan, Some(verdict))
        }
    };
    let plan_shown = plan_name.map(shown::name);
    let asked = Asked::of(&job, given.value("--entry"), given.value("--state"))?;
    let reports = Reports {
        job: &job,
        names: &names,
        files: (name, plan_name),
        verdict,
        subject: match &plan_shown {
            Some(plan) => format!("job {}, plan {plan}", file.shown),
            None => format!("job {}, {ALL_WATCHED}", file.shown),
        },
        is_named: given.value("--names").is_some(),
        is_timed: !given.has("--no-time"),
        is_json: given.has("--json"),
    };
    let subject = Subject {
        file: &file,
        job: &job,
        plan: (plan_shown.as_deref().unwrap_or(ALL_WATCHED), &plan),
    };
    let (held, kept) = match given.value("--record") {
        None => (None, None),
        Some(record) => recorded(record, &subject, asked, &names)?,
    };
    let lines = Lines::of_input().map_err(|why| format!("standard input: {why}"))?;
    let (held, goes_on) = match held {
        Some(held) => (held, true),
        None => (Held::begin(asked.start(&job, &names)?), false),
    };
    let mut watch = Watch {
        job: &job,
        rule,
        walk: Walk::at(&job, &held.places),
        plan: plan.clone(),
        held,
        seen: Seen::default(),
        reports,
        kept,
    };
    watch.keep()?;
    match goes_on {
        true => watch.reports.goes_on(&watch.held)?,
        false => watch.reports.start(&watch.held)?,
    }
    watch.over(lines)
}

/// Refuses standard input, which holds the events, as one of these files.
fn none_is_input(files: &[Option<&OsStr>], so: &str) -> Result<(), String> {
    match files.iter().flatten().any(|&file| file == "-") {
        true => Err(format!("watch: standard input holds the events, so {so}")),
        false => Ok(()),
    }
}

/// The record's file, and the monitor that it holds, if it is there. What is asked for must not be another start.
fn recorded(
    name: &OsStr,
    subject: &Subject,
    asked: Asked,
    names: &Names,
) -> Result<(Option<Held>, Option<Kept>), String> {
    let (file, text) = RecordFile::open(name)?;
    let head = subject.head();
    let kept = Some(Kept { file, head });
    let Some(text) = text else {
        return Ok((None, kept));
    };
    let held =
        subject
            .held(&text)
            .and_then(|held| match asked.allows(&held.start, subject.job, names) {
                true => Ok(held),
                false => Err(format!(
                    "it began {}, and --entry and --state ask for another start",
                    held.start.shown(names)
                )),
            });
    let held = held.map_err(|why| format!("{}: {why}", shown::name(name)))?;
    Ok((Some(held), kept))
}
