//! The command `check`: whether a plan is faithful to a job.
use crate::args::{Command, Given};
use crate::explain::plan_word;
use crate::input::Plan;
use crate::json::{self, Json};
use crate::names::Names;
use crate::refusal::Told;
use crate::table::{table, Side, LEAST};
use crate::{input, job, output};
use dapohiru::Verdict;
use dapohiru_second::job::Job;

pub const COMMAND: Command = Command {
    name: "check",
    usage: "check JOB PLAN [--explain | --json] [--names FILE]",
    summary: "Checks a plan: prints faithful or different.",
    details: "
  JOB           a job file
  PLAN          a file that holds a line of 0 and 1, a digit for each node
  --explain     also a table of the points, with what the plan and the one that `plan` makes do with each
  --json        the verdict and the points as a JSON document
  --names FILE  names for the symbols, nodes and states, for --explain, --json and a refused plan;
                `dapohiru help` shows such a file
One of the files may be - for standard input.

A plan is faithful when on every walk, from every admitted start, the monitor under it and the one
with all points watched alarm at the same events. Of a plan that is different the check does not say
on which walk.
Exit status: 0 faithful; 1 different; 2 a refused job or plan, or something else that is wrong.
",
    names: &["JOB", "PLAN"],
    more: 0,
    flags: &["--explain", "--json"],
    options: &[("--names", "FILE")],
    several: &[],
    run,
};

fn run(given: &Given) -> Result<u8, String> {
    if given.has("--explain") && given.has("--json") {
        return Err("check: --explain and --json are two forms, take one".to_string());
    }
    let names = given.value("--names");
    let files = [
        ("JOB", given.further(0)),
        ("PLAN", given.further(1)),
        ("the names", names),
    ];
    input::at_most_one_is_input("check", &files)?;
    let (file, plan) = (input::job(given.name(0))?, input::plan(given.name(1))?);
    let job = job::accepted(&file);
    let names = match &job {
        Ok(job) => Names::read(names, job)?,
        Err(_) => Names::default(),
    };
    let verdict = match job::checked(&file, &plan, &names) {
        Ok(verdict) => verdict,
        Err(told) => return Err(refused(given, told)),
    };
    let text = match (given.has("--json"), given.has("--explain")) {
        (true, _) => document(given, verdict, &job?, &plan, &names),
        (_, true) => {
            let own = job::planned(&file)?.0;
            let more = explained(verdict, &job?, &plan, &own, &names);
            format!("{}\n{more}", word(verdict))
        }
        _ => format!("{}\n", word(verdict)),
    };
    output::print(text.as_bytes()).map(|()| status(verdict))
}

/// A verdict as it is printed.
pub fn word(verdict: Verdict) -> &'static str {
    match verdict {
        Verdict::Faithful => "faithful",
        Verdict::Different => "different",
    }
}

fn status(verdict: Verdict) -> u8 {
    match verdict {
        Verdict::Faithful => 0,
        Verdict::Different => 1,
    }
}

/// The points under the plan and under the one that planning makes, in a table and in words.
fn explained(verdict: Verdict, job: &Job, plan: &Plan, own: &[u8], names: &Names) -> String {
    let headings = ["node", "symbol", "this plan", "planned"];
    let mut rows = vec![headings.map(str::to_string)];
    let points = job.points();
    let row = |&node: &usize| {
        [
            names.node(node),
            names.symbol(job.nodes[node].value as usize),
            plan_word(plan.bytes[node] == 1).to_string(),
            plan_word(own[node] == 1).to_string(),
        ]
    };
    rows.extend(points.iter().map(row));
    let watched = |plan: &[u8]| plan.iter().filter(|&&byte| byte == 1).count();
    let means = match verdict {
        Verdict::Faithful => "On every walk the alarms are those of all points watched.",
        Verdict::Different => "On some walk the alarms are others than those of all points watched; the check does not say on which.",
    };
    format!(
        "{}Of {} event nodes this plan watches {}, and planning's own {}.\n{means}\n",
        table(
            [names.node_side(), Side::Name(LEAST), Side::Left, Side::Left],
            &rows
        ),
        points.len(),
        watched(&plan.bytes),
        watched(own)
    )
}

/// The verdict and the points under the plan.
fn document(given: &Given, verdict: Verdict, job: &Job, plan: &Plan, names: &Names) -> String {
    let point = |node: usize| {
        Json::Object(vec![
            ("node", Json::number(node)),
            ("symbol", Json::Number(job.nodes[node].value)),
            ("watched", Json::Bool(plan.bytes[node] == 1)),
        ])
    };
    let mut fields = files(given);
    fields.push(("verdict", Json::text(word(verdict))));
    let points = job.points().into_iter().map(point).collect();
    fields.push(("points", Json::List(points)));
    if given.value("--names").is_some() {
        fields.push(("names", names.json()));
    }
    json::document(fields)
}

/// The two files, as they are named.
fn files(given: &Given) -> Vec<(&'static str, Json)> {
    vec![
        ("job", Json::name(given.name(0))),
        ("plan", Json::name(given.name(1))),
    ]
}

/// Prints a refusal where that is asked for, and gives what is said of it.
fn refused(given: &Given, told: Told) -> String {
    if !given.has("--json") {
        return told.text;
    }
    let mut fields = files(given);
    fields.push(("refused", told.json()));
    output::refused(&json::document(fields), told.text)
}
