//! The check of a release: the plan files of a folder, held against their jobs. Nothing is written.
use crate::folder::{self, name_of, plan_of, Folder, PLAN};
use crate::json::{self, Json};
use crate::names::Names;
use crate::refusal::Told;
use crate::summary::{complain, complain_of_stop, names};
use crate::table::{table, Side, LEAST};
use crate::{check, input, job, output, shown, stop};
use dapohiru::Verdict;
use std::collections::HashSet;
use std::ffi::OsString;
use std::fs;
use std::io::ErrorKind;
use std::path::{Path, PathBuf};

/// What is found of a job and its plan file.
enum Finding {
    /// The plan's verdict, whether it is as planned, and whether its file is older than the job's.
    Checked {
        verdict: Verdict,
        as_planned: bool,
        older: bool,
    },
    /// There is no plan file.
    Missing,
    JobRefused(Told),
    PlanRefused(Told),
    /// The plan file is no line of digits.
    NoPlan(String),
    /// Why one of the files was not read.
    Failed(String),
}

/// What is said of jobs by their findings, in this order.
const DIFFERENT: &str = "with a different plan";
const MISSING: &str = "without a plan";
const REFUSED: &str = "refused or with a refused plan";
const FAILED: &str = "not read or with a plan that is not read";

/// Checks the plan files of a folder, and gives the exit status.
pub fn run(found: &Folder, plans: &Path, as_json: bool) -> Result<u8, String> {
    let (files, skipped) = folder::files(plans, PLAN)?;
    let orphans = orphans(found, plans, &files);
    found.note_skipped()?;
    folder::note_skipped(&skipped, PLAN)?;
    stop::listen();
    let findings = found.each(|job| finding(job, plans));
    let text = match as_json {
        true => document(found, &findings, &orphans, &skipped),
        false => report(&findings, found.jobs.len()),
    };
    let printed = output::print(text.as_bytes());
    let status = complaints(&findings, plans, &orphans, found.jobs.len());
    printed.map(|()| status)
}

/// The plan files that have no job, in order.
fn orphans(found: &Folder, plans: &Path, files: &[PathBuf]) -> Vec<OsString> {
    let owned: HashSet<_> = found.jobs.iter().map(|job| plan_of(job, plans)).collect();
    let orphans = files.iter().filter(|file| !owned.contains(*file));
    orphans.map(|file| name_of(file).to_os_string()).collect()
}

/// What is found of one job and its plan file.
fn finding(path: &Path, plans: &Path) -> Finding {
    let read = folder::is_regular(path).and_then(|()| input::job(path.as_os_str()));
    let file = match read {
        Ok(file) => file,
        Err(why) => return Finding::Failed(why),
    };
    let own = match job::planned(&file) {
        Ok((own, _)) => own,
        Err(told) => return Finding::JobRefused(told),
    };
    let plan_path = plan_of(path, plans);
    if let Err(why) = fs::metadata(&plan_path) {
        return match why.kind() {
            ErrorKind::NotFound => Finding::Missing,
            _ => Finding::Failed(folder::said(&plan_path, why)),
        };
    }
    let read =
        folder::is_regular(&plan_path).and_then(|()| input::plan_file(plan_path.as_os_str()));
    let plan = match read.map(input::digits) {
        Ok(Ok(plan)) => plan,
        Ok(Err(why)) => return Finding::NoPlan(why),
        Err(why) => return Finding::Failed(why),
    };
    match job::checked(&file, &plan, &Names::default()) {
        Ok(verdict) => Finding::Checked {
            verdict,
            as_planned: plan.bytes == own,
            older: is_older(&plan_path, path),
        },
        Err(told) => Finding::PlanRefused(told),
    }
}

/// Whether a file was changed before another.
fn is_older(file: &Path, other: &Path) -> bool {
    let changed = |path| fs::metadata(path).and_then(|found| found.modified()).ok();
    changed(file) < changed(other)
}

impl Finding {
    /// It in the column of plans.
    fn word(&self) -> String {
        match self {
            Finding::Checked { verdict, .. } => check::word(*verdict).to_string(),
            Finding::Missing => "missing".to_string(),
            Finding::JobRefused(_) => "job refused".to_string(),
            Finding::PlanRefused(told) => told.refusal.to_string(),
            Finding::NoPlan(_) => "no plan".to_string(),
            Finding::Failed(_) => "not read".to_string(),
        }
    }

    fn is_faithful(&self) -> bool {
        matches!(
            self,
            Finding::Checked {
                verdict: Verdict::Faithful,
                ..
            }
        )
    }

    fn is_as_planned(&self) -> bool {
        matches!(
            self,
            Finding::Checked {
                as_planned: true,
                ..
            }
        )
    }

    fn is_older(&self) -> bool {
        matches!(self, Finding::Checked { older: true, .. })
    }

    /// What is said of the jobs with such findings, unless their plans are faithful.
    fn wrong(&self) -> Option<&'static str> {
        match self {
            Finding::Checked { .. } if self.is_faithful() => None,
            Finding::Checked { .. } => Some(DIFFERENT),
            Finding::Missing => Some(MISSING),
            Finding::JobRefused(_) | Finding::PlanRefused(_) | Finding::NoPlan(_) => Some(REFUSED),
            Finding::Failed(_) => Some(FAILED),
        }
    }

    /// What is said of it on standard error, with the job or its plan file named whole.
    fn said(&self, job: &Path, plans: &Path) -> String {
        match self {
            Finding::Checked { .. } | Finding::Missing => {
                let plan = folder::shown(&plan_of(job, plans));
                folder::said(job, format!("{plan} is {}", self.word()))
            }
            Finding::JobRefused(told) | Finding::PlanRefused(told) => told.text.clone(),
            Finding::NoPlan(why) | Finding::Failed(why) => why.clone(),
        }
    }

    /// It as fields of a document.
    fn fields(&self) -> Vec<(&'static str, Json)> {
        match self {
            Finding::Checked {
                verdict,
                as_planned,
                older,
            } => vec![
                ("verdict", Json::text(check::word(*verdict))),
                ("as_planned", Json::Bool(*as_planned)),
                ("older", Json::Bool(*older)),
            ],
            Finding::Missing => vec![("missing", Json::Bool(true))],
            Finding::JobRefused(told) => vec![("job_refused", told.json())],
            Finding::PlanRefused(told) => vec![("plan_refused", told.json())],
            Finding::NoPlan(why) => vec![("no_plan", Json::text(why))],
            Finding::Failed(why) => vec![("failed", Json::text(why))],
        }
    }
}

/// How many findings are so.
fn count(findings: &[(&Path, Finding)], is: fn(&Finding) -> bool) -> usize {
    findings.iter().filter(|(_, finding)| is(finding)).count()
}

/// A row for each job, and the counts.
fn report(findings: &[(&Path, Finding)], all: usize) -> String {
    let headings = ["job", "plan", "as planned", "older"];
    let mut rows = vec![headings.map(str::to_string)];
    let yes_or_no = |yes: bool| if yes { "yes" } else { "no" };
    for (job, finding) in findings {
        let marks = match finding {
            Finding::Checked {
                as_planned, older, ..
            } => [yes_or_no(*as_planned), yes_or_no(*older)],
            _ => [""; 2],
        };
        let [as_planned, older] = marks.map(str::to_string);
        rows.push([shown::name(name_of(job)), finding.word(), as_planned, older]);
    }
    format!(
        "{}{} of {all} jobs with a faithful plan, {} as planned, {} older than the job\n",
        table(
            [Side::Name(LEAST), Side::Left, Side::Left, Side::Left],
            &rows
        ),
        count(findings, Finding::is_faithful),
        count(findings, Finding::is_as_planned),
        count(findings, Finding::is_older)
    )
}

/// All jobs with what is found of their plans, and the totals.
fn document(
    found: &Folder,
    findings: &[(&Path, Finding)],
    orphans: &[OsString],
    plans_skipped: &[OsString],
) -> String {
    let job = |(job, finding): &(&Path, Finding)| {
        let mut fields = vec![("job", Json::name(name_of(job)))];
        fields.extend(finding.fields());
        Json::Object(fields)
    };
    let all = found.jobs.len();
    let count = |is| Json::number(count(findings, is));
    let totals = vec![
        ("jobs", Json::number(all)),
        ("faithful", count(Finding::is_faithful)),
        ("as_planned", count(Finding::is_as_planned)),
        ("older", count(Finding::is_older)),
        ("not_begun", Json::number(all - findings.len())),
    ];
    json::document(vec![
        ("jobs", Json::List(findings.iter().map(job).collect())),
        ("plans_without_a_job", names(orphans)),
        (
            "skipped",
            names(&[&found.skipped[..], plans_skipped].concat()),
        ),
        ("totals", Json::Object(totals)),
    ])
}

/// Says what is wrong with jobs and plans, and gives the exit status.
fn complaints(findings: &[(&Path, Finding)], plans: &Path, orphans: &[OsString], all: usize) -> u8 {
    for wrong in [DIFFERENT, MISSING, REFUSED, FAILED] {
        let found = findings.iter();
        let found = found.filter(|(_, finding)| finding.wrong() == Some(wrong));
        let said: Vec<_> = found
            .map(|(job, finding)| finding.said(job, plans))
            .collect();
        complain(wrong, &said, all);
    }
    for orphan in orphans {
        output::complain(&format!("{} is the plan of no job", shown::name(orphan)));
    }
    let left = all - findings.len();
    complain_of_stop(left, all);
    let faithful = count(findings, Finding::is_faithful);
    let failed = count(findings, |finding| matches!(finding, Finding::Failed(_)));
    match failed + left {
        0 => u8::from(faithful < all || !orphans.is_empty()),
        _ => 2,
    }
}
