//! The command `release`: plans all jobs of a folder, or checks all their plans.
use crate::args::{Command, Given};
use crate::folder::{self, Folder};
use crate::summary::{complaints, document, summary, Outcome};
use crate::{audit, input, job, output, stop};
use std::path::Path;
use std::time::Instant;

pub const COMMAND: Command = Command {
    name: "release",
    usage: "release DIR [-o OUTDIR] [--check] [--json]",
    summary: "Plans all jobs of a folder, and writes a plan file for each; or checks the plan files.",
    details: "
  DIR        a folder; its files NAME.job are planned, hidden ones and those of folders in it are not;
             NAME.JOB and the like are named as skipped
  -o OUTDIR  the folder for the plan files NAME.plan, made where it is missing; without it DIR
  --check    writes nothing, and checks each NAME.plan that is there against its NAME.job: whether it is
             faithful, whether it is as planned (digit for digit what `plan` makes), and whether it is
             older than the job file; standard error names each job whose plan is different, missing
             or refused, and NAME.PLAN and the like as skipped
  --json     a JSON document and no table

The jobs are planned on all cores, once it is sure that files can be made in OUTDIR. Each plan file is
written whole or not at all. A table of the planned jobs goes to standard output, a list of the refused
ones to standard error; the plan file that a refused job had before stays as it is. An interrupt
finishes the jobs that are under way and begins no others; another one, a second or more later, ends
the program at once. On a terminal that is too narrow the names in the table are cut in the middle,
but for those that would look alike.
Exit status: 0 all are planned; 1 one or more are refused; 2 something else is wrong.
With --check: 0 each job has a faithful plan and each plan file a job, whatever its age; 1 a plan is
different, refused or missing, a job is refused, or a plan file has no job; 2 something else is wrong.
",
    names: &["DIR"],
    more: 0,
    flags: &["--check", "--json"],
    options: &[("-o", "OUTDIR")],
    several: &[],
    run,
};

fn run(given: &Given) -> Result<u8, String> {
    let begin = Instant::now();
    let folder = Path::new(given.name(0));
    if given.value("-o").is_some_and(|out| out == "-") {
        return Err(
            "release: -o is -, and plan files go to a folder; one named - is ./-".to_string(),
        );
    }
    let out = given.value("-o").map_or(folder, Path::new);
    let found = Folder::read(folder)?;
    let as_json = given.has("--json");
    if given.has("--check") {
        return audit::run(&found, out, as_json);
    }
    output::make_folder(out)?;
    found.note_skipped()?;
    stop::listen();
    let outcomes = found.each(|job| plan_one(job, out));
    let text = match as_json {
        true => document(&found, &outcomes),
        false => summary(&outcomes, begin.elapsed()),
    };
    let printed = output::print(text.as_bytes());
    let status = complaints(&outcomes, found.jobs.len());
    printed.map(|()| status)
}

/// Plans one job, and writes its plan file.
fn plan_one(path: &Path, out: &Path) -> Outcome {
    let begin = Instant::now();
    let read = folder::is_regular(path).and_then(|()| input::job(path.as_os_str()));
    let file = match read {
        Ok(file) => file,
        Err(why) => return Outcome::Failed(why),
    };
    let plan_file = folder::plan_of(path, out);
    let (plan, counts) = match job::planned(&file) {
        Ok(planned) => planned,
        Err(mut told) => {
            if plan_file.exists() {
                let stays = "is of an earlier run, and stays as it is";
                told.text += &format!("\n  {} {stays}", folder::shown(&plan_file));
            }
            return Outcome::Refused(told);
        }
    };
    match output::write_file(&plan_file, dapohiru::planfile::write(&plan).as_bytes()) {
        Ok(()) => Outcome::Planned(counts, begin.elapsed()),
        Err(why) => Outcome::Failed(why),
    }
}
