//! The command `plan`: the plan of a job.
use crate::args::{Command, Given};
use crate::{input, job, output};

pub const COMMAND: Command = Command {
    name: "plan",
    usage: "plan JOB [-o FILE]",
    summary: "Plans a job: prints one digit for each node, 1 at a watched point and 0 at all else.",
    details: "
  JOB      a job file, or - for standard input
  -o FILE  writes the plan there and not to standard output; the file is written whole or not at all;
           - is standard output

The counts of event nodes, watched points and passes go to standard error.
Exit status: 0 a plan; 2 a refused job, and no plan is written, or something else that is wrong.
",
    names: &["JOB"],
    more: 0,
    flags: &[],
    options: &[("-o", "FILE")],
    several: &[],
    run,
};

fn run(given: &Given) -> Result<u8, String> {
    let to = output::named(given.value("-o"));
    output::loses_nothing(to, &[given.name(0)])?;
    let file = input::job(given.name(0))?;
    let (plan, counts) = job::planned(&file)?;
    output::deliver(to, dapohiru::planfile::write(&plan).as_bytes())?;
    output::note(&(job::counted(&counts) + "\n")).map(|()| 0)
}
