//! The command `graph`: the flow graph of a job, with its plan.
use crate::args::{Command, Given};
use crate::dot::Drawer;
use crate::drawing::drawn;
use crate::names::Names;
use crate::{input, job, output};

pub const COMMAND: Command = Command {
    name: "graph",
    usage: "graph JOB [PLAN] [--svg | --png] [--seconds S] [--names FILE] [-o FILE]",
    summary: "Draws the flow graph of a job for Graphviz, with the watched points marked.",
    details: "
  JOB           a job file
  PLAN          a file that holds a line of 0 and 1; without it the plan that `plan` makes
  --svg         a picture, made by Graphviz's program dot, which must be installed
  --png         likewise
  --seconds S   with --svg or --png, how long the picture may take, 1 to 3600; without it 60
  --names FILE  names for the symbols, nodes and states; `dapohiru help` shows such a file
  -o FILE       writes there and not to standard output; the file is written whole or not at all; - is
                standard output
One of the files that are read may be - for standard input.

Event nodes are boxes, filled where watched and dashed where not; calls are hexagons, those that may
come back in (re-entrant calls) with a double line, plain nodes ellipses. An entry has an arrow from
its set of start states, an exit one to `exit`. Dashed arrows lead from re-entrant calls by way of
`comes in again` to the entries, and from exits by way of `returns` to re-entrant calls. A plan that
is different is drawn too, with a note on standard error.
A picture of more than 250 arrows is laid out by Graphviz's sfdp, which takes seconds where dot can
take minutes and does not order the nodes by the flow; a note says so. An interrupt ends dot too, and
no file is written.
Exit status: 0 drawn; 2 a refused job or plan, or something else that is wrong.
",
    names: &["JOB"],
    more: 1,
    flags: &["--svg", "--png"],
    options: &[("--seconds", "S"), ("--names", "FILE"), ("-o", "FILE")],
    several: &[],
    run,
};

/// How its pictures are asked for.
const DRAWER: Drawer = Drawer {
    command: "graph",
    as_text: |format| format!("without --{format} the graph is printed as text"),
};

fn run(given: &Given) -> Result<u8, String> {
    let to = output::named(given.value("-o"));
    let picture = DRAWER.asked(given, to)?;
    let names = given.value("--names");
    let files = [
        ("JOB", given.further(0)),
        ("PLAN", given.further(1)),
        ("the names", names),
    ];
    input::at_most_one_is_input("graph", &files)?;
    let read: Vec<_> = files.iter().filter_map(|(_, file)| *file).collect();
    output::loses_nothing(to, &read)?;
    let file = input::job(given.name(0))?;
    let job = job::accepted(&file)?;
    let names = Names::read(names, &job)?;
    let plan = match given.further(1) {
        None => job::planned(&file)?.0,
        Some(plan) => job::named_plan(&file, input::plan(plan)?, &names)?,
    };
    let text = drawn(&job, &plan, &names);
    let bytes = match picture {
        None => text.into_bytes(),
        Some(picture) => picture.of(text)?,
    };
    output::deliver(to, &bytes).map(|()| 0)
}
