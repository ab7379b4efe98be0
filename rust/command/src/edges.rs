//! The command `edges`: what leads to a node of a job, all its edges, and the job with edges added and dropped.
use crate::args::{self, Command, Given};
use crate::arrivals::Listed;
use crate::change::{self, Change};
use crate::input::Input;
use crate::json::{self, Json};
use crate::names::Names;
use crate::refusal::Told;
use crate::{input, job, output, refusal};
use dapohiru::Arrivals;

pub const COMMAND: Command = Command {
    name: "edges",
    usage: "edges JOB ([--into N] [--json] | (--add A,B | --drop A,B) .. [-o FILE]) [--names FILE]",
    summary: "Lists what leads to a node or all edges of a job, or writes the job with edges added and dropped.",
    details: "
  JOB           a job file
  --into N      lists the nodes with an edge to node N, ascending, each on a line; without it, and without
                --add and --drop, all edges are listed
  --json        the same numbers as a JSON document
  --add A,B     the job with an edge more, from node A to node B
  --drop A,B    the job without its edge from node A to node B
  --names FILE  names for the nodes, in what is listed or refused; `dapohiru help` shows such a file
  -o FILE       writes the changed job there and not to standard output; the file is written whole or not
                at all, and may be JOB itself; - is standard output
One of the files that are read may be - for standard input.

What leads to a node are edges alone: that walks begin at an entry, come in again or return to a call is
not listed. Where there is none, a note says so.
--add and --drop may be given several times, and are done in the order in which they are given. An edge
that is added must not be there, one that is dropped must be, and there are 2048 edges at most. In the
changed job the edges ascend, and the J line has their count; a new edge and a new count have spaces before
their numbers, and all else stands as it stood. The job is written once planning has accepted it. The counts
of edges, event nodes, watched points and passes go to standard error.
Exit status: 0 listed, or a changed job; 2 a refused job or edge, and no file is written, or something else
that is wrong.
",
    names: &["JOB"],
    more: 0,
    flags: &["--json"],
    options: &[
        ("--into", "N"),
        ("--add", "A,B"),
        ("--drop", "A,B"),
        ("--names", "FILE"),
        ("-o", "FILE"),
    ],
    several: &change::OPTIONS,
    run,
};

fn run(given: &Given) -> Result<u8, String> {
    let changes = Change::all(given)?;
    go_together(given, changes.first())?;
    let (name, names) = (given.name(0), given.value("--names"));
    input::at_most_one_is_input("edges", &[("JOB", Some(name)), ("the names", names)])?;
    let to = output::named(given.value("-o"));
    // JOB is read to its end before it is replaced
    output::loses_nothing(to, names.as_slice())?;
    let file = input::job(name)?;
    if let Err(told) = job::rule(&file) {
        return Err(refused(given, told));
    }
    let job = job::accepted(&file)?;
    let names = Names::read(names, &job)?;
    let edges = job.edges.iter();
    let edges: Vec<_> = edges.map(|&(from, to)| (from as u16, to as u16)).collect();
    let mut arrivals = Arrivals::new(job.nodes.len(), &edges)
        .map_err(|refusal| refusal::of_job(&file, refusal))?;
    if changes.is_empty() {
        return list(given, &arrivals, &names);
    }
    for change in &changes {
        change.make(&mut arrivals).map_err(|refusal| {
            let fault = change.fault(&arrivals, &names);
            refusal::of_edge(&file, fault, refusal)
        })?;
    }
    let changed = Input {
        shown: "the changed job".to_string(),
        bytes: change::file(&file.bytes, &edges, &arrivals),
    };
    let (_, counts) = job::planned(&changed)?;
    output::deliver(to, &changed.bytes)?;
    let counts = job::counted(&counts);
    output::note(&format!("edges {}   {counts}\n", arrivals.count())).map(|()| 0)
}

/// Refuses options of which one lists edges and another changes them.
fn go_together(given: &Given, change: Option<&Change>) -> Result<(), String> {
    let why = match change {
        Some(change) if given.value("--into").is_some() => {
            format!(
                "--into lists edges and {} changes them, take one",
                change.option
            )
        }
        Some(_) if given.has("--json") => {
            "--json is only of use without --add and --drop".to_string()
        }
        None if given.value("-o").is_some() => "-o is only of use with --add or --drop".to_string(),
        _ => return Ok(()),
    };
    Err(format!("edges: {why}"))
}

/// Prints what leads to the node that is asked for, or all edges.
fn list(given: &Given, arrivals: &Arrivals, names: &Names) -> Result<u8, String> {
    let listed = match given.value("--into") {
        Some(node) => {
            let node = args::number("edges", "--into", node, "nodes", arrivals.nodes())?;
            Listed::into(node, arrivals, names)
        }
        None => Listed::all(arrivals, names),
    };
    if given.has("--json") {
        let mut fields = vec![("job", Json::name(given.name(0)))];
        fields.extend(listed.fields);
        if given.value("--names").is_some() {
            fields.push(("names", names.json()));
        }
        return output::print(json::document(fields).as_bytes()).map(|()| 0);
    }
    match listed.lines.is_empty() {
        true => output::note(&format!("note: {}\n", listed.none))?,
        false => output::print((listed.lines.join("\n") + "\n").as_bytes())?,
    }
    Ok(0)
}

/// Prints a refusal where that is asked for, and gives what is said of it.
fn refused(given: &Given, told: Told) -> String {
    if !given.has("--json") {
        return told.text;
    }
    let fields = vec![("job", Json::name(given.name(0))), ("refused", told.json())];
    output::refused(&json::document(fields), told.text)
}
