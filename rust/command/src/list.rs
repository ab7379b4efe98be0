//! The command `list`: what was found at each point of a job.
use crate::args::{Command, Given};
use crate::explain::explained;
use crate::json::Json;
use crate::listing::Listing;
use crate::names::{self, Names};
use crate::refusal::Told;
use crate::{input, job, json, output, refusal};

pub const COMMAND: Command = Command {
    name: "list",
    usage: "list JOB [--explain | --json] [--names FILE]",
    summary: "Plans a job and lists what was found at each point.",
    details: "
  JOB           a job file, or - for standard input
  --explain     a table with headings, in words what it says of each point, and where walks come in again
                and return
  --json        the same numbers as a JSON document
  --names FILE  with --explain or --json, names for the symbols, nodes and states; `dapohiru help` shows
                such a file

Without --explain and --json it prints a W line for each event node (node, symbol, before set, class
count, nop mark, watched) and the T line (event nodes, watched, passes), or for a refusal X and its
number.
Exit status: 0 a listing; 2 a refused job or something else that is wrong.
",
    names: &["JOB"],
    more: 0,
    flags: &["--explain", "--json"],
    options: &[("--names", "FILE")],
    several: &[],
    run,
};

/// What the listing is printed as.
enum Form {
    Lines,
    Explained,
    Json,
}

fn run(given: &Given) -> Result<u8, String> {
    let form = match (given.has("--explain"), given.has("--json")) {
        (true, true) => {
            return Err("list: --explain and --json are two forms, take one".to_string())
        }
        (true, false) => Form::Explained,
        (false, true) => Form::Json,
        (false, false) => Form::Lines,
    };
    let (name, names) = (
        given.name(0),
        names::asked(given, "list", &["--explain", "--json"])?,
    );
    input::at_most_one_is_input("list", &[("JOB", Some(name)), ("the names", names)])?;
    let file = input::job(name)?;
    let mut lines = vec![0; dapohiru::LISTING_LEN];
    let work = &mut vec![0; dapohiru::WORK_LEN];
    match dapohiru::list(&file.bytes, work, &mut lines) {
        Ok(len) => lines.truncate(len),
        Err(refusal) => return Err(refused(given, &form, refusal::of_job(&file, refusal))),
    }
    let printed = match form {
        Form::Lines => lines,
        Form::Explained | Form::Json => {
            let job = job::accepted(&file)?;
            let read = Names::read(names, &job)?;
            let listing = Listing::of(&lines);
            match form {
                Form::Json => {
                    let mut fields = vec![("job", Json::name(name))];
                    fields.extend(listing.json());
                    fields.extend(names.map(|_| ("names", read.json())));
                    json::document(fields).into_bytes()
                }
                _ => explained(&listing, &job, &read).into_bytes(),
            }
        }
    };
    output::print(&printed).map(|()| 0)
}

/// Prints a refusal where the form has one, and gives what is said of it.
fn refused(given: &Given, form: &Form, told: Told) -> String {
    let printed = match form {
        Form::Lines => format!("X{:>6}\n", told.refusal.0),
        Form::Explained => String::new(),
        Form::Json => json::document(vec![
            ("job", Json::name(given.name(0))),
            ("refused", told.json()),
        ]),
    };
    output::refused(&printed, told.text)
}
