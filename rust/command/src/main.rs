//! The command line of the planner and the monitor: a thin layer over the proved calls, which decides
//! nothing itself. Each command is a module.
mod args;
mod arrivals;
mod audit;
mod automaton;
mod bill;
mod change;
mod check;
mod child;
mod clock;
mod diagram;
mod digest;
mod dot;
mod drawing;
mod edges;
mod encoding;
mod events;
mod explain;
mod expression;
mod fault;
mod folder;
mod grammar;
mod graph;
mod input;
mod job;
mod json;
mod lease;
mod lines;
mod list;
mod listing;
mod made;
mod monitor;
mod names;
mod naming;
mod numbered;
mod output;
mod place;
mod places;
mod plan;
mod price;
mod prices;
mod progress;
mod record;
mod recordfile;
mod refusal;
mod release;
mod reports;
mod rows;
mod rule;
mod shown;
mod sizes;
mod start;
mod stop;
mod summary;
mod table;
mod tariff;
mod terminal;
mod watch;

use args::{Asked, Command};
use std::ffi::{OsStr, OsString};
use std::process::ExitCode;

/// The commands, in the order of the help.
const COMMANDS: [&Command; 10] = [
    &plan::COMMAND,
    &list::COMMAND,
    &check::COMMAND,
    &price::COMMAND,
    &prices::COMMAND,
    &watch::COMMAND,
    &release::COMMAND,
    &graph::COMMAND,
    &edges::COMMAND,
    &rule::COMMAND,
];

fn main() -> ExitCode {
    let words: Vec<_> = std::env::args_os().skip(1).collect();
    run(&words).map_or_else(
        |why| {
            output::complain(&why);
            ExitCode::from(2)
        },
        ExitCode::from,
    )
}

/// Runs the command that the words ask for, and gives the exit status; what is wrong ends with 2.
fn run(words: &[OsString]) -> Result<u8, String> {
    let Some((first, words)) = words.split_first() else {
        return Err(format!("no command is given\n{}", known()));
    };
    match first.to_str() {
        Some("--help" | "-h") => print(&help()),
        Some("--version" | "-V") => match words.first() {
            Some(extra) => Err(too_many("--version", extra, "--version")),
            None => print(&format!("dapohiru {}\n", env!("CARGO_PKG_VERSION"))),
        },
        Some("help") => asked_help(words),
        _ => {
            let command = command(first)?;
            match args::take(command, words)? {
                Asked::Help => print(&command.help()),
                Asked::Run(given) => (command.run)(&given),
            }
        }
    }
}

/// Prints a text, and gives the exit status.
fn print(text: &str) -> Result<u8, String> {
    output::print(text.as_bytes()).map(|()| 0)
}

/// The command of this name.
fn command(name: &OsStr) -> Result<&'static Command, String> {
    let found = COMMANDS.into_iter().find(|command| name == command.name);
    found.ok_or_else(|| format!("{} is no command\n{}", shown::name(name), known()))
}

/// Prints the help for all commands, or for the one that is named.
fn asked_help(words: &[OsString]) -> Result<u8, String> {
    match words {
        [] => print(&help()),
        [name] if ["help", "--help", "-h"].iter().any(|help| name == help) => print(&help()),
        [name] => print(&command(name)?.help()),
        [_, extra, ..] => Err(too_many("help", extra, "help [COMMAND]")),
    }
}

/// What is said of a word that is too many, with the usage.
fn too_many(what: &str, extra: &OsStr, usage: &str) -> String {
    let extra = shown::name(extra);
    format!("{what}: {extra} is one name too many\nusage: dapohiru {usage}")
}

/// The names of the commands, for a message.
fn known() -> String {
    let names = COMMANDS.map(|command| command.name).join(", ");
    format!("the commands are {names}; `dapohiru --help` tells of each")
}

/// The help for all commands.
fn help() -> String {
    let mut text = "usage: dapohiru COMMAND ..\n\n".to_string();
    for command in COMMANDS {
        text += &format!("  {}\n      {}\n", command.usage, command.summary);
    }
    text + "  help [COMMAND]
      Prints this text, or what COMMAND --help prints.
  --version
      Prints the program's version.

JOB is a job file, PLAN a file that holds a line of 0 and 1 with one digit for each node, VOLUMES one
with a line for each node and its events a day, the file of --prices one with a line for each of the
symbols 0 to 15 and what a thousand of its events cost, and ROWS one with the rows of a rule. One of
the files of a command may be -, which is standard input; watch reads its events there. What begins
with - is an option, up to the word --.
The file of --names has a line for each name, of a symbol, a node or a state of the job:

  symbol 0 seal
  node 2 second write
  state 1 sealed

`0 seal` names a symbol too. A name is text without control characters.
In names of files and all other text from outside, control characters, those that stand in no column,
bytes that are no UTF-8 and the backslash are shown as \\n, \\u{1b}, \\xff and \\\\.
`dapohiru COMMAND --help` tells more of a command.

Exit status: 0 done, faithful, no alarm; 1 different, an alarm, or a refused job in a release;
2 a refusal or something else that is wrong, which standard error names; of watch also 3 events that
are no walk, and 4 a line that is no event.
"
}
