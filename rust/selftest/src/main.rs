//! `dapohiru-selftest`: the C calls of the static library beside the second implementation that walks.
mod arguments;
mod calls;
mod found;
mod lengths;
mod memory;
mod progress;
mod rounds;
mod run;
mod slips;
mod soak;
mod tally;

use arguments::{Asked, USAGE};
use found::Found;
use std::io::{self, Write};
use std::process::ExitCode;

/// The program's name and version, as `--version` prints them.
const VERSION: &str = concat!("dapohiru-selftest ", env!("CARGO_PKG_VERSION"), "\n");

/// Does what is asked, and writes what it found.
fn answer(asked: &Asked, out: &mut impl Write) -> io::Result<Found> {
    match asked {
        Asked::Help => out.write_all(USAGE.as_bytes()).map(|()| Found::Nothing),
        Asked::Version => out.write_all(VERSION.as_bytes()).map(|()| Found::Nothing),
        Asked::Slips => slips::list(out).map(|()| Found::Nothing),
        Asked::Rounds(rounds) => run::run(rounds, out),
        Asked::Memory { seed, files } => memory::run(*seed, *files, out),
        Asked::Soak { events } => soak::run(*events, out),
    }
}

fn main() -> ExitCode {
    let asked = match arguments::read(std::env::args_os().skip(1)) {
        Ok(asked) => asked,
        Err(why) => {
            let _ = writeln!(io::stderr(), "dapohiru-selftest: {why}\n\n{USAGE}");
            return ExitCode::from(2);
        }
    };
    let mut out = io::stdout().lock();
    match answer(&asked, &mut out).and_then(|found| out.flush().map(|()| found)) {
        Ok(Found::Nothing) => ExitCode::SUCCESS,
        Ok(Found::Difference) => ExitCode::from(1),
        Err(why) => {
            let _ = writeln!(io::stderr(), "dapohiru-selftest: standard output: {why}");
            ExitCode::from(2)
        }
    }
}
