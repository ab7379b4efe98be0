//! The command `prices`: the prices of the house, as a price file.
use crate::args::{Command, Given};
use crate::input::Input;
use crate::output;
use crate::tariff::Tariff;
use dapohiru_second::job::{Job, Node, EVENT};
use dapohiru_second::numbered::PRICES;
use dapohiru_second::pricing::SYMBOLS;

pub const COMMAND: Command = Command {
    name: "prices",
    usage: "prices",
    summary: "Prints the house prices as a price file, which price takes with --prices.",
    details: "
A price file has a line for each of the symbols 0 to 15 in order: B, the symbol, and the cents per thousand
events, 0 to 9999, each number right-justified in six columns, with spaces or zeros before it. It has all
16 lines, whatever symbols a job has.

  dapohiru prices > own.prices
  dapohiru price JOB PLAN VOLUMES --prices own.prices

Exit status: 0 printed; 2 something that is wrong.
",
    names: &[],
    more: 0,
    flags: &[],
    options: &[],
    several: &[],
    run,
};

fn run(_: &Given) -> Result<u8, String> {
    let job = all_symbols();
    let file = Input {
        shown: "a job of all symbols".to_string(),
        bytes: job.file(),
    };
    let rates = Tariff::House.rates(&file, &job)?;
    output::print(&PRICES.file(&rates)).map(|()| 0)
}

/// A job with a point for each symbol, in order.
fn all_symbols() -> Job {
    let point = |symbol| Node {
        kind: EVENT,
        value: symbol,
        entry: 1,
        exit: 0,
        after: 0,
    };
    Job {
        symbols: SYMBOLS as u64,
        finals: vec![0],
        next: vec![vec![0; SYMBOLS]],
        nodes: (0..SYMBOLS as u64).map(point).collect(),
        edges: Vec::new(),
    }
}
