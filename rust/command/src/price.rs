//! The command `price`: what the journal lines of a plan cost a day.
use crate::args::{Command, Given};
use crate::bill::{a_day, Bill, Point};
use crate::input::Input;
use crate::names::{self, Names};
use crate::numbered::VOLUMES;
use crate::tariff::Tariff;
use crate::{input, job, output, refusal};
use dapohiru_second::job::Job;

pub const COMMAND: Command = Command {
    name: "price",
    usage: "price JOB PLAN VOLUMES [--prices FILE] [--explain] [--names FILE]",
    summary: "Prices a plan: prints what its journal lines cost a day, in cents and as money.",
    details: "
  JOB            a job file
  PLAN           a file that holds a line of 0 and 1, a digit for each node
  VOLUMES        a file with a line for each node in order: V, the node, and its events a day, 0 to 999999
  --prices FILE  an association's own prices, a file with a line for each of the symbols 0 to 15 in order:
                 B, the symbol, and the cents per thousand events, 0 to 9999; `dapohiru prices` prints such
                 a file of the house prices
  --explain      a table of what each point costs, what all points watched would cost, and what the plan
                 saves
  --names FILE   with --explain, names for the symbols and nodes; `dapohiru help` shows such a file
In VOLUMES and in the file of --prices each number is right-justified in six columns, with spaces or zeros
before it. One of the files may be - for standard input.

Without --prices a thousand events of symbol s cost 20 + 5 s cents. The price is the sum over the watched
points, and a part of a cent in the sum counts as a cent. A plan that is different is priced too, with a
note on standard error.
Exit status: 0 a price; 2 a refused job, plan, volume file or price file, or something else that is wrong.
",
    names: &["JOB", "PLAN", "VOLUMES"],
    more: 0,
    flags: &["--explain"],
    options: &[("--prices", "FILE"), ("--names", "FILE")],
    several: &[],
    run,
};

fn run(given: &Given) -> Result<u8, String> {
    let names = names::asked(given, "price", &["--explain"])?;
    let prices = given.value("--prices");
    let files = [
        ("JOB", given.further(0)),
        ("PLAN", given.further(1)),
        ("VOLUMES", given.further(2)),
        ("the prices", prices),
        ("the names", names),
    ];
    input::at_most_one_is_input("price", &files)?;
    let file = input::job(given.name(0))?;
    let plan = input::plan(given.name(1))?;
    let volumes = input::numbered(given.name(2))?;
    let tariff = Tariff::read(prices)?;
    let price = job::priced(&file, &plan, &volumes, &tariff)?;
    let text = match given.has("--explain") {
        false => a_day(price) + "\n",
        true => {
            let job = job::accepted(&file)?;
            let names = Names::read(names, &job)?;
            let bill = Bill {
                points: points(&file, &job, &plan.bytes, &volumes, &tariff)?,
                price,
                full: tariff.cents(&file, &job.all_watched(), &volumes.bytes)?,
                tariff: &tariff,
            };
            bill.explained(&names)?
        }
    };
    // writes a note where the plan is different
    job::given_plan(&file, plan)?;
    output::print(text.as_bytes()).map(|()| 0)
}

/// The points of a job under a plan, with their rates.
fn points(
    file: &Input,
    job: &Job,
    plan: &[u8],
    volumes: &Input,
    tariff: &Tariff,
) -> Result<Vec<Point>, String> {
    let events = VOLUMES
        .read(&volumes.bytes, job.nodes.len())
        .map_err(|fault| refusal::by_second_reader_alone(&volumes.shown, fault.number))?;
    let rates = tariff.rates(file, job)?;
    let point = |(node, rate): (usize, u64)| Point {
        node,
        symbol: job.nodes[node].value as usize,
        volume: events[node],
        rate,
        watched: plan[node] == 1,
    };
    Ok(job.points().into_iter().zip(rates).map(point).collect())
}
