//! The command `rule`: the rule that rows or an expression say, as R lines for a job file, as a table or as a picture.
use crate::args::{Command, Given};
use crate::expression::{Letters, Typed};
use crate::made::{Form, Origin, FORMS};
use crate::names::{File, Names};
use crate::place::SIZES;
use crate::sizes::{Size, Sizes};
use crate::{input, naming, output, refusal};
use std::ffi::OsStr;

pub const COMMAND: Command = Command {
    name: "rule",
    usage: "rule (ROWS --states S [--finals Q,Q] | --expression TEXT) --symbols A \
            [--table | --json | --dot | --svg | --png] [--seconds N] [--names FILE] [-o FILE]",
    summary: "Makes a rule from rows or from an expression: prints its R lines, for a job file.",
    details: "
  ROWS          a file of at most 256 rows: Q, the first and the last state, the first and the last symbol,
                and the next state, each number right-justified in six columns, with spaces or zeros before
                it
  --states S    with ROWS, the number of states, 1 to 16
  --finals Q,Q  with ROWS, the final states, with a comma between them; left out, no state is final, and a
                note says so, since the rule then raises no alarm
  --expression TEXT
                at most 64 characters: a letter for each symbol, a for symbol 0, and `*`, `|`, `(` and `)`;
                - is standard input, a line
  --symbols A   the number of symbols, 1 to 16
  --table       a table with a row for each state and a column for each symbol
  --json        the same numbers as a JSON document
  --dot         the states as a graph for Graphviz
  --svg         its picture, made by Graphviz's program dot, which must be installed
  --png         likewise
  --seconds N   with --svg or --png, how long the picture may take, 1 to 3600; without it 60
  --names FILE  names for the symbols and states, for an expression, for what is refused and for all forms
                but the R lines; `dapohiru help` shows such a file, and the names of nodes that it may have
                are not shown
  -o FILE       writes there and not to standard output; the file is written whole or not at all; - is
                standard output
One of the files that are read may be - for standard input.

The rows name every pair of a state, 0 to S - 1, and a symbol, 0 to A - 1, just once, in any order: a row
names all pairs of its states and its symbols. `Q     0     2     0     0     1` says that from each of the
states 0 to 2 symbol 0 leads to state 1.
An expression says after which events there is an alarm: after all that are a word of it, from the first
event on. `ab` is a and then b, `a|b` one of them, and `a*` any number of a, also none; a star binds first,
then following on, then the bar, and parentheses group. `a(a|c)*c` is a, then any of a and c, then c. The
states are found and numbered by the call: walks begin in state 0, which no event leads back to.
With --names the names of symbols may stand in place of letters, as in `seal (seal | write)* write`, with
blanks anywhere between them; letters stand apart then. A word that can be read in two ways is refused,
and a note, the table's first lines or the document show the letters that were passed on. Names of states
are put on those of the rule that comes out, and a note says so.
An R line is the state, 1 where it is final, else 0, and the next state on each symbol. The R lines follow
the J line of a job file, which has the same S and A.
In the picture a final state has a double circle, and one arrow stands for all symbols that lead from one
state to another. No state is the first of rows: a job says in which states its walks begin.
Exit status: 0 a rule; 2 refused rows or a refused expression, and no file is written, or something else
that is wrong.
",
    names: &[],
    more: 1,
    flags: FORMS,
    options: &[
        ("--states", "S"),
        ("--symbols", "A"),
        ("--finals", "Q,Q"),
        ("--expression", "TEXT"),
        ("--seconds", "N"),
        ("--names", "FILE"),
        ("-o", "FILE"),
    ],
    several: &[],
    run,
};

fn run(given: &Given) -> Result<u8, String> {
    let (rows, expression) = (given.further(0), given.value("--expression"));
    let form = || Form::asked(given, output::named(given.value("-o")));
    match (rows, expression) {
        (None, None) => Err(COMMAND.wrong("ROWS or --expression TEXT is missing".to_string())),
        (Some(_), Some(_)) => {
            Err("rule: ROWS and --expression both say a rule, take one".to_string())
        }
        (Some(name), None) => of_rows(given, &form()?, name),
        (None, Some(asked)) => {
            for option in ["--states", "--finals"] {
                if given.value(option).is_some() {
                    return Err(format!(
                        "rule: {option} is only of use with ROWS; those of an expression are found by the call"
                    ));
                }
            }
            of_expression(given, &form()?, asked)
        }
    }
}

/// The file of names, where this is read beside it from a file.
fn names_beside<'a>(
    given: &'a Given,
    what: &str,
    file: Option<&OsStr>,
) -> Result<Option<&'a OsStr>, String> {
    let names = given.value("--names");
    let files = [(what, file), ("the names", names)];
    input::at_most_one_is_input("rule", &files)?;
    let read: Vec<_> = files.iter().filter_map(|(_, file)| *file).collect();
    output::loses_nothing(output::named(given.value("-o")), &read)?;
    Ok(names)
}

/// The rule of rows.
fn of_rows(given: &Given, form: &Form, name: &OsStr) -> Result<u8, String> {
    let sizes = Sizes::of(given, &COMMAND)?;
    let names = names_beside(given, "ROWS", Some(name))?;
    let rows = input::numbered(name)?;
    let names = match sizes.within() {
        Some([states, symbols]) => Names::of_rule(&File::read(names)?, states, symbols)?,
        None => Names::default(),
    };
    let origin = Origin::rows(name);
    let Some([states, symbols, finals]) = sizes.passed() else {
        let meaning = "a number given with the rows is outside its limits";
        let told = refusal::before_the_call(COMMAND.name, meaning, sizes.fault(), None);
        return Err(origin.refused(form, told));
    };
    match dapohiru::rows(&rows.bytes, states, symbols, finals) {
        Ok(rule) => origin.deliver(given, form, &rule, &names),
        Err(refusal) => {
            let told = refusal::of_rows(&rows, &sizes, &names, refusal);
            Err(origin.refused(form, (told.json(), told.text)))
        }
    }
}

/// The rule of an expression.
fn of_expression(given: &Given, form: &Form, asked: &OsStr) -> Result<u8, String> {
    let symbols = Size::of_symbols(given, &COMMAND)?;
    let names = names_beside(
        given,
        "the expression",
        Some(asked).filter(|&asked| asked == "-"),
    )?;
    let typed = Typed::of(asked)?;
    let origin = Origin::expression(&typed.text);
    let refused = |origin: Origin, meaning, fault| {
        let told = refusal::before_the_call(COMMAND.name, meaning, fault, typed.hint.as_ref());
        Err(origin.refused(form, told))
    };
    let Some(passed) = symbols.passed() else {
        let meaning = "the number given with the expression is outside its limits";
        return refused(origin, meaning, symbols.fault(20));
    };
    let (file, letters, origin) = match (names, symbols.within()) {
        (Some(names), Some(symbols)) => {
            let file = File::read(Some(names))?;
            // how many states there are the call finds
            let most = SIZES[0].2 as usize;
            let names = Names::of_rule(&file, most, symbols)?;
            match naming::letters(&typed.text, &names, symbols) {
                Ok(letters) => {
                    let origin = origin.with_letters(&typed.text, &letters.text);
                    (file, letters, origin)
                }
                Err((meaning, fault)) => return refused(origin, meaning, Some(fault)),
            }
        }
        _ => (File::default(), Letters::plain(&typed.text), origin),
    };
    match dapohiru::expression(&letters.text, passed) {
        Ok(rule) => {
            let names = Names::of_rule(&file, rule.states as usize, rule.symbols as usize)?;
            let origin = origin.with_states_of(&names);
            origin.deliver(given, form, &rule, &names)
        }
        Err(refusal) => {
            let told = refusal::of_expression(&typed, &letters, &symbols, refusal);
            Err(origin.refused(form, (told.json(), told.text)))
        }
    }
}
