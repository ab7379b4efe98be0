//! Rounds one after another, up to the first difference.
use crate::arguments;
use crate::found::Found;
use crate::progress::Progress;
use crate::rounds::Rounds;
use std::any::Any;
use std::io::{self, Write};
use std::panic::{catch_unwind, AssertUnwindSafe};

/// What a panic says.
fn said(panic: Box<dyn Any + Send>) -> String {
    let text = panic.downcast_ref::<String>().cloned();
    let text = text.or_else(|| panic.downcast_ref::<&str>().map(|text| text.to_string()));
    text.unwrap_or_else(|| "a panic without words".to_string())
}

/// Makes the rounds, and says what they came to.
pub fn run(asked: &arguments::Rounds, out: &mut impl Write) -> io::Result<Found> {
    let arguments::Rounds {
        seed,
        ref numbers,
        slips,
    } = *asked;
    if let Some(slip) = slips.words() {
        writeln!(out, "the second implementation slips: {slip}")?;
    }
    let mut rounds = Rounds::new(seed, slips);
    let mut progress = Progress::new();
    let (mut made, mut difference) = (0, None);
    for number in numbers.clone() {
        let made_it = catch_unwind(AssertUnwindSafe(|| rounds.make(number)));
        made += 1;
        if let Err(why) = made_it.unwrap_or_else(|panic| Err(said(panic))) {
            difference = Some((number, why));
            break;
        }
        progress.show(made, numbers.end - numbers.start, "rounds");
    }
    progress.end(out, &format!("seed {seed}: {made} rounds"), &rounds.tally)?;
    let Some((number, why)) = difference else {
        writeln!(out, "no difference")?;
        return Ok(Found::Nothing);
    };
    let slip = slips.words().map(|slip| format!(" --slip {slip}"));
    writeln!(out, "\ndifference in round {number}: {why}")?;
    writeln!(
        out,
        "\nto see it again: dapohiru-selftest again {seed} {number}{}",
        slip.unwrap_or_default()
    )?;
    Ok(Found::Difference)
}
