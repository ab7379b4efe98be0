//! The list of slips: the wrong readings that `--slip` can give the second implementation.
use dapohiru_second::{slip, step};
use std::io::{self, Write};

/// Lists every slip by its name and in words, under what its group is about.
pub fn list(out: &mut impl Write) -> io::Result<()> {
    for (about, slips) in slip::Slip::IN_WORDS.iter().chain(step::Slip::IN_WORDS) {
        writeln!(out, "{}", about.trim())?;
        for (name, words) in *slips {
            writeln!(out, "  {name}: {}", words.trim())?;
        }
    }
    Ok(())
}
