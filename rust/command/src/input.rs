//! What is read: job files, plan files, volume files, price files and rule rows.
use crate::encoding::{self, MARK};
use crate::shown;
use dapohiru::planfile;
use std::ffi::OsStr;
use std::fs::File;
use std::io::{self, Read};

/// The bytes of a plan file that are read; no plan is as long.
const PLAN_FILE: usize = 4_096;
/// The bytes of a volume file, a price file or rule rows that are read; the longest that are accepted have far
/// fewer.
pub const NUMBERED_FILE: usize = 65_536;

/// A file that was read.
pub struct Input {
    /// Its name, for messages.
    pub shown: String,
    pub bytes: Vec<u8>,
}

/// A plan file: one byte for each digit.
pub struct Plan {
    pub shown: String,
    pub bytes: Vec<u8>,
}

/// Reads a job file; of one that is too long one byte more than is allowed.
pub fn job(name: &OsStr) -> Result<Input, String> {
    read(name, dapohiru::JOB_LEN + 1)
}

/// Reads a plan file, a line of digits. What a digit above 1 means is for the plan check to say.
pub fn plan(name: &OsStr) -> Result<Plan, String> {
    digits(plan_file(name)?)
}

/// Reads a plan file, whatever stands in it.
pub fn plan_file(name: &OsStr) -> Result<Input, String> {
    read(name, PLAN_FILE)
}

/// The digits of a plan file, which is one line of them.
pub fn digits(file: Input) -> Result<Plan, String> {
    let Input { shown, bytes } = file;
    let plan = planfile::read(&bytes).map_err(|error| {
        let found = match error.found {
            _ if error.column == 1 && encoding::is_marked(&bytes) => MARK.to_string(),
            b'\n' => "the end of the line".to_string(),
            byte => format!("`{}`", shown::bytes(&[byte])),
        };
        format!(
            "{shown}: line 1, column {}: found {found}\n  expected: {}{}",
            error.column,
            error.expected(),
            encoding::told(&bytes)
        )
    })?;
    Ok(Plan { shown, bytes: plan })
}

/// Reads a volume file, a price file or rule rows; of what is far too long more than is accepted, so that it is
/// refused.
pub fn numbered(name: &OsStr) -> Result<Input, String> {
    read(name, NUMBERED_FILE)
}

/// Reads a file of at most so many bytes, whole.
pub fn whole(name: &OsStr, most: usize) -> Result<Input, String> {
    let file = read(name, most + 1)?;
    match file.bytes.len() > most {
        true => Err(format!("{}: longer than {most} bytes", file.shown)),
        false => Ok(file),
    }
}

/// Reads a file, or standard input for `-`, up to so many bytes.
pub fn read(name: &OsStr, most: usize) -> Result<Input, String> {
    let (shown, file): (_, Box<dyn Read>) = if name == "-" {
        ("standard input".to_string(), Box::new(io::stdin().lock()))
    } else {
        let shown = shown::name(name);
        let file = File::open(name).map_err(|why| format!("{shown}: {why}"))?;
        (shown, Box::new(file))
    };
    let mut bytes = Vec::new();
    let done = file.take(most as u64).read_to_end(&mut bytes);
    done.map_err(|why| format!("{shown}: {why}"))?;
    Ok(Input { shown, bytes })
}

/// Refuses two files of a command that are both standard input; each file stands beside what it is.
pub fn at_most_one_is_input(command: &str, files: &[(&str, Option<&OsStr>)]) -> Result<(), String> {
    let is_input = |(_, file): &&(_, Option<&OsStr>)| file.is_some_and(|file| file == "-");
    let inputs: Vec<_> = files.iter().filter(is_input).collect();
    match inputs[..] {
        [(one, _), (other, _), ..] => Err(format!(
            "{command}: {one} and {other} cannot both be standard input"
        )),
        _ => Ok(()),
    }
}
