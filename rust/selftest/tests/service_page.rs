//! What docs/SERVICE.md shows of `dapohiru-selftest` is what it prints, but for the time that it takes.
use std::path::Path;
use std::process::Command;
use std::{env, fs};

/// The lines that the page shows after a command, up to the next command or the end of the block.
fn shown(command: &str) -> Vec<String> {
    let path = Path::new(env!("CARGO_MANIFEST_DIR")).join("../../docs/SERVICE.md");
    let page = fs::read_to_string(path).expect("the page is there");
    let line = format!("\n$ {command}\n");
    let (_, after) = page
        .split_once(&line)
        .unwrap_or_else(|| panic!("no {line:?}"));
    let is_past = |line: &&str| line.starts_with("$ ") || line.starts_with("```");
    let lines = after.lines().take_while(|line| !is_past(line));
    lines.map(without_time).collect()
}

/// A line without the seconds at its end, if it has some.
fn without_time(line: &str) -> String {
    match line.rsplit_once(" calls, ") {
        Some((counts, _)) => format!("{counts} calls"),
        None => line.to_string(),
    }
}

/// What the program prints with these arguments, and its status.
fn printed(arguments: &[&str]) -> (Vec<String>, Option<i32>) {
    let program = Command::new(env!("CARGO_BIN_EXE_dapohiru-selftest"))
        .args(arguments)
        .output()
        .expect("the program runs");
    let text = String::from_utf8_lossy(&program.stdout).into_owned();
    (
        text.lines().map(without_time).collect(),
        program.status.code(),
    )
}

/// Asks that lines are printed as shown, where `[..]` stands for any that are left out.
fn are_as_shown(printed: &[String], shown: &[String]) {
    let parts: Vec<_> = shown.split(|line| line == "[..]").collect();
    let mut rest = printed;
    for (number, part) in parts.iter().enumerate() {
        let found = match number {
            0 => Some(0),
            _ if number + 1 == parts.len() => rest.len().checked_sub(part.len()),
            _ => rest.windows(part.len()).position(|lines| lines == *part),
        };
        let found = found.unwrap_or_else(|| panic!("not printed: {part:#?}"));
        let end = rest.len().min(found + part.len());
        assert_eq!(&rest[found..end], *part);
        rest = &rest[end..];
    }
    assert!(rest.is_empty(), "not shown: {rest:#?}");
}

#[test]
fn rounds_are_counted_as_the_page_shows() {
    let (lines, status) = printed(&["7", "4000"]);
    are_as_shown(&lines, &shown("./dapohiru-selftest 7 4000"));
    assert_eq!(status, Some(0));
}

#[test]
fn difference_is_told_as_the_page_shows() {
    let arguments = ["7", "4000", "--slip", "LaterPassesOnlyCounted"];
    let command = format!("./dapohiru-selftest {}", arguments.join(" "));
    let (lines, status) = printed(&arguments);
    are_as_shown(&lines, &shown(&command));
    assert_eq!(shown("echo $?"), [status.expect("a status").to_string()]);
}

#[test]
fn calls_of_fuzz_are_counted_as_the_page_shows() {
    // the program's part of what tools/fuzz prints
    let shown = shown("tools/fuzz");
    let end = shown.iter().position(|line| line == "no difference");
    let (lines, status) = printed(&["memory", "1", "4000"]);
    are_as_shown(&lines, &shown[..=end.expect("an end")]);
    assert_eq!(status, Some(0));
}
