//! The examples of docs/USERS.md: every command of a `console` block that runs `./dapohiru` is run on a
//! terminal, in a folder with the program and `examples/`, and prints what stands there.
use crate::program::{folder, PROGRAM};
use crate::words::COMMANDS;
use std::os::unix::fs::symlink;
use std::path::Path;
use std::process::{Command, Stdio};

const USERS: &str = include_str!("../../../../docs/USERS.md");

/// The commands of the blocks, each with what it prints.
fn examples() -> Vec<(&'static str, String)> {
    let mut examples: Vec<(&str, String)> = Vec::new();
    let blocks = USERS.split("```console\n").skip(1);
    let blocks = blocks.map(|block| block.split("```").next().unwrap());
    for block in blocks.filter(|block| block.contains("./dapohiru ")) {
        for line in block.lines() {
            match (line.strip_prefix("$ "), examples.last_mut()) {
                (Some(command), _) => examples.push((command, String::new())),
                (None, Some((_, printed))) => *printed += &format!("{line}\n"),
                (None, None) => panic!("{line} is printed by no command"),
            }
        }
    }
    examples
}

/// What a command prints on a terminal, without what it says while it is under way.
fn printed(folder: &Path, command: &str) -> String {
    let output = Command::new("script")
        .args(["-qec", command, "/dev/null"])
        .current_dir(folder)
        .env("SHELL", "/bin/bash")
        .env("LC_ALL", "C")
        .env_remove("COLUMNS")
        .stdin(Stdio::null())
        .output()
        .unwrap();
    let text = String::from_utf8(output.stdout).unwrap();
    let lines = text.split_inclusive('\n');
    let lines = lines.map(|line| match line.rsplit_once("\r\x1b[K") {
        Some((_, line)) => line,
        None => line,
    });
    let lines = lines.filter(|line| !line.is_empty());
    lines
        .map(|line| line.trim_end().to_string() + "\n")
        .collect()
}

/// A text without its times, which are not the same each time.
fn without_times(text: &str) -> String {
    let timeless = |line: &str| match line.strip_suffix(" ms") {
        Some(row) => row.rsplit_once(' ').unwrap().0.trim_end().to_string(),
        None => line.trim_end_matches("time").trim_end().to_string(),
    };
    text.lines().map(|line| timeless(line) + "\n").collect()
}

#[test]
fn examples_of_the_users_page_print_what_stands_there() {
    let folder = folder("docs");
    let examples_folder = Path::new(env!("CARGO_MANIFEST_DIR")).join("../../examples");
    symlink(PROGRAM, folder.join("dapohiru")).unwrap();
    symlink(
        examples_folder.canonicalize().unwrap(),
        folder.join("examples"),
    )
    .unwrap();
    let has_dot = Command::new("dot").arg("-V").output().is_ok();
    let examples = examples();
    for (command, wanted) in &examples {
        let needs_dot = command.contains("--svg") || command.contains("--png");
        if needs_dot && !has_dot {
            println!("not run without dot: {command}");
            continue;
        }
        let printed = printed(&folder, command);
        assert_eq!(without_times(&printed), without_times(wanted), "{command}");
    }
    println!("{} examples", examples.len());
    for name in COMMANDS {
        let word = format!("./dapohiru {name} ");
        assert!(
            examples.iter().any(|(command, _)| command.contains(&word)),
            "{name}"
        );
    }
}
