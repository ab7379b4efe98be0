//! The program under test, and files for it.
use std::ffi::OsStr;
use std::fs;
use std::io::Write;
use std::path::{Path, PathBuf};
use std::process::{Child, Command, Output, Stdio};

/// The program.
pub const PROGRAM: &str = env!("CARGO_BIN_EXE_dapohiru");
/// The PAIR job.
pub const PAIR: &str = include_str!("../../../../examples/pair.job");

/// What is told last of a file with Windows line ends.
pub const WINDOWS: &str =
    "\n  the file has Windows line ends, mended by `tr -d '\\r' < FILE > NEW`";

/// The exit status, standard output and standard error of a run.
pub type Done = (i32, String, String);

/// A file of the repository's `examples/`.
pub fn example(name: &str) -> String {
    let folder = Path::new(env!("CARGO_MANIFEST_DIR")).join("../../examples");
    folder.join(name).display().to_string()
}

/// PAIR with other texts for these, each of which stands in it once.
pub fn pair_with(changes: &[(&str, &str)]) -> String {
    changes.iter().fold(PAIR.to_string(), |job, (old, new)| {
        assert_eq!(job.matches(old).count(), 1, "{old}");
        job.replace(old, new)
    })
}

/// An empty folder for one test.
pub fn folder(name: &str) -> PathBuf {
    let folder = Path::new(env!("CARGO_TARGET_TMPDIR")).join(name);
    let _ = fs::remove_dir_all(&folder);
    fs::create_dir_all(&folder).unwrap();
    folder
}

/// Writes a file of a folder, and gives its name.
pub fn file(folder: &Path, name: &str, bytes: &[u8]) -> String {
    let path = folder.join(name);
    fs::write(&path, bytes).unwrap();
    path.display().to_string()
}

/// The names in a folder, in order.
pub fn names(folder: &Path) -> Vec<String> {
    let entries = fs::read_dir(folder).unwrap();
    let mut names: Vec<_> = entries
        .map(|entry| entry.unwrap().file_name().into_string().unwrap())
        .collect();
    names.sort();
    names
}

/// The program with these words, not yet run.
pub fn program(words: &[&str]) -> Command {
    piped(Command::new(PROGRAM), words)
}

/// The same for signals, which reach it also where the tests were started to ignore them.
pub fn signalled(words: &[&str]) -> Command {
    let mut env = Command::new("env");
    env.args(["--default-signal", PROGRAM]);
    piped(env, words)
}

/// A command with these words, no input and its output kept.
fn piped(mut command: Command, words: &[&str]) -> Command {
    command.args(words).stdin(Stdio::null());
    command.stdout(Stdio::piped()).stderr(Stdio::piped());
    command
}

/// Runs the program to its end, with this standard input.
pub fn run(words: &[&str], input: &str) -> Done {
    run_bytes(words, input.as_bytes())
}

/// The same with bytes that need not be text.
pub fn run_bytes(words: &[&str], input: &[u8]) -> Done {
    let mut child = program(words).stdin(Stdio::piped()).spawn().unwrap();
    // a program that ends early does not read its input
    let _ = child.stdin.take().unwrap().write_all(input);
    ended(child)
}

/// The same with words that need not be text, and no input.
pub fn run_words(words: &[&OsStr]) -> Done {
    ended(program(&[]).args(words).spawn().unwrap())
}

/// Runs lines of bash, in which `$1` is the program and the words follow.
pub fn shell(script: &str, words: &[&str]) -> Done {
    let child = Command::new("bash")
        .args(["-c", script, "bash", PROGRAM])
        .args(words)
        .stdin(Stdio::null())
        .stdout(Stdio::piped())
        .stderr(Stdio::piped())
        .spawn();
    ended(child.unwrap())
}

/// Runs the program with these words on a terminal of its own.
pub fn terminal(words: &[&str]) -> Done {
    let script = "SHELL=$BASH script -qec \"$(printf '%q ' \"$@\")\" /dev/null";
    shell(script, words)
}

/// The same on a terminal of so many columns.
pub fn narrow(columns: usize, words: &[&str]) -> Done {
    let (script, columns) = ("stty cols \"$0\" && exec \"$@\"", columns.to_string());
    let begin = ["bash", "-c", script, &columns, PROGRAM];
    let words = [&begin[..], words].concat();
    let script =
        "shift; unset COLUMNS; SHELL=$BASH script -qec \"$(printf '%q ' \"$@\")\" /dev/null";
    shell(script, &words)
}

/// Waits for a program's end.
pub fn ended(child: Child) -> Done {
    let Output {
        status,
        stdout,
        stderr,
    } = child.wait_with_output().unwrap();
    (
        status.code().expect("the program ends by itself"),
        String::from_utf8(stdout).unwrap(),
        String::from_utf8(stderr).unwrap(),
    )
}
