//! The stored output of the program `trials`: for each trial a title line, the job, an empty line, the answer
//! and an empty line. Of a large job only the J line is there; a cut job has its line's end for the first empty line.
use crate::jobs::counter;
use std::{fs, path::Path};

/// What was asked of a job, with the stored answer.
pub enum Asked {
    /// The W and T lines, or the X line.
    Listing(Vec<u8>),
    /// A plan, and the verdict.
    Check(Vec<u8>, String),
}

/// A trial.
pub struct Trial {
    pub title: String,
    pub file: Vec<u8>,
    pub asked: Asked,
}

/// A file of the repository.
pub fn file(name: &str) -> Vec<u8> {
    let package = Path::new(env!("CARGO_MANIFEST_DIR"));
    let root = package
        .ancestors()
        .find(|folder| folder.join("crates.txt").is_file());
    let path = root
        .expect("the package stands in the repository")
        .join(name);
    fs::read(&path).unwrap_or_else(|why| panic!("{}: {why}", path.display()))
}

/// The stored trials, in their order.
pub fn trials() -> Vec<Trial> {
    let text = String::from_utf8(file("crates/trials/stdout")).unwrap();
    let mut lines = text.split_inclusive('\n').peekable();
    let mut trials = Vec::new();
    while let Some(title) = lines.next() {
        let mut job = String::new();
        while let Some(line) = lines.next_if(|line| !begins_answer(line)) {
            job.push_str(line);
        }
        let mut answer = String::new();
        while let Some(line) = lines.next_if(|line| *line != "\n") {
            answer.push_str(line);
        }
        assert_eq!(
            lines.next(),
            Some("\n"),
            "{title} is not ended by an empty line"
        );
        trials.push(Trial {
            title: title.trim_end().to_string(),
            file: whole(
                job.strip_suffix('\n')
                    .expect("a line's end follows the job"),
            ),
            asked: asked(&answer),
        });
    }
    trials
}

/// Whether a line is the first of an answer.
fn begins_answer(line: &str) -> bool {
    ["W ", "T ", "X ", "plan "]
        .iter()
        .any(|start| line.starts_with(start))
}

/// The job's file; a large one, of which there is the J line, is made again.
fn whole(printed: &str) -> Vec<u8> {
    let is_head = printed.starts_with('J') && printed.find('\n') == Some(printed.len() - 1);
    if !is_head {
        return printed.as_bytes().to_vec();
    }
    let numbers: Vec<u64> = printed[1..]
        .split_whitespace()
        .map(|number| number.parse().unwrap())
        .collect();
    let [states, 1, nodes, edges] = numbers[..] else {
        panic!("{printed} is no J line of a counter");
    };
    let file = counter(states, nodes, edges).file();
    assert!(file.starts_with(printed.as_bytes()), "{printed}");
    file
}

/// What was asked, by the form of the answer.
fn asked(answer: &str) -> Asked {
    let Some(check) = answer.strip_prefix("plan ") else {
        return Asked::Listing(answer.as_bytes().to_vec());
    };
    let (plan, verdict) = check
        .trim_end()
        .split_once(": ")
        .expect("a plan, and its verdict");
    let plan = plan.split(' ').map(|byte| byte.parse().unwrap()).collect();
    Asked::Check(plan, verdict.to_string())
}
