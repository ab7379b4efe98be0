//! The hidden files beside a record of `watch`, and what those see who hold the record.
use crate::program::{file, folder, names};
use crate::running::Running;
use crate::watch::watch;
use crate::watch_record::{files, holds};
use std::fs::{self, File};
use std::io::{Read, Write};
use std::path::Path;

/// The hidden names in a folder.
fn hidden(folder: &Path) -> Vec<String> {
    let mut names = names(folder);
    names.retain(|name| name.starts_with(".dapohiru-"));
    names
}

/// Gives lines to a program, and waits for each until its record holds it.
fn give(running: &mut Running, record: &str, lines: &[(u64, &str)]) {
    for (number, line) in lines {
        running.input.write_all(line.as_bytes()).unwrap();
        holds(record, *number);
    }
}

#[test]
fn files_of_the_same_names_do_not_end_a_run() {
    let folder = folder("record-same-names");
    let [job, plan, record] = files(&folder);
    let words = [&job[..], &plan, "--record", &record];
    let mut running = Running::watch(&words);
    give(&mut running, &record, &[(1, "0\n")]);
    // left by a program that had the same number, or made by one of another container
    let own = hidden(&folder);
    let begin = own[0].rsplit_once('-').unwrap().0.to_string();
    let pid = format!("-{}", running.child.id());
    assert!(begin.ends_with(&pid), "{begin}");
    let left: Vec<_> = (0..40)
        .map(|count| format!("{begin}-{count}.tmp"))
        .collect();
    let left: Vec<_> = left.iter().filter(|name| !own.contains(name)).collect();
    for name in &left {
        file(&folder, name, b"left");
    }
    let lines = [(2, "1\n"), (3, "x\n"), (4, "y\n"), (5, "2\n")];
    give(&mut running, &record, &lines);
    let (status, printed, wrong) = running.end();
    assert_eq!(status, 1, "{wrong}");
    assert!(printed.contains("\nevents 3 "), "{printed}");
    // its own are gone, the others are as they were
    assert_eq!(hidden(&folder).len(), left.len());
    for name in &left {
        assert_eq!(fs::read(folder.join(name)).unwrap(), b"left");
    }
}

#[test]
fn files_that_a_killed_program_has_left_go_with_the_next_start() {
    let folder = folder("record-left-files");
    let [job, plan, record] = files(&folder);
    let words = [&job[..], &plan, "--record", &record];
    let mut killed = Running::watch(&words);
    give(&mut killed, &record, &[(1, "0\n"), (2, "1\n")]);
    killed.signal("KILL");
    killed.child.wait().unwrap();
    let left = hidden(&folder);
    assert_eq!(left.len(), 2);
    // another record's, one that somebody has locked, and one of another name stay
    let other = folder.join("other.record").display().to_string();
    let mut running = Running::watch(&[&job, "--record", &other]);
    give(&mut running, &other, &[(1, "0\n")]);
    let begin = left[0].split("-").take(2).collect::<Vec<_>>().join("-");
    let locked = File::create_new(folder.join(format!("{begin}-1-0.tmp"))).unwrap();
    locked.lock().unwrap();
    file(&folder, &format!("{begin}-1-0"), b"");
    file(&folder, ".dapohiru-1-0.tmp", b"");
    let before = hidden(&folder);
    // a record that is refused changes nothing
    assert_eq!(watch(&[&job, "--record", &record], "").0, 2);
    assert_eq!(hidden(&folder), before);
    assert_eq!(watch(&words, "").0, 0);
    let mut wanted = before;
    wanted.retain(|name| !left.contains(name));
    assert_eq!(hidden(&folder), wanted);
    assert_eq!(running.end().0, 0);
}

#[test]
fn record_stays_whole_for_those_who_hold_it() {
    let folder = folder("record-held");
    let [job, plan, record] = files(&folder);
    let words = [&job[..], &plan, "--record", &record];
    let mut running = Running::watch(&words);
    let mut held = Vec::new();
    for line in (1..60).step_by(3) {
        let lines = [(line, "=0\n"), (line + 1, "x\n"), (line + 2, "=1\n")];
        give(&mut running, &record, &lines);
        // one has it open and has read a part, one has linked it
        let whole = fs::read_to_string(&record).unwrap();
        let (mut open, mut part) = (File::open(&record).unwrap(), [0; 100]);
        open.read_exact(&mut part).unwrap();
        let link = folder.join(format!("link-{line}"));
        if line % 2 == 0 {
            fs::hard_link(&record, &link).unwrap();
        }
        held.push((whole, open, part, link));
    }
    give(&mut running, &record, &[(61, "0\n"), (62, "0\n")]);
    assert_eq!(running.end().0, 3);
    assert!(hidden(&folder).is_empty());
    for (whole, mut open, part, link) in held {
        let mut text = part.to_vec();
        open.read_to_end(&mut text).unwrap();
        assert_eq!(String::from_utf8(text).unwrap(), whole);
        if link.exists() {
            assert_eq!(fs::read_to_string(&link).unwrap(), whole);
            // and a run goes on from it
            let link = link.display().to_string();
            let (status, printed, _) = watch(&[&job, &plan, "--record", &link], "");
            assert!(status == 3 && printed.starts_with("goes on"), "{printed}");
        }
    }
}
