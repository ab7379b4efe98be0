//! A stop in the middle of a release.
use crate::program::{ended, file, folder, names, shell, signalled};
use dapohiru_generators::large::{job_of, Order};
use dapohiru_generators::random::Random;
use dapohiru_generators::reentry::Reentry;
use dapohiru_generators::zeros::filled;
use std::fs;
use std::path::{Path, PathBuf};
use std::process::Child;
use std::thread::sleep;
use std::time::{Duration, Instant};

const JOBS: usize = 150;

/// A folder of jobs that take some time.
fn jobs(name: &str) -> PathBuf {
    let folder = folder(name);
    let mut random = Random::of_this_run();
    for number in 0..JOBS {
        let job = job_of(&mut random, Order::Flow, 100, Reentry::Often).file();
        let job = filled(&mut random, job);
        file(&folder, &format!("{number:03}.job"), &job);
    }
    folder
}

/// The plan files of a folder.
fn plans(folder: &Path) -> Vec<String> {
    let mut names = names(folder);
    names.retain(|name| name.ends_with(".plan"));
    names
}

/// Begins a release, and sends a signal once some plans are there.
fn stopped(folder: &Path, signal: &str) -> Child {
    let child = signalled(&["release", folder.to_str().unwrap()])
        .spawn()
        .unwrap();
    let begin = Instant::now();
    while plans(folder).len() < 3 && begin.elapsed() < Duration::from_secs(60) {
        sleep(Duration::from_millis(1));
    }
    let pid = child.id().to_string();
    assert_eq!(shell("kill -$2 $3", &[signal, &pid]).0, 0);
    child
}

/// Every plan file is whole.
fn plans_are_whole(folder: &Path) -> usize {
    let plans = plans(folder);
    for name in &plans {
        let plan = fs::read(folder.join(name)).unwrap();
        assert_eq!(plan.len(), 101, "{name}");
        let (line, end) = plan.split_at(100);
        assert!(line.iter().all(|byte| matches!(byte, b'0' | b'1')));
        assert_eq!(end, b"\n");
    }
    plans.len()
}

#[test]
fn stop_finishes_what_is_under_way_and_leaves_no_other_file() {
    let folder = jobs("stop-asked");
    let (status, printed, wrong) = ended(stopped(&folder, "TERM"));
    let planned = plans_are_whole(&folder);
    println!("{planned} of {JOBS} planned");
    assert_eq!(names(&folder).len(), JOBS + planned);
    assert_eq!(printed.lines().count(), planned + 2);
    if planned < JOBS {
        let left = JOBS - planned;
        assert_eq!(status, 2);
        assert_eq!(
            wrong,
            format!("dapohiru: stopped: {left} of {JOBS} jobs not begun\n")
        );
    } else {
        assert_eq!((status, wrong.as_str()), (0, ""));
    }
}

#[test]
fn kill_leaves_every_plan_file_whole() {
    let folder = jobs("stop-killed");
    stopped(&folder, "KILL").wait().unwrap();
    println!("{} of {JOBS} planned", plans_are_whole(&folder));
    let ours = |name: &String| {
        name.ends_with(".job") || name.ends_with(".plan") || name.starts_with(".dapohiru-")
    };
    assert!(names(&folder).iter().all(ours));
}
