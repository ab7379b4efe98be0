//! The command `release --check`.
use crate::program::{file, folder, names, run, Done, PAIR};
use std::fs::{self, File};
use std::path::Path;
use std::time::{Duration, SystemTime};

/// Runs the check of a folder.
fn check(folder: &Path, more: &[&str]) -> Done {
    let words = [&["release", folder.to_str().unwrap(), "--check"], more].concat();
    run(&words, "")
}

/// Lets a file be so many seconds older than now.
fn age(path: &str, seconds: u64) {
    let then = SystemTime::now() - Duration::from_secs(seconds);
    File::options()
        .append(true)
        .open(path)
        .unwrap()
        .set_modified(then)
        .unwrap();
}

/// The files of a folder, with what they hold and when they were changed.
fn state(folder: &Path) -> Vec<(String, Vec<u8>, SystemTime)> {
    let state = |name: String| {
        let path = folder.join(&name);
        let changed = fs::metadata(&path).unwrap().modified().unwrap();
        let bytes = fs::read(&path).unwrap_or_default();
        (name, bytes, changed)
    };
    names(folder).into_iter().map(state).collect()
}

#[test]
fn every_plan_is_held_against_its_job() {
    let folder = folder("audit-all");
    let job = |name: &str, seconds| {
        age(
            &file(&folder, &format!("{name}.job"), PAIR.as_bytes()),
            seconds,
        );
    };
    let plan = |name: &str, text: &str| {
        age(
            &file(&folder, &format!("{name}.plan"), text.as_bytes()),
            500,
        );
        format!("{}/{name}.plan", folder.display())
    };
    for name in [
        "a-own",
        "b-other",
        "c-different",
        "e-short",
        "f-digit",
        "g-text",
    ] {
        job(name, 1_000);
    }
    job("d-older", 100);
    job("h-missing", 1_000);
    let refused_job = file(&folder, "i-refused.job", b"K");
    plan("a-own", "011\n");
    plan("b-other", "101\n");
    plan("c-different", "001\n");
    plan("d-older", "011\n");
    let short = plan("e-short", "01\n");
    let digit = plan("f-digit", "012\n");
    let text = plan("g-text", "01x\n");
    plan("i-refused", "011\n");
    plan("j-orphan", "011\n");
    let before = state(&folder);
    let (status, printed, wrong) = check(&folder, &[]);
    assert_eq!(status, 1);
    assert_eq!(
        printed,
        "job              plan         as planned  older\n\
         a-own.job        faithful     yes         no\n\
         b-other.job      faithful     no          no\n\
         c-different.job  different    no          no\n\
         d-older.job      faithful     yes         yes\n\
         e-short.job      refused 11\n\
         f-digit.job      refused 12\n\
         g-text.job       no plan\n\
         h-missing.job    missing\n\
         i-refused.job    job refused\n\
         3 of 9 jobs with a faithful plan, 2 as planned, 1 older than the job\n"
    );
    let lines: Vec<_> = wrong
        .lines()
        .filter(|line| !line.starts_with("  "))
        .collect();
    let told = |name: &str, word: &str| {
        let shown = folder.display();
        format!("{shown}/{name}.job: {shown}/{name}.plan is {word}")
    };
    assert_eq!(lines.len(), 10, "{wrong}");
    assert_eq!(
        lines[..5],
        [
            "dapohiru: 1 of 9 jobs with a different plan:",
            &told("c-different", "different"),
            "dapohiru: 1 of 9 jobs without a plan:",
            &told("h-missing", "missing"),
            "dapohiru: 4 of 9 jobs refused or with a refused plan:",
        ]
    );
    for (line, begins) in lines[5..].iter().zip([
        format!("{short}: refused 11: "),
        format!("{digit}: refused 12: "),
        format!("{text}: line 1, column 3: found `x`"),
        format!("{refused_job}: refused 4: "),
        "dapohiru: j-orphan.plan is the plan of no job".to_string(),
    ]) {
        assert!(line.starts_with(&begins), "{line}");
    }
    assert_eq!(state(&folder), before);
}

#[test]
fn release_is_found_faithful_and_as_planned() {
    let jobs = folder("audit-release");
    let plans = jobs.join("plans");
    let out = ["-o", plans.to_str().unwrap()];
    for name in ["a.job", "b.job"] {
        age(&file(&jobs, name, PAIR.as_bytes()), 10);
    }
    assert_eq!(
        run(
            &[&["release", jobs.to_str().unwrap()], &out[..]].concat(),
            ""
        )
        .0,
        0
    );
    let report = "job    plan      as planned  older\n\
                  a.job  faithful  yes         no\n\
                  b.job  faithful  yes         no\n\
                  2 of 2 jobs with a faithful plan, 2 as planned, 0 older than the job\n";
    assert_eq!(check(&jobs, &out), (0, report.to_string(), String::new()));
    // an older plan is told, and as good
    age(plans.join("b.plan").to_str().unwrap(), 100);
    let (status, printed, _) = check(&jobs, &out);
    assert_eq!(status, 0);
    assert!(
        printed.contains("\nb.job  faithful  yes         yes\n"),
        "{printed}"
    );
    // beside the jobs there are none
    let (status, printed, wrong) = check(&jobs, &[]);
    let shown = jobs.display();
    let missing = format!(
        "dapohiru: 2 of 2 jobs without a plan:\n\
         {shown}/a.job: {shown}/a.plan is missing\n\
         {shown}/b.job: {shown}/b.plan is missing\n"
    );
    assert_eq!((status, wrong), (1, missing));
    assert_eq!(printed.matches(" missing\n").count(), 2);
    assert!(!jobs.join("a.plan").exists());
}

#[test]
fn one_thing_wrong_is_enough_for_status_1() {
    for (name, plans) in [
        ("different", &[("a.plan", "001\n")][..]),
        ("missing", &[]),
        ("refused", &[("a.plan", "01\n")]),
        ("text", &[("a.plan", "\n\n")]),
        ("orphan", &[("a.plan", "011\n"), ("b.plan", "011\n")]),
    ] {
        let folder = folder(&format!("audit-{name}"));
        file(&folder, "a.job", PAIR.as_bytes());
        for (name, text) in plans {
            file(&folder, name, text.as_bytes());
        }
        assert_eq!(check(&folder, &[]).0, 1, "{name}");
    }
    // hidden files and files of other names are nobody's plan
    let folder = folder("audit-others");
    for name in ["a.plan", ".b.plan", "c.plan~", "plan"] {
        file(&folder, name, b"011\n");
    }
    file(&folder, "a.job", PAIR.as_bytes());
    assert_eq!(
        (check(&folder, &[]).0, check(&folder, &[]).2),
        (0, String::new())
    );
}

#[test]
fn names_that_are_almost_those_of_plans_are_told_as_skipped() {
    let folder = folder("audit-skipped");
    for name in ["a.plan", "d.PLAN", "a.Plan", ".plan"] {
        file(&folder, name, b"011\n");
    }
    file(&folder, "a.job", PAIR.as_bytes());
    file(&folder, "E.JOB", PAIR.as_bytes());
    let (status, _, wrong) = check(&folder, &[]);
    let skipped = |name: &str, kind: &str| {
        format!("note: {name} is skipped: {kind} files are named NAME.{kind}\n")
    };
    let plans = [".plan", "a.Plan", "d.PLAN"].map(|name| skipped(name, "plan"));
    assert_eq!(
        (status, wrong),
        (0, skipped("E.JOB", "job") + &plans.concat())
    );
    let (_, printed, _) = check(&folder, &["--json"]);
    let listed = ",\"skipped\":[\"E.JOB\",\".plan\",\"a.Plan\",\"d.PLAN\"],";
    assert!(printed.contains(listed), "{printed}");
    // planning reads no plan
    let words = ["release", folder.to_str().unwrap()];
    assert_eq!(run(&words, "").2, skipped("E.JOB", "job"));
}

#[test]
fn plan_without_its_line_end_is_as_planned() {
    let folder = folder("audit-digits");
    age(&file(&folder, "a.job", PAIR.as_bytes()), 10);
    file(&folder, "a.plan", b"011");
    let (status, printed, wrong) = check(&folder, &[]);
    assert_eq!((status, wrong.as_str()), (0, ""));
    assert!(
        printed.contains("\na.job  faithful  yes         no\n"),
        "{printed}"
    );
}

#[test]
fn what_cannot_be_read_is_status_2() {
    let folder = folder("audit-unread");
    file(&folder, "a.job", PAIR.as_bytes());
    fs::create_dir(folder.join("a.plan")).unwrap();
    let (status, printed, wrong) = check(&folder, &[]);
    assert_eq!(status, 2);
    assert!(printed.contains("\na.job  not read\n"), "{printed}");
    let said = format!(
        "dapohiru: 1 of 1 jobs not read or with a plan that is not read:\n{}/a.plan: it is no regular file\n",
        folder.display()
    );
    assert_eq!(wrong, said);
    let (status, printed, wrong) = check(&folder, &["-o", "/no/such/folder"]);
    assert_eq!((status, printed.as_str()), (2, ""));
    assert_eq!(
        wrong,
        "dapohiru: /no/such/folder: No such file or directory (os error 2)\n"
    );
    assert_eq!(names(&folder), ["a.job", "a.plan"]);
}
