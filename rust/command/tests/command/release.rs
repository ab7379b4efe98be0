//! The command `release`.
use crate::program::{example, file, folder, names, run, shell, terminal, Done, PAIR};
use dapohiru_generators::random::Random;
use dapohiru_generators::zeros::filled;
use dapohiru_second::planning::plan;
use dapohiru_second::walk::Walks;
use std::fs;
use std::os::unix::fs::{symlink, PermissionsExt};
use std::path::Path;

/// Runs a release of a folder.
fn release(folder: &Path, more: &[&str]) -> Done {
    let words = [&["release", folder.to_str().unwrap()], more].concat();
    run(&words, "")
}

/// Asks that these files of a folder hold the plan of PAIR, and that it has so many files in all.
fn plans_are_written(folder: &Path, plans: [&str; 2], files: usize) {
    for name in plans {
        assert_eq!(fs::read_to_string(folder.join(name)).unwrap(), "011\n");
    }
    assert_eq!(names(folder).len(), files);
}

#[test]
fn every_job_gets_its_plan_file_and_its_row() {
    let mut random = Random::of_this_run();
    let jobs = folder("release-jobs");
    let plans = jobs.join("out/plans");
    let mut wanted = Vec::new();
    for number in 0..30 {
        let job = dapohiru_generators::small::job(&mut random);
        let planned = plan(&Walks::new(&job, None));
        let bytes = filled(&mut random, job.file());
        file(&jobs, &format!("{number:02}.job"), &bytes);
        wanted.push((format!("{number:02}"), planned));
    }
    file(&jobs, "notes.txt", b"no job\n");
    file(&jobs, ".hidden.job", b"no job\n");
    let (status, printed, wrong) = release(&jobs, &["-o", plans.to_str().unwrap()]);
    assert_eq!((status, wrong.as_str()), (0, ""));
    let rows: Vec<_> = printed.lines().collect();
    assert_eq!(rows.len(), 32);
    let headings: Vec<_> = rows[0].split_whitespace().collect();
    assert_eq!(headings, ["job", "points", "watched", "passes", "time"]);
    let mut totals = [0; 3];
    for ((name, planned), row) in wanted.iter().zip(&rows[1..]) {
        let line: String = planned.plan.iter().map(|byte| byte.to_string()).collect();
        let written = fs::read_to_string(plans.join(format!("{name}.plan"))).unwrap();
        assert_eq!(written, line + "\n");
        let counts = [planned.points, planned.watched, planned.passes];
        let cells: Vec<_> = row.split_whitespace().collect();
        assert_eq!(cells[0], format!("{name}.job"));
        assert_eq!(cells[1..4], counts.map(|count| count.to_string()));
        assert_eq!(cells[5], "ms");
        totals
            .iter_mut()
            .zip(counts)
            .for_each(|(total, count)| *total += count);
    }
    let cells: Vec<_> = rows[31].split_whitespace().collect();
    assert_eq!(cells[..2], ["30", "planned"]);
    assert_eq!(cells[2..5], totals.map(|total| total.to_string()));
    assert_eq!(names(&plans).len(), 30);
}

#[test]
fn refused_jobs_are_listed_and_the_others_planned() {
    let jobs = folder("release-refused");
    file(&jobs, "good.job", PAIR.as_bytes());
    let cut = file(&jobs, "cut.job", b"J     3     3     3     2\n");
    let old = file(&jobs, "old.job", (PAIR.to_string() + "\n").as_bytes());
    let old_plan = file(&jobs, "old.plan", b"111\n");
    let (status, printed, wrong) = release(&jobs, &[]);
    assert_eq!(status, 1);
    let rows: Vec<_> = printed.lines().collect();
    assert_eq!(rows.len(), 3);
    assert!(rows[1].starts_with("good.job "));
    assert!(rows[2].starts_with("1 planned "));
    assert_eq!(
        wrong,
        format!(
            "dapohiru: 2 of 3 jobs refused:\n\
             {cut}: refused 3: the file ends where a line is due\n  \
             line 2, column 1: found the end of the file\n  \
             expected: a line of the letter R and 5 fields of six columns\n\
             {old}: refused 9: bytes follow the last line\n  \
             line 10, column 1: found `\\n`\n  \
             expected: the end of the file\n  \
             {old_plan} is of an earlier run, and stays as it is\n"
        )
    );
    assert_eq!(fs::read_to_string(old_plan).unwrap(), "111\n");
    assert_eq!(
        names(&jobs),
        ["cut.job", "good.job", "good.plan", "old.job", "old.plan"]
    );
}

#[test]
fn job_that_cannot_be_read_or_written_is_listed_and_the_others_planned() {
    let jobs = folder("release-unread");
    for name in ["a.job", "b.job", "c.job"] {
        file(&jobs, name, PAIR.as_bytes());
    }
    fs::create_dir(jobs.join("folder.job")).unwrap();
    fs::create_dir(jobs.join("b.plan")).unwrap();
    symlink("nothing", jobs.join("link.job")).unwrap();
    let (status, printed, wrong) = release(&jobs, &[]);
    assert_eq!(status, 2);
    assert_eq!(printed.lines().count(), 4);
    let lines: Vec<_> = wrong.lines().collect();
    let shown = jobs.display();
    assert_eq!(lines[0], "dapohiru: 3 of 5 jobs not read or not written:");
    assert_eq!(lines[1], format!("{shown}/b.plan: it is a folder"));
    assert_eq!(
        lines[2],
        format!("{shown}/folder.job: it is no regular file")
    );
    assert!(lines[3].starts_with(&format!("{shown}/link.job: No such file")));
    plans_are_written(&jobs, ["a.plan", "c.plan"], 8);
}

#[test]
fn job_that_is_no_regular_file_is_not_opened() {
    let jobs = folder("release-pipe");
    file(&jobs, "a.job", PAIR.as_bytes());
    symlink("a.job", jobs.join("b.job")).unwrap();
    symlink("/dev/zero", jobs.join("device.job")).unwrap();
    // nobody writes to the pipe, and a program that opened it would wait
    let script = "mkfifo \"$2/pipe.job\" && timeout 60 \"$1\" release \"$2\"";
    let (status, printed, wrong) = shell(script, &[jobs.to_str().unwrap()]);
    assert_eq!(status, 2);
    assert_eq!(printed.lines().count(), 4);
    let shown = jobs.display();
    assert_eq!(
        wrong,
        format!(
            "dapohiru: 2 of 4 jobs not read or not written:\n\
             {shown}/device.job: it is no regular file\n\
             {shown}/pipe.job: it is no regular file\n"
        )
    );
    plans_are_written(&jobs, ["a.plan", "b.plan"], 6);
}

#[test]
fn folder_that_cannot_be_read_or_made_is_named() {
    let jobs = folder("release-folders");
    let file = file(&jobs, "a.txt", b"");
    symlink("loop", jobs.join("loop")).unwrap();
    let (round, missing) = (jobs.join("loop"), jobs.join("missing"));
    let own = jobs.display().to_string();
    for (name, why) in [
        (missing.to_str().unwrap(), "No such file or directory"),
        (&file, "Not a directory"),
        (round.to_str().unwrap(), "Too many levels of symbolic links"),
        (&own, "there is no file NAME.job in it"),
    ] {
        let (status, printed, wrong) = run(&["release", name], "");
        assert_eq!((status, printed.as_str()), (2, ""));
        assert!(
            wrong.starts_with(&format!("dapohiru: {name}: {why}")),
            "{wrong}"
        );
    }
    let job = fs::copy(example("pair.job"), jobs.join("pair.job"));
    job.unwrap();
    let (status, printed, wrong) = release(&jobs, &["-o", &format!("{file}/out")]);
    assert_eq!((status, printed.as_str()), (2, ""));
    assert!(
        wrong.starts_with(&format!("dapohiru: {file}/out: ")),
        "{wrong}"
    );
}

#[test]
fn folder_without_permission_is_named() {
    let jobs = folder("release-locked");
    file(&jobs, "pair.job", PAIR.as_bytes());
    fs::set_permissions(&jobs, fs::Permissions::from_mode(0o000)).unwrap();
    // permissions do not bind the superuser
    let binds = fs::read_dir(&jobs).is_err();
    let done = release(&jobs, &[]);
    fs::set_permissions(&jobs, fs::Permissions::from_mode(0o755)).unwrap();
    if binds {
        let shown = jobs.display();
        assert_eq!((done.0, done.1.as_str()), (2, ""));
        assert!(done
            .2
            .starts_with(&format!("dapohiru: {shown}: Permission denied")));
    } else {
        println!("the permissions do not bind this user");
        assert_eq!(done.0, 0);
    }
}

#[test]
fn progress_bar_is_for_a_terminal() {
    let jobs = folder("release bar");
    file(&jobs, "pair.job", PAIR.as_bytes());
    let (status, _, wrong) = release(&jobs, &[]);
    assert_eq!((status, wrong.as_str()), (0, ""));
    let done = terminal(&["release", jobs.to_str().unwrap()]);
    assert_eq!(done.0, 0);
    assert!(done.1.contains("] 0 of 1 jobs\x1b[K\r["), "{}", done.1);
    let last = "] 1 of 1 jobs\x1b[K\r\x1b[Kjob ";
    assert!(done.1.contains(last), "{}", done.1);
}

#[test]
fn output_folder_is_tested_before_anything_is_planned() {
    let jobs = folder("release-out");
    file(&jobs, "a.job", PAIR.as_bytes());
    file(&jobs, "cut.job", b"K");
    let text = file(&jobs, "a.txt", b"");
    symlink("nothing", jobs.join("link")).unwrap();
    let link = jobs.join("link").display().to_string();
    for (out, why) in [
        (text.as_str(), "File exists (os error 17)"),
        (&link, "File exists (os error 17)"),
        ("/proc", "no file can be made in it: "),
        ("/dev/null/plans", "Not a directory (os error 20)"),
    ] {
        let (status, printed, wrong) = release(&jobs, &["-o", out]);
        assert_eq!((status, printed.as_str()), (2, ""));
        assert!(
            wrong.starts_with(&format!("dapohiru: {out}: {why}")),
            "{wrong}"
        );
        // no job is looked at
        assert_eq!(wrong.lines().count(), 1, "{wrong}");
    }
    assert_eq!(names(&jobs), ["a.job", "a.txt", "cut.job", "link"]);
    let (status, _, _) = release(&jobs, &["-o", jobs.join("new/plans").to_str().unwrap()]);
    assert_eq!(status, 1);
    assert_eq!(names(&jobs.join("new/plans")), ["a.plan"]);
}

#[test]
fn names_that_are_almost_those_of_jobs_are_named_as_skipped() {
    let jobs = folder("release-skipped");
    for name in [
        "B.JOB",
        "c.Job",
        ".job",
        ".hidden.job",
        ".hidden.JOB",
        "d.jobs",
        "e.job~",
    ] {
        file(&jobs, name, PAIR.as_bytes());
    }
    let skipped: String = [".job", "B.JOB", "c.Job"]
        .iter()
        .map(|name| format!("note: {name} is skipped: job files are named NAME.job\n"))
        .collect();
    let none = format!(
        "dapohiru: {}: there is no file NAME.job in it\n{skipped}",
        jobs.display()
    );
    assert_eq!(release(&jobs, &[]), (2, String::new(), none));
    file(&jobs, "a.job", PAIR.as_bytes());
    for more in [&[][..], &["--check"]] {
        let (status, printed, wrong) = release(&jobs, more);
        assert_eq!((status, wrong.as_str()), (0, skipped.as_str()));
        assert_eq!(printed.matches(".job ").count(), 1, "{printed}");
    }
}
