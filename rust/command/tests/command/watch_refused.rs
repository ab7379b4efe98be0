//! Records that `watch` refuses, and those that cannot be written.
use crate::program::{example, file, folder, names, pair_with, shell, PAIR};
use crate::watch::{totals, watch, BEGIN};
use std::fs;
use std::os::unix::fs::symlink;

/// A record of PAIR under its plan after a seal, with the words that go on with it.
fn record(test: &str) -> (String, [String; 4]) {
    let folder = folder(test);
    let plan = file(&folder, "pair.plan", b"011\n");
    let record = folder.join("pair.record").display().to_string();
    let words = [example("pair.job"), plan, "--record".into(), record.clone()];
    assert_eq!(watch(&words.each_ref().map(String::as_str), "0\n").0, 0);
    (record, words)
}

#[test]
fn record_that_is_cut_or_damaged_is_refused() {
    let (record, words) = record("record-damaged");
    let words = words.each_ref().map(String::as_str);
    let whole = fs::read(&record).unwrap();
    let refused = |text: &[u8]| {
        fs::write(&record, text).unwrap();
        let (status, printed, wrong) = watch(&words, "1\n2\n");
        let shown = text.escape_ascii();
        assert_eq!((status, printed.as_str()), (2, ""), "{shown}");
        let begins = format!("dapohiru: {record}: it is ");
        assert!(wrong.starts_with(&begins), "{shown}: {wrong}");
        // and it stays as it was
        assert_eq!(fs::read(&record).unwrap(), text);
        wrong[begins.len()..].to_string()
    };
    for len in 0..whole.len() {
        let wrong = refused(&whole[..len]);
        assert!(wrong.starts_with("cut"), "{len}: {wrong}");
    }
    for place in (0..whole.len()).step_by(3) {
        let mut text = whole.clone();
        text[place] ^= 1;
        refused(&text);
    }
    let more = [&whole[..], b"x"].concat();
    assert!(refused(&more).starts_with("cut"));
    let twice = [&whole[..], &whole].concat();
    assert!(refused(&twice).starts_with("cut or damaged"));
    for other in [PAIR.as_bytes(), b"dapohiru watch record 2\n", b"\xff\n"] {
        let wanted = "no record of this form, whose first line is `dapohiru watch record 1`\n";
        assert_eq!(refused(other), wanted);
    }
}

#[test]
fn sound_digest_does_not_make_a_record_sound() {
    let (record, words) = record("record-forged");
    let words = words.each_ref().map(String::as_str);
    let whole = fs::read_to_string(&record).unwrap();
    for (old, new) in [
        ("\nstate 0\n", "\nstate 3\n"),
        ("\nstart state 0", "\nstart state 3"),
        ("nodes 0\n", "nodes 3\n"),
        ("nodes 0\n", "nodes \n"),
        ("places past 0\n", "places past 3\n"),
        ("places past 0\n", "places stopped 0\n"),
        ("places past 0\n", "places\n"),
        ("events 1\n", "events -1\n"),
        ("line 1\n", ""),
        (
            "events 1\n",
            "events 99999999999999999999999999999999999999\n",
        ),
    ] {
        let body = whole.rsplit_once("end ").unwrap().0.replace(old, new);
        let body_file = format!("{record}.body");
        fs::write(&body_file, &body).unwrap();
        let (_, sum, _) = shell("sha256sum < \"$2\"", &[&body_file]);
        fs::write(&record, format!("{body}end {}\n", &sum[..64])).unwrap();
        let wrong = format!(
            "dapohiru: {record}: it is damaged: no monitor of the job holds what it says\n"
        );
        assert_eq!(watch(&words, "1\n"), (2, String::new(), wrong), "{new}");
    }
}

#[test]
fn record_of_another_job_or_plan_is_refused() {
    let (record, [job, plan, ..]) = record("record-other");
    let folder = folder("record-other-files");
    let other_job = pair_with(&[(
        "R     1     0     1     0     2",
        "R     1     0     1     1     2",
    )]);
    let other_job = file(&folder, "other.job", other_job.as_bytes());
    let other_plan = file(&folder, "other.plan", b"101\n");
    for (words, what, given) in [
        (&[&other_job, &plan][..], "job", "job "),
        (&[&job, &other_plan], "plan", "plan 101: "),
        (&[&job], "plan", "plan 111: all points watched\n"),
    ] {
        let words: Vec<_> = words.iter().map(|word| word.as_str()).collect();
        let before = fs::read(&record).unwrap();
        let (status, printed, wrong) = watch(&[&words[..], &["--record", &record]].concat(), "1\n");
        assert_eq!((status, printed.as_str()), (2, ""));
        let begins =
            format!("dapohiru: {record}: it is of another {what}:\n  the record has: {what} ");
        assert!(wrong.starts_with(&begins), "{wrong}");
        let given = format!("\n  given is:       {given}");
        assert!(wrong.contains(&given), "{wrong}");
        assert_eq!(fs::read(&record).unwrap(), before);
    }
    // another file with the same bytes is the same job, and the same digits are the same plan
    let same_job = file(&folder, "same.job", PAIR.as_bytes());
    let same_plan = file(&folder, "same.plan", b"011");
    let words = [&same_job[..], &same_plan, "--record", &record];
    assert_eq!(watch(&words, "1\n").0, 0);
}

#[test]
fn record_that_cannot_be_written_is_told_before_an_event_is_read() {
    let folder = folder("record-places");
    let job = example("pair.job");
    let link = folder.join("link").display().to_string();
    symlink("nothing", &link).unwrap();
    let regular = ": it is no regular file, and only such a file is written whole";
    for (record, why) in [
        ("/dev/full", regular),
        ("/dev/null", regular),
        (folder.to_str().unwrap(), ": it is a folder"),
        (&link, ": it is a link to nothing"),
        (
            "/proc/pair.record",
            ": no file can be made beside it: No such file or directory (os error 2)",
        ),
        (
            "/no/such/folder/record",
            ": no file can be made beside it: No such file or directory (os error 2)",
        ),
    ] {
        let done = watch(&[&job, "--record", record], "0\n1\n2\n");
        let wrong = format!("dapohiru: {record}{why}\n");
        assert_eq!(done, (2, String::new(), wrong));
    }
    let done = watch(&[&job, "--record", "-"], "");
    let wrong = "dapohiru: watch: standard input holds the events, so the record is a file\n";
    assert_eq!(done, (2, String::new(), wrong.to_string()));
    assert_eq!(names(&folder), ["link"]);
}

#[test]
fn record_on_a_full_disk_stays_as_it_was() {
    let (record, words) = record("record-full");
    let before = fs::read(&record).unwrap();
    // a limit of no bytes for files stands for a full disk
    let script = "trap '' XFSZ; ulimit -f 0; echo 1 | \"$1\" watch --no-time \"${@:2}\"";
    let words = words.each_ref().map(String::as_str);
    let (status, printed, wrong) = shell(script, &words);
    assert_eq!((status, printed.as_str()), (2, ""));
    let told = format!("dapohiru: {record} is not written: File too large (os error 27)\n");
    assert_eq!(wrong, told);
    assert_eq!(fs::read(&record).unwrap(), before);
    // where the disk fills up later the totals come, and the record stays that of the line before
    let folder = folder("record-full-later");
    let later = folder.join("pair.record").display().to_string();
    let script = "(echo 0; until grep -q '^line 1$' \"$3\"; do sleep 0.01; done; rm -r \"$4\"; echo 1) 2>/dev/null | \"$1\" watch --no-time \"$2\" --record \"$3\"";
    let done = shell(
        script,
        &[&example("pair.job"), &later, folder.to_str().unwrap()],
    );
    let why = "no file can be made beside it: No such file or directory (os error 2)";
    let wrong = format!("dapohiru: {later}: {why}\n");
    let printed = BEGIN.to_string() + &totals([2, 0, 0, 0, 0, 1]);
    assert_eq!(done, (2, printed, wrong));
}

#[test]
fn record_that_standard_output_goes_to_is_refused() {
    let (record, words) = record("record-stream");
    let before = fs::read(&record).unwrap();
    let script = "\"$1\" watch \"${@:2}\" >> \"$5\"";
    let (status, _, wrong) = shell(script, &words.each_ref().map(String::as_str));
    assert_eq!(status, 2);
    assert_eq!(
        wrong,
        format!("dapohiru: {record}: it is standard output\n")
    );
    assert_eq!(fs::read(&record).unwrap(), before);
}
