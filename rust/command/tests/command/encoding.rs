//! Windows line ends, byte order marks and UTF-16 in every file that is read: they are told with a command that
//! mends them, and it does.
use crate::program::{example, file, folder, run, shell, PAIR};
use std::fs;
use std::path::Path;

/// A text in UTF-16.
fn wide(text: &str, bytes: fn(u16) -> [u8; 2]) -> Vec<u8> {
    text.encode_utf16().flat_map(bytes).collect()
}

/// Ways to write a text that no input has, with what is said of each.
fn ways(text: &str) -> Vec<(Vec<u8>, &'static str)> {
    let windows = text.replace('\n', "\r\n");
    let returns = text.replace('\n', "\r");
    let marked = |text: &str| format!("\u{feff}{text}");
    let (low, high) = (u16::to_le_bytes, u16::to_be_bytes);
    vec![
        (windows.clone().into(), "Windows line ends"),
        (marked(text).into(), "a byte order mark"),
        (
            marked(&windows).into(),
            "a byte order mark and Windows line ends",
        ),
        (wide(text, low), "UTF-16 characters"),
        (wide(text, high), "UTF-16 characters"),
        (wide(&marked(text), low), "UTF-16 characters"),
        (
            wide(&marked(&windows), low),
            "UTF-16 characters and Windows line ends",
        ),
        (
            wide(&marked(&windows), high),
            "UTF-16 characters and Windows line ends",
        ),
        (returns.clone().into(), "carriage returns as line ends"),
        (
            wide(&returns, high),
            "UTF-16 characters and carriage returns as line ends",
        ),
    ]
}

/// Tries a file, for which FILE stands in the words, in all these ways: each is refused with a message that says
/// how it is mended, and once that is done all is well.
fn is_told_and_mended(folder: &Path, text: &str, words: &[&str]) {
    let given = |name: &str| {
        let words = words
            .iter()
            .map(|&word| if word == "FILE" { name } else { word });
        run(&words.collect::<Vec<_>>(), "")
    };
    let name = file(folder, "good", text.as_bytes());
    let wanted = given(&name);
    assert_eq!((wanted.0, wanted.2.as_str()), (0, ""), "{words:?}");
    for (bytes, found) in ways(text) {
        let name = file(folder, "other", &bytes);
        let (status, printed, wrong) = given(&name);
        assert_eq!((status, printed.as_str()), (2, ""), "{words:?}: {found}");
        let told = format!("\n  the file has {found}, mended by `");
        let (_, mend) = wrong.split_once(&told).expect(&wrong);
        let mend = mend.strip_suffix("`\n").unwrap();
        mended(mend, &name);
        assert_eq!(given(&name), (wanted.0, wanted.1.clone(), wanted.2.clone()));
    }
}

/// Mends a file by this command.
fn mended(mend: &str, name: &str) {
    let script = mend.replace("FILE", "\"$2\"").replace("NEW", "\"$2.new\"");
    let (status, _, wrong) = shell(&format!("{script} && mv \"$2.new\" \"$2\""), &[name]);
    assert_eq!((status, wrong.as_str()), (0, ""), "{mend}");
}

#[test]
fn files_written_in_other_ways_are_told_with_what_mends_them() {
    let folder = folder("encoding");
    let plan = file(&folder, "pair.plan", b"011\n");
    let (job, volumes) = (example("pair.job"), example("pair.volumes"));
    let read = |name: &str| fs::read_to_string(example(name)).unwrap();
    is_told_and_mended(&folder, PAIR, &["check", "FILE", &plan]);
    is_told_and_mended(&folder, PAIR, &["watch", "FILE"]);
    is_told_and_mended(&folder, "011\n", &["check", &job, "FILE"]);
    is_told_and_mended(&folder, "011\n", &["watch", &job, "FILE"]);
    let text = read("pair.volumes");
    is_told_and_mended(&folder, &text, &["price", &job, &plan, "FILE"]);
    let text = read("house.prices");
    let words = ["price", &job, &plan, &volumes, "--prices", "FILE"];
    is_told_and_mended(&folder, &text, &words);
    let sizes = ["--states=3", "--symbols=3", "--finals=2"];
    let words = [&["rule", "FILE"][..], &sizes].concat();
    is_told_and_mended(&folder, &read("pair.rows"), &words);
    let text = read("pair.names");
    is_told_and_mended(&folder, &text, &["watch", &job, "--names", "FILE"]);
    let words = ["list", &job, "--explain", "--names", "FILE"];
    is_told_and_mended(&folder, &text, &words);
}

#[test]
fn byte_order_mark_is_told_by_its_name() {
    let folder = folder("encoding-mark");
    let plan = file(&folder, "marked.plan", "\u{feff}011\n".as_bytes());
    let job = file(&folder, "marked.job", format!("\u{feff}{PAIR}").as_bytes());
    for (words, place) in [
        (
            &["plan", &job][..],
            "line 1, column 1: found a byte order mark\n  expected: the letter J\n",
        ),
        (
            &["check", &example("pair.job"), &plan],
            "line 1, column 1: found a byte order mark\n  expected: one line of 0 and 1, a digit for each node\n",
        ),
    ] {
        let (status, _, wrong) = run(words, "");
        assert_eq!(status, 2);
        assert!(wrong.contains(place), "{wrong}");
        let ends = "\n  the file has a byte order mark, mended by `tail -c +4 < FILE > NEW`\n";
        assert!(wrong.ends_with(ends), "{wrong}");
    }
}

#[test]
fn events_written_in_other_ways_are_told_with_what_mends_them() {
    let folder = folder("encoding-events");
    let job = example("pair.job");
    let script = "\"$1\" watch --no-time \"$2\" < \"$3\"";
    let text = "0\n1\n2\n";
    let good = file(&folder, "good", text.as_bytes());
    let wanted = shell(script, &[&job, &good]);
    assert_eq!((wanted.0, wanted.2.as_str()), (1, ""));
    for (bytes, found) in ways(text) {
        let name = file(&folder, "other", &bytes);
        let (status, printed, wrong) = shell(script, &[&job, &name]);
        // the lines after a mark at the beginning are events, those of the others are none
        let is_mark_alone = found == "a byte order mark";
        assert_eq!(status, if is_mark_alone { 1 } else { 4 }, "{wrong}");
        assert!(is_mark_alone || printed.contains("\nevents 0 "));
        let told = format!(" it has {found}, mended by `");
        let first = wrong.lines().next().unwrap();
        assert!(
            first.starts_with("dapohiru: standard input: line 1: `"),
            "{first}"
        );
        let (_, mend) = first.split_once(&told).expect(&wrong);
        mended(mend.strip_suffix('`').unwrap(), &name);
        assert_eq!(shell(script, &[&job, &name]), wanted);
    }
}

#[test]
fn record_written_in_other_ways_is_told_with_what_mends_it() {
    let folder = folder("encoding-record");
    let (job, record) = (example("pair.job"), folder.join("r").display().to_string());
    let words = ["watch", "--no-time", &job, "--record", &record];
    assert_eq!(run(&words, "0\n1\n").0, 0);
    let text = fs::read_to_string(&record).unwrap();
    let (begin, end) = text.split_at(text.find("\nline").unwrap());
    let windows = [begin, &end.replace('\n', "\r\n")].concat();
    let some_windows = (windows.into_bytes(), "Windows line ends");
    for (bytes, found) in [ways(&text), vec![some_windows]].concat() {
        let name = file(&folder, "r", &bytes);
        let (status, printed, wrong) = run(&words, "");
        assert_eq!((status, printed.as_str()), (2, ""), "{found}");
        let told = format!("\n  the file has {found}, mended by `");
        let (_, mend) = wrong.split_once(&told).expect(&wrong);
        mended(mend.strip_suffix("`\n").unwrap(), &name);
        assert_eq!(fs::read_to_string(&record).unwrap(), text);
        let (status, printed, _) = run(&words, "");
        assert!(status == 0 && printed.starts_with("goes on after line 2 "));
    }
}

#[test]
fn document_of_a_refused_file_has_what_mends_it() {
    let job = PAIR.replace('\n', "\r\n");
    let (status, printed, _) = run(&["list", "-", "--json"], &job);
    assert_eq!(status, 2);
    let has = "\"has\":\"Windows line ends, mended by `tr -d '\\\\r' < FILE > NEW`\"";
    assert!(printed.contains(has), "{printed}");
}
