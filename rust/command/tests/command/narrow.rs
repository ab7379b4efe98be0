//! Tables and the progress bar on terminals of many widths.
use crate::program::{example, file, folder, narrow, run, shell, PAIR};
use std::path::PathBuf;

/// A folder of jobs with short and long names.
fn jobs(name: &str) -> PathBuf {
    let folder = folder(name);
    for name in [
        "a",
        &"b".repeat(60),
        &"c".repeat(250),
        &"\u{5c01}".repeat(40),
    ] {
        file(&folder, &format!("{name}.job"), PAIR.as_bytes());
    }
    folder
}

/// What takes away the rest of a terminal's line.
const REST: &str = "\x1b[K";

/// The columns of a line, of which one of these characters takes two.
fn columns(line: &str) -> usize {
    let wide = line.matches('\u{5c01}').count();
    line.chars().count() + wide
}

#[test]
fn table_of_a_release_fits_the_terminal() {
    let folder = jobs("narrow-release");
    let words = ["release", folder.to_str().unwrap()];
    assert_eq!(run(&words, "").0, 0);
    // the times of a busy machine have no room on the narrowest
    for (width, more) in [
        (40, &["--check"][..]),
        (80, &["--check"]),
        (80, &[]),
        (200, &["--check"]),
        (200, &[]),
    ] {
        let (status, printed, _) = narrow(width, &[&words[..], more].concat());
        assert_eq!(status, 0);
        let (bars, table) = printed.rsplit_once("\r\x1b[K").unwrap();
        assert_eq!(table.lines().count(), 6, "{table}");
        let bars = bars.replace(REST, "");
        for line in table.lines().take(5).chain(bars.split('\r')) {
            assert!(columns(line) <= width, "{width}: {line}");
        }
        assert!(table.contains("\r\na.job "), "{table}");
        let cut = table.lines().find(|line| line.starts_with("ccc"));
        assert!(cut.is_some_and(|line| line.contains("c..")), "{table}");
        let long = "b".repeat(60) + ".job ";
        assert_eq!(table.contains(&long), width > 80, "{table}");
    }
}

#[test]
fn names_are_whole_where_output_is_no_terminal() {
    let folder = jobs("narrow-file");
    let (_, printed, _) = run(&["release", folder.to_str().unwrap()], "");
    for name in ["b".repeat(60), "c".repeat(250), "\u{5c01}".repeat(40)] {
        assert!(printed.contains(&format!("\n{name}.job ")), "{printed}");
    }
}

#[test]
fn bar_is_left_out_where_it_has_no_room() {
    let folder = jobs("narrow-bar");
    let words = ["release", folder.to_str().unwrap()];
    for (width, bar) in [(200, 40), (30, 15), (18, 0), (5, 0)] {
        let (status, printed, _) = narrow(width, &words);
        assert_eq!(status, 0);
        let first = printed.split('\r').nth(1).unwrap();
        assert_eq!(first.matches('.').count(), bar, "{first}");
        assert_eq!(first.contains("0 of 4 jobs"), width > 11, "{first}");
    }
}

/// What stands in a terminal's line after each text that is written over it.
fn lines(written: &str) -> Vec<String> {
    let mut line = String::new();
    let over = |text: &str| {
        let (text, rest) = match text.strip_suffix(REST) {
            Some(text) => (text, ""),
            None => (text, line.get(text.len()..).unwrap_or_default()),
        };
        line = text.to_string() + rest;
        line.clone()
    };
    written.split('\r').map(over).collect()
}

#[test]
fn nothing_stays_of_a_bar_that_was_longer() {
    let folder = folder("narrow-shorter");
    for number in 0..12 {
        file(&folder, &format!("{number}.job"), PAIR.as_bytes());
    }
    let (status, printed, _) = narrow(20, &["release", folder.to_str().unwrap()]);
    assert_eq!(status, 0);
    let (bars, _) = printed.rsplit_once("\r\x1b[K").unwrap();
    let wanted = (0..=12).map(|done| match done {
        // the bar has no room beside two digits
        10.. => format!("{done} of 12 jobs"),
        _ => {
            let filled = 4 * done / 12;
            let bar = "#".repeat(filled) + &".".repeat(4 - filled);
            format!("[{bar}] {done} of 12 jobs")
        }
    });
    assert_eq!(lines(bars)[1..], wanted.collect::<Vec<_>>());
}

#[test]
fn jobs_that_differ_in_the_middle_of_their_names_are_told_apart() {
    let folder = folder("narrow-alike");
    let name = |middle: &str| format!("{}{middle}{}", "n".repeat(40), "m".repeat(40));
    for middle in ["1", "2", "3"] {
        file(&folder, &format!("{}.job", name(middle)), PAIR.as_bytes());
    }
    let plan = |middle: &str, text: &str| {
        file(&folder, &format!("{}.plan", name(middle)), text.as_bytes())
    };
    let different = plan("1", "001\n");
    plan("2", "011\n");
    let (status, printed, _) = narrow(60, &["release", folder.to_str().unwrap(), "--check"]);
    assert_eq!(status, 1);
    let (_, told) = printed.rsplit_once("\r\x1b[K").unwrap();
    let (table, wrong) = told.split_once("dapohiru: ").unwrap();
    for (middle, word) in [
        ("1", "different "),
        ("2", "faithful "),
        ("3", "missing\r\n"),
    ] {
        let row = format!("\n{}.job  {word}", name(middle));
        assert_eq!(table.matches(&row).count(), 1, "{table}");
    }
    let shown = |middle: &str| format!("{}/{}", folder.display(), name(middle));
    assert_eq!(
        wrong,
        format!(
            "1 of 3 jobs with a different plan:\r\n{}.job: {different} is different\r\n\
             dapohiru: 1 of 3 jobs without a plan:\r\n{}.job: {}.plan is missing\r\n",
            shown("1"),
            shown("3"),
            shown("3")
        )
    );
}

#[test]
fn names_of_symbols_are_cut_in_the_table_alone() {
    let folder = folder("narrow-names");
    let name = "s".repeat(100);
    let names = file(&folder, "names", format!("0 {name}\n").as_bytes());
    let words = ["list", &example("pair.job"), "--explain", "--names", &names];
    let (_, printed, _) = narrow(60, &words);
    let (table, more) = printed.split_once("3 event nodes").unwrap();
    assert!(
        table.lines().all(|line| line.chars().count() <= 60),
        "{table}"
    );
    assert!(!table.contains(&name));
    assert!(
        more.contains(&format!("Node 0, symbol 0 {name}:\r\n")),
        "{more}"
    );
    let (_, printed, _) = run(&words, "");
    assert!(
        printed.contains(&format!("   0  0 {name}  {{0}} ")),
        "{printed}"
    );
}

#[test]
fn columns_that_are_asked_for_take_the_place_of_the_terminals() {
    let folder = jobs("narrow-asked");
    let script = "SHELL=$BASH script -qec \"stty cols 120; $(printf '%q ' \"$@\")\" /dev/null";
    let words = ["release", folder.to_str().unwrap()];
    for (asked, width) in [("50", 50), ("0", 120), ("wide", 120), ("", 120)] {
        let (_, printed, _) = shell(&format!("COLUMNS={asked} {script}"), &words);
        let (_, table) = printed.rsplit_once("\r\x1b[K").unwrap();
        let widest = table.lines().map(columns).max().unwrap();
        assert_eq!(widest, width, "{asked}: {table}");
    }
    let (_, printed, _) = shell("COLUMNS=50 \"$@\"", &words);
    assert!(printed.contains(&"c".repeat(250)), "{printed}");
}
