//! Names of files and other text from outside, as they are shown.
use crate::program::{example, file, folder, pair_with, run, run_words, terminal, Done, PAIR};
use std::ffi::{OsStr, OsString};
use std::fs;
use std::os::unix::ffi::OsStrExt;
use std::path::Path;

/// Names that would change the terminal, forge a line or look like another, and how each is shown.
const NAMES: [(&[u8], &str); 8] = [
    (b"a\x1b]0;title\x07", "a\\u{1b}]0;title\\u{7}"),
    (b"a\r\x1b[2Jb\x7f", "a\\r\\u{1b}[2Jb\\u{7f}"),
    (
        b"a\nb.job        9        9       9  0.1 ms",
        "a\\nb.job        9        9       9  0.1 ms",
    ),
    (b"\xff\xfea", "\\xff\\xfea"),
    (
        "a\u{202e}b\u{200b}c\u{2028}".as_bytes(),
        "a\\u{202e}b\\u{200b}c\\u{2028}",
    ),
    ("\u{9b}2J".as_bytes(), "\\u{9b}2J"),
    (b"a\\nb", "a\\\\nb"),
    (
        "b\u{fc}ro 'a' \"b\" \u{5c01}".as_bytes(),
        "b\u{fc}ro 'a' \"b\" \u{5c01}",
    ),
];

/// Nothing of a text leaves its line or changes the terminal.
fn is_plain(text: &str) -> bool {
    let control = |letter: char| letter.is_control() && letter != '\n';
    let unseen = ['\u{202e}', '\u{200b}', '\u{2028}'];
    !text.contains(control) && !text.contains(unseen)
}

/// A name with an ending.
fn with(name: &[u8], ending: &str) -> OsString {
    OsStr::from_bytes(&[name, ending.as_bytes()].concat()).to_os_string()
}

/// The words with a file's name in the place of `@`.
fn at(words: &[&str], name: &OsStr) -> Done {
    let words: Vec<_> = words
        .iter()
        .map(|&word| match word {
            "@" => name,
            _ => OsStr::new(word),
        })
        .collect();
    run_words(&words)
}

#[test]
fn names_of_files_are_escaped_in_messages() {
    let (job, volumes) = (example("pair.job"), example("pair.volumes"));
    let folder = folder("shown-messages");
    let plan = file(&folder, "pair.plan", b"011\n");
    for (name, shown) in NAMES {
        let name = with(name, "");
        for words in [
            &["plan", "@"][..],
            &["list", "@"],
            &["list", &job, "--explain", "--names", "@"],
            &["check", "@", &plan],
            &["check", &job, "@"],
            &["check", &job, &plan, "--names", "@"],
            &["price", &job, &plan, "@"],
            &["price", &job, &plan, &volumes, "--prices", "@"],
            &["watch", "@"],
            &["watch", &job, "@"],
            &["release", "@"],
            &["release", "@", "--check"],
            &["graph", "@"],
            &["graph", &job, "@"],
            &["graph", &job, "--names", "@"],
        ] {
            let wrong = format!("dapohiru: {shown}: No such file or directory (os error 2)\n");
            assert_eq!(at(words, &name), (2, String::new(), wrong), "{words:?}");
        }
    }
}

#[test]
fn words_of_the_command_line_are_escaped() {
    let job = example("pair.job");
    for (name, shown) in NAMES {
        let option = [b"--", name].concat();
        for (words, word, why) in [
            (&["@"][..], name, "is no command"),
            (&["help", "@"], name, "is no command"),
            (&["help", "plan", "@"], name, "is one name too many"),
            (&["plan", &job, "@"], name, "is one name too many"),
            (&["plan", &job, "@"], &option, "is no option"),
        ] {
            let (status, printed, wrong) = at(words, OsStr::from_bytes(word));
            let hyphens = if word == name { "" } else { "--" };
            assert_eq!((status, printed.as_str()), (2, ""));
            assert!(
                wrong.contains(&format!("{hyphens}{shown} {why}\n")),
                "{wrong}"
            );
            assert!(is_plain(&wrong), "{wrong:?}");
        }
    }
}

#[test]
fn refused_files_are_named_in_one_line() {
    let folder = folder("shown-refused");
    for (name, shown) in NAMES {
        let path = folder.join(with(name, ".job"));
        fs::write(&path, "K").unwrap();
        for words in [
            &["plan", "@"][..],
            &["list", "@", "--explain"],
            &["check", "@", "/dev/null"],
            &["watch", "@"],
            &["graph", "@"],
        ] {
            let (status, _, wrong) = at(words, path.as_os_str());
            let begins = format!("dapohiru: {}/{shown}.job: refused 4: ", folder.display());
            assert_eq!(status, 2);
            assert!(wrong.starts_with(&begins), "{wrong:?}");
            assert_eq!(wrong.lines().count(), 3);
        }
        fs::remove_file(&path).unwrap();
    }
}

#[test]
fn file_for_the_output_is_named_in_one_line() {
    let folder = folder("shown-output");
    for (name, shown) in NAMES {
        let path = folder.join(with(name, ""));
        fs::create_dir(&path).unwrap();
        let done = at(&["plan", &example("pair.job"), "-o", "@"], path.as_os_str());
        let wrong = format!("dapohiru: {}/{shown}: it is a folder\n", folder.display());
        assert_eq!(done, (2, String::new(), wrong));
    }
}

/// A folder in which every name is a job's, of this text.
fn jobs(name: &str, text: &str) -> std::path::PathBuf {
    let folder = folder(name);
    for (name, _) in NAMES {
        fs::write(folder.join(with(name, ".job")), text).unwrap();
    }
    folder
}

/// The rows of a table that are of jobs, in order.
fn rows(printed: &str) -> Vec<&str> {
    let mut rows: Vec<_> = printed.lines().skip(1).collect();
    rows.pop();
    rows
}

/// Each name stands in one row.
fn each_has_a_row(printed: &str) {
    assert!(is_plain(printed), "{printed:?}");
    assert_eq!(rows(printed).len(), NAMES.len());
    for (_, shown) in NAMES {
        let begins = format!("{shown}.job ");
        let named = rows(printed)
            .into_iter()
            .filter(|row| row.starts_with(&begins));
        assert_eq!(named.count(), 1, "{printed}");
    }
}

#[test]
fn jobs_of_a_release_have_a_row_each() {
    let folder = jobs("shown-release", PAIR);
    let words = |more: &'static [&str]| [&["release", folder.to_str().unwrap()], more].concat();
    let (status, printed, wrong) = run(&words(&[]), "");
    assert_eq!((status, wrong.as_str()), (0, ""));
    each_has_a_row(&printed);
    let (status, printed, wrong) = run(&words(&["--check"]), "");
    assert_eq!((status, wrong.as_str()), (0, ""));
    each_has_a_row(&printed);
    let (_, printed, _) = terminal(&words(&[]));
    let (_, table) = printed.rsplit_once("\r\x1b[K").unwrap();
    each_has_a_row(&table.replace("\r\n", "\n"));
}

#[test]
fn refused_jobs_of_a_release_have_their_lines_each() {
    let folder = jobs("shown-refusals", "K");
    let (status, _, wrong) = run(&["release", folder.to_str().unwrap()], "");
    assert_eq!(status, 1);
    assert!(is_plain(&wrong), "{wrong:?}");
    assert_eq!(wrong.lines().count(), 1 + 3 * NAMES.len());
    for (_, shown) in NAMES {
        let begins = format!("{}/{shown}.job: refused 4: ", folder.display());
        let named = wrong.lines().filter(|line| line.starts_with(&begins));
        assert_eq!(named.count(), 1, "{wrong}");
    }
}

#[test]
fn what_is_found_in_a_file_is_escaped() {
    for (found, shown) in [
        ("\x1b]0;ti", "\\u{1b}]0;ti"),
        ("\u{202e}\u{202e}", "\\u{202e}\\u{202e}"),
        ("\u{fc}\u{fc}\u{fc}", "\u{fc}\u{fc}\u{fc}"),
        ("a\\n\r\t\0", "a\\\\n\\r\\t\\0"),
    ] {
        let job = pair_with(&[("J     3", &format!("J{found}"))]);
        let (status, printed, wrong) = run(&["plan", "-"], &job);
        assert_eq!((status, printed.as_str()), (2, ""));
        let place = format!("  line 1, columns 2 to 7: found `{shown}`\n");
        assert!(wrong.contains(&place), "{wrong:?}");
        assert!(is_plain(&wrong), "{wrong:?}");
    }
    let (_, _, wrong) = run(&["check", &example("pair.job"), "-"], "\x1b\n");
    assert!(wrong.contains("found `\\u{1b}`\n"), "{wrong:?}");
}

#[test]
fn failing_dot_is_quoted_without_what_changes_the_terminal() {
    let folder = folder("shown-dot");
    let dot = "#!/bin/sh\nprintf 'a\\033]0;b\\007\\nc\\n' >&2\nexit 1\n";
    let done = crate::child::with_dot(&folder, dot, &["graph", &example("pair.job"), "--svg"]);
    let wrong = "dapohiru: dot failed with exit status: 1: a\\u{1b}]0;b\\u{7}\n  c\n".to_string();
    assert_eq!(done, (2, String::new(), wrong));
}

/// Names of symbols, nodes and states.
#[test]
fn names_from_a_file_are_escaped() {
    let folder = folder("shown-names");
    let names = "symbol 0 a\u{202e}b\nnode 0 c\\n\"d\u{200b}\nstate 0 e\u{2028}f&#10;\n";
    let names = file(Path::new(&folder), "names", names.as_bytes());
    let job = example("pair.job");
    let (_, printed, _) = run(&["list", &job, "--explain", "--names", &names], "");
    assert!(is_plain(&printed), "{printed:?}");
    let row = "0 c\\\\n\"d\\u{200b}  0 a\\u{202e}b  {0 e\\u{2028}f&#10;} ";
    assert!(printed.contains(row), "{printed}");
    let (_, printed, _) = run(&["list", &job, "--json", "--names", &names], "");
    assert!(is_plain(&printed), "{printed:?}");
    assert!(printed.contains("\"c\\\\n\\\"d\\u200b\""), "{printed}");
    let (_, printed, _) = run(&["graph", &job, "--names", &names], "");
    assert!(is_plain(&printed), "{printed:?}");
    for label in [
        "n0 [label=\"0 c\\\\\\\\n\\\"d\\\\u{200b}: symbol 0 a\\\\u{202e}b\\nunwatched\"",
        "entry0 [label=\"entry {0 e\\\\u{2028}f&amp;#10;}\"",
    ] {
        assert!(printed.contains(label), "{printed}");
    }
}
