//! The help and the version.
use crate::program::run;
use crate::words::{named, COMMANDS};

#[test]
fn help_is_printed_for_all_and_for_each() {
    for words in [&["--help"][..], &["-h"]] {
        let (status, printed, wrong) = run(words, "");
        assert_eq!((status, wrong.as_str()), (0, ""));
        assert!(printed.starts_with("usage: dapohiru COMMAND"));
        for name in COMMANDS {
            let line = format!("\n  {}", named(name));
            assert!(printed.contains(&line), "{printed}");
        }
    }
    let all = run(&["--help"], "");
    for words in [&["help"][..], &["help", "help"], &["help", "--help"]] {
        assert_eq!(run(words, ""), all);
    }
    for name in COMMANDS {
        assert_eq!(run(&["help", name], ""), run(&[name, "--help"], ""));
        for words in [
            &[name, "--help"][..],
            &[name, "-h"],
            &[name, "a", "b", "c", "d", "--help"],
        ] {
            let (status, printed, wrong) = run(words, "");
            assert_eq!((status, wrong.as_str()), (0, ""));
            assert!(printed.starts_with(&format!("usage: dapohiru {}", named(name))));
            let first = [
                "\n\n  JOB ",
                "\n\n  DIR ",
                "\n\n  ROWS ",
                "\n\n  dapohiru prices > ",
            ];
            assert!(
                first.iter().any(|first| printed.contains(first)),
                "{printed}"
            );
            assert!(printed.contains("\nExit status: 0 "));
        }
    }
}

#[test]
fn version_is_printed() {
    let printed = format!("dapohiru {}\n", env!("CARGO_PKG_VERSION"));
    for words in [&["--version"][..], &["-V"]] {
        assert_eq!(run(words, ""), (0, printed.clone(), String::new()));
    }
    let wrong = "dapohiru: --version: list is one name too many\nusage: dapohiru --version\n";
    for words in [&["--version", "list"][..], &["-V", "list", "plan"]] {
        assert_eq!(run(words, ""), (2, String::new(), wrong.to_string()));
    }
    let wrong = "dapohiru: help: list is one name too many\nusage: dapohiru help [COMMAND]\n";
    let done = run(&["help", "plan", "list"], "");
    assert_eq!(done, (2, String::new(), wrong.to_string()));
}
