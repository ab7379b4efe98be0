//! The documents of `--json`.
use crate::program::{example, file, folder, names, run, run_words, PAIR};
use dapohiru_generators::random::Random;
use dapohiru_second::job::members;
use dapohiru_second::listing::listing;
use std::ffi::OsStr;
use std::fs;
use std::os::unix::ffi::OsStrExt;

/// What is left after a value of JSON, if the text begins with one.
fn after_value(text: &str) -> Option<&str> {
    match text.chars().next()? {
        '{' => after_list(&text[1..], '}', |text| {
            after_value(after_text(text)?.strip_prefix(':')?)
        }),
        '[' => after_list(&text[1..], ']', after_value),
        '"' => after_text(text),
        '0'..='9' => Some(text.trim_start_matches(|letter: char| letter.is_ascii_digit())),
        _ => text.strip_prefix("true").or(text.strip_prefix("false")),
    }
}

/// What is left after items with commas between them and this end.
fn after_list(text: &str, end: char, after_item: impl Fn(&str) -> Option<&str>) -> Option<&str> {
    if let Some(rest) = text.strip_prefix(end) {
        return Some(rest);
    }
    let mut rest = after_item(text)?;
    while let Some(next) = rest.strip_prefix(',') {
        rest = after_item(next)?;
    }
    rest.strip_prefix(end)
}

/// What is left after text in quotes.
fn after_text(text: &str) -> Option<&str> {
    let mut rest = text.strip_prefix('"')?;
    loop {
        let letter = rest.chars().next()?;
        rest = &rest[letter.len_utf8()..];
        match letter {
            '"' => return Some(rest),
            '\\' if rest.starts_with('u') => {
                let digits = rest.get(1..5)?;
                u16::from_str_radix(digits, 16).ok()?;
                rest = &rest[5..];
            }
            '\\' => rest = rest.strip_prefix(['"', '\\', 'n', 'r', 't'])?,
            _ if letter.is_control() => return None,
            _ => {}
        }
    }
}

/// Asks that a text is one line and one value.
pub fn is_document(text: &str) {
    assert_eq!(after_value(text), Some("\n"), "{text}");
}

#[test]
fn listing_is_a_document() {
    let document = "{\"job\":\"-\",\"points\":[\
        {\"node\":0,\"symbol\":0,\"before\":[0],\"classes\":1,\"nop\":true,\"watched\":false},\
        {\"node\":1,\"symbol\":0,\"before\":[1],\"classes\":2,\"nop\":true,\"watched\":true},\
        {\"node\":2,\"symbol\":2,\"before\":[1],\"classes\":1,\"nop\":false,\"watched\":true}],\
        \"totals\":{\"points\":3,\"watched\":2,\"passes\":2}}\n";
    is_document(document);
    let done = run(&["list", "-", "--json"], PAIR);
    assert_eq!(done, (0, document.to_string(), String::new()));
    let words = [
        "list",
        "-",
        "--json",
        "--names",
        &example("pair-full.names"),
    ];
    let named = ",\"names\":{\"symbols\":[{\"number\":0,\"name\":\"seal\"},{\"number\":1,\"name\":\"reopen\"},\
        {\"number\":2,\"name\":\"write\"}],\"nodes\":[{\"number\":0,\"name\":\"first seal\"},\
        {\"number\":1,\"name\":\"second seal\"},{\"number\":2,\"name\":\"write\"}],\"states\":[\
        {\"number\":0,\"name\":\"open\"},{\"number\":1,\"name\":\"sealed\"},{\"number\":2,\"name\":\"touched\"}]}}\n";
    let wanted = document.replace("}}\n", "}") + named;
    is_document(&wanted);
    assert_eq!(run(&words, PAIR), (0, wanted, String::new()));
}

#[test]
fn document_has_the_numbers_of_the_listing() {
    let mut random = Random::of_this_run();
    for _ in 0..40 {
        let job = dapohiru_generators::small::job(&mut random);
        let lines = String::from_utf8(listing(&job)).unwrap();
        let mut points = Vec::new();
        let mut totals = String::new();
        for line in lines.lines() {
            let numbers = line[1..].split_whitespace();
            let numbers: Vec<u64> = numbers.map(|number| number.parse().unwrap()).collect();
            match numbers[..] {
                [node, symbol, before, classes, nop, watched] => {
                    let before: Vec<_> = members(before).collect();
                    let before = format!("{before:?}").replace(' ', "");
                    let (nop, watched) = (nop == 1, watched == 1);
                    points.push(format!("{{\"node\":{node},\"symbol\":{symbol},\"before\":{before},\"classes\":{classes},\"nop\":{nop},\"watched\":{watched}}}"));
                }
                [points, watched, passes] => {
                    totals = format!(
                        "{{\"points\":{points},\"watched\":{watched},\"passes\":{passes}}}"
                    );
                }
                _ => panic!("{line}"),
            }
        }
        let points = points.join(",");
        let wanted = format!("{{\"job\":\"-\",\"points\":[{points}],\"totals\":{totals}}}\n");
        is_document(&wanted);
        let file = String::from_utf8(job.file()).unwrap();
        assert_eq!(
            run(&["list", "-", "--json"], &file),
            (0, wanted, String::new())
        );
    }
}

#[test]
fn verdict_is_a_document() {
    let job = example("pair.job");
    for (plan, status, verdict, watched) in [
        ("011\n", 0, "faithful", [false, true, true]),
        ("001\n", 1, "different", [false, false, true]),
    ] {
        let points: Vec<_> = [0, 0, 2]
            .iter()
            .zip(watched)
            .enumerate()
            .map(|(node, (symbol, watched))| {
                format!("{{\"node\":{node},\"symbol\":{symbol},\"watched\":{watched}}}")
            })
            .collect();
        let wanted = format!(
            "{{\"job\":\"{job}\",\"plan\":\"-\",\"verdict\":\"{verdict}\",\"points\":[{}]}}\n",
            points.join(",")
        );
        is_document(&wanted);
        let done = run(&["check", &job, "-", "--json"], plan);
        assert_eq!(done, (status, wanted, String::new()));
    }
    let words = [
        "check",
        &job,
        "-",
        "--json",
        "--names",
        &example("pair.names"),
    ];
    let (_, printed, _) = run(&words, "011\n");
    is_document(&printed);
    assert!(printed.contains(",\"names\":{\"symbols\":[{\"number\":0,\"name\":\"seal\"},"));
}

#[test]
fn refusal_is_a_document_beside_its_message() {
    let job = example("pair.job");
    let cut = &PAIR[..PAIR.len() - 1];
    let refused = "\"refused\":{\"number\":4,\"meaning\":\"the line due has not its letter, its fields or its end byte\",\
        \"line\":9,\"columns\":[14,14],\"found\":\"the end of the file\",\
        \"expected\":\"the end of the line (byte 10) after F and 2 fields of six columns, 13 columns in all\"}}\n";
    let (status, printed, wrong) = run(&["list", "-", "--json"], cut);
    assert_eq!(printed, format!("{{\"job\":\"-\",{refused}"));
    assert_eq!((status, wrong), (2, run(&["list", "-"], cut).2));
    is_document(&printed);
    let plan = file(&folder("json-refused"), "pair.plan", b"01\n");
    let (status, printed, wrong) = run(&["check", "-", &plan, "--json"], cut);
    assert_eq!(
        printed,
        format!("{{\"job\":\"-\",\"plan\":\"{plan}\",{refused}")
    );
    assert_eq!((status, wrong), (2, run(&["check", "-", &plan], cut).2));
    let (status, printed, wrong) = run(&["check", &job, &plan, "--json"], "");
    let refused = "\"refused\":{\"number\":11,\"meaning\":\"the plan has not one digit for each node\",\"line\":1,\
        \"columns\":[3,3],\"found\":\"the end of the plan\",\"expected\":\"a digit for each of the 3 nodes and no more\"}}\n";
    assert_eq!(
        printed,
        format!("{{\"job\":\"{job}\",\"plan\":\"{plan}\",{refused}")
    );
    assert_eq!((status, wrong), (2, run(&["check", &job, &plan], "").2));
    // what is no refusal has no document
    for words in [
        &["list", "/no/such/file", "--json"][..],
        &["check", &job, "/no/such/file", "--json"],
        &["release", "/no/such/file", "--json"],
    ] {
        let (status, printed, _) = run(words, "");
        assert_eq!((status, printed.as_str()), (2, ""));
    }
}

#[test]
fn release_is_a_document() {
    let jobs = folder("json-release");
    file(&jobs, "a.job", PAIR.as_bytes());
    file(&jobs, "b.job", b"K");
    fs::create_dir(jobs.join("c.job")).unwrap();
    file(&jobs, "D.JOB", PAIR.as_bytes());
    let words = ["release", jobs.to_str().unwrap(), "--json"];
    let (status, printed, wrong) = run(&words, "");
    assert_eq!(status, 2);
    is_document(&printed);
    let refused = "{\"number\":4,\"meaning\":\"the line due has not its letter, its fields or its end byte\",\
        \"line\":1,\"columns\":[1,1],\"found\":\"`K`\",\"expected\":\"the letter J\"}";
    assert_eq!(
        printed,
        format!(
            "{{\"jobs\":[{{\"job\":\"a.job\",\"points\":3,\"watched\":2,\"passes\":2}},\
             {{\"job\":\"b.job\",\"refused\":{refused}}},\
             {{\"job\":\"c.job\",\"failed\":\"{0}/c.job: it is no regular file\"}}],\
             \"skipped\":[\"D.JOB\"],\
             \"totals\":{{\"jobs\":3,\"planned\":1,\"refused\":1,\"failed\":1,\"not_begun\":0,\
             \"points\":3,\"watched\":2,\"passes\":2}}}}\n",
            jobs.display()
        )
    );
    assert!(wrong.starts_with("note: D.JOB is skipped: "), "{wrong}");
    assert!(
        wrong.contains("dapohiru: 1 of 3 jobs refused:\n"),
        "{wrong}"
    );
    assert_eq!(names(&jobs), ["D.JOB", "a.job", "a.plan", "b.job", "c.job"]);
    // the same again
    assert_eq!(run(&words, "").1, printed);
}

#[test]
fn check_of_a_release_is_a_document() {
    let jobs = folder("json-check");
    for name in ["a", "b", "c", "d", "e"] {
        file(&jobs, &format!("{name}.job"), PAIR.as_bytes());
    }
    for (name, text) in [
        ("a", "011\n"),
        ("b", "001\n"),
        ("d", "01\n"),
        ("e", "x"),
        ("f", "011\n"),
    ] {
        file(&jobs, &format!("{name}.plan"), text.as_bytes());
    }
    let (status, printed, _) = run(
        &["release", jobs.to_str().unwrap(), "--check", "--json"],
        "",
    );
    assert_eq!(status, 1);
    is_document(&printed);
    let begins = "{\"jobs\":[{\"job\":\"a.job\",\"verdict\":\"faithful\",\"as_planned\":true,\"older\":false},\
        {\"job\":\"b.job\",\"verdict\":\"different\",\"as_planned\":false,\"older\":false},\
        {\"job\":\"c.job\",\"missing\":true},\
        {\"job\":\"d.job\",\"plan_refused\":{\"number\":11,";
    assert!(printed.starts_with(begins), "{printed}");
    let ends = format!(
        "{{\"job\":\"e.job\",\"no_plan\":\"{}/e.plan: line 1, column 1: found `x`\\n  expected: one line of 0 and 1, \
         a digit for each node\"}}],\"plans_without_a_job\":[\"f.plan\"],\"skipped\":[],\
         \"totals\":{{\"jobs\":5,\"faithful\":1,\"as_planned\":1,\"older\":0,\"not_begun\":0}}}}\n",
        jobs.display()
    );
    assert!(printed.ends_with(&ends), "{printed}");
}

#[test]
fn names_of_files_are_told_apart() {
    let folder = folder("json-names");
    let mut jobs = Vec::new();
    for name in [&b"a\n.job"[..], b"a\\n.job", b"a\xff.job", b"a\\xff.job"] {
        let path = folder.join(OsStr::from_bytes(name));
        fs::write(&path, PAIR).unwrap();
        let words = [OsStr::new("list"), path.as_os_str(), OsStr::new("--json")];
        let (status, printed, _) = run_words(&words);
        assert_eq!(status, 0);
        is_document(&printed);
        jobs.push(printed);
    }
    let shown = folder.display();
    assert!(jobs[0].starts_with(&format!("{{\"job\":\"{shown}/a\\n.job\",")));
    assert!(jobs[1].starts_with(&format!("{{\"job\":\"{shown}/a\\\\n.job\",")));
    assert!(jobs[2].starts_with("{\"job\":{\"bytes\":[47,") && jobs[2].contains(",97,255,46,"));
    assert!(jobs[3].starts_with(&format!("{{\"job\":\"{shown}/a\\\\xff.job\",")));
    let (_, printed, _) = run(&["release", folder.to_str().unwrap(), "--json"], "");
    is_document(&printed);
    let bytes = "{\"job\":{\"bytes\":[97,255,46,106,111,98]},\"points\":3,";
    assert!(printed.contains(bytes), "{printed}");
}
