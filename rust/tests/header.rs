//! `include/dapohiru.h`: a C program that calls every function of it, and its declarations and numbers
//! beside those of the wrapper; the wrapper's own beside the Rattle source.
mod compiled;

use compiled::{run, top, C99, CPP};
use std::fs;
use std::path::Path;

/// The program that calls every function.
const CALLS: &str = "rust/tests/c/calls.c";
/// What it prints.
const ALL_HOLD: &str = "1285 tests, 0 failed\n";

/// The text of a file, with every run of white space as one space.
fn text(path: &Path) -> String {
    let text = fs::read_to_string(path).unwrap_or_else(|why| panic!("{}: {why}", path.display()));
    text.split_whitespace().collect::<Vec<_>>().join(" ")
}

#[test]
fn every_call_from_c_answers_and_leaves_what_the_header_says() {
    let said = run("calls-c99", CALLS, "cc", C99, &[]).expect("cc is installed");
    println!("C99: {}", said.trim_end());
    assert_eq!(said, ALL_HOLD);
}

#[test]
fn header_is_c_plus_plus_too() {
    match run("calls-c++", CALLS, "c++", CPP, &[]) {
        Some(said) => assert_eq!(said, ALL_HOLD),
        None => println!("no C++ compiler is installed"),
    }
}

/// A call as a source declares it: its name, and its arguments with their C types.
type Declared = (String, Vec<(String, String)>);

/// What stands between two texts, the first time after each place where the first stands.
fn between<'a>(text: &'a str, from: &'a str, to: &'a str) -> impl Iterator<Item = &'a str> {
    text.split(from)
        .skip(1)
        .filter_map(move |part| part.split(to).next())
}

/// The calls that the wrapper declares.
fn in_wrapper(source: &str) -> Vec<Declared> {
    let block = between(source, "extern \"C\" { ", " } }")
        .next()
        .expect("an extern block");
    let c_type = |rust: &str| match rust {
        "*const u8" => "const uint8_t *",
        "*mut u8" => "uint8_t *",
        "*const u16" => "const uint16_t *",
        "*mut u16" => "uint16_t *",
        "usize" => "size_t",
        "u64" => "uint64_t",
        _ => panic!("{rust} has no C type"),
    };
    let argument = |argument: &str| {
        let (name, of) = argument.trim().split_once(": ").expect("a name and a type");
        (name.to_string(), c_type(of).to_string())
    };
    let declared = |call: &str| {
        let (name, rest) = call.split_once('(').expect("arguments");
        let (arguments, result) = rest.split_once(')').expect("their end");
        assert_eq!(result, " -> u64");
        let arguments = arguments.split(',').filter(|text| !text.trim().is_empty());
        (name.to_string(), arguments.map(argument).collect())
    };
    between(block, " pub fn ", ";").map(declared).collect()
}

/// The calls that the header declares.
fn in_header(header: &str) -> Vec<Declared> {
    let argument = |argument: &str| {
        let place = argument.rfind(['*', ' ']).expect("a type") + 1;
        let (of, name) = argument.split_at(place);
        (name.to_string(), of.trim().to_string())
    };
    between(header, "uint64_t dapohiru_", ");")
        .map(|call| {
            let (name, arguments) = call.split_once('(').expect("arguments");
            (
                format!("dapohiru_{name}"),
                arguments.split(", ").map(argument).collect(),
            )
        })
        .collect()
}

#[test]
fn header_and_wrapper_declare_the_same_calls() {
    let mut wrapper = in_wrapper(&text(&top("rust/src/ffi.rs")));
    let mut header = in_header(&text(&top("include/dapohiru.h")));
    wrapper.sort();
    header.sort();
    assert_eq!(header, wrapper);
    assert_eq!(header.len(), 12);
}

#[test]
fn wrapper_names_the_signatures_of_the_rattle_source() {
    let wrapper = fs::read_to_string(top("rust/src/ffi.rs")).expect("the wrapper is there");
    let folder = fs::read_dir(top("crates/dapohiru_c/src")).expect("the crate is there");
    // arguments on lines of their own are joined
    let source = |file: std::io::Result<fs::DirEntry>| {
        let text = text(&file.expect("a file").path());
        text.replace("( ", "(").replace(", )", ")")
    };
    let sources: Vec<_> = folder.map(source).collect();
    let is_there = |signature: &str| {
        // nothing but the contract may follow
        let mut after = sources
            .iter()
            .flat_map(|source| between(source, signature, "\0"));
        after.any(|rest| rest.starts_with(" ensures") || rest.starts_with(" {"))
    };
    let signatures: Vec<_> = between(&wrapper, "/// `#[unsafe(no_mangle)] ", "`").collect();
    for signature in &signatures {
        assert!(
            is_there(&format!("#[unsafe(no_mangle)] {signature}")),
            "{signature}"
        );
        // a slice is a pointer and a length, in place
        let arguments = between(signature, "(", ")").next().expect("arguments");
        let name = between(signature, "fn ", "(").next().expect("a name");
        let flat: Vec<_> = arguments.split(", ").flat_map(spelled).collect();
        let declared = in_wrapper(&text(&top("rust/src/ffi.rs")));
        let of_call = declared.into_iter().find(|call| call.0 == name);
        assert_eq!(of_call.expect("it is declared").1, flat, "{name}");
    }
    assert_eq!(signatures.len(), 12);
}

/// A Rattle argument as C has it.
fn spelled(argument: &str) -> Vec<(String, String)> {
    let (name, of) = argument.split_once(": ").expect("a name and a type");
    let pair = |name: String, of: &str| (name, of.to_string());
    match of {
        "u64" => vec![pair(name.to_string(), "uint64_t")],
        _ => {
            let pointer = match of {
                "&[u8]" => "const uint8_t *",
                "&mut [u8]" => "uint8_t *",
                "&[u16]" => "const uint16_t *",
                "&mut [u16]" => "uint16_t *",
                _ => panic!("{of} is no type of a call"),
            };
            vec![
                pair(name.to_string(), pointer),
                pair(format!("{name}_len"), "size_t"),
            ]
        }
    }
}

#[test]
fn lengths_and_answers_of_the_header_are_those_of_the_wrapper() {
    let header = text(&top("include/dapohiru.h"));
    let is_defined = |name: &str, value: &str| {
        let definition = format!("#define DAPOHIRU_{name} {value} ");
        assert!(header.contains(&definition), "{definition}");
    };
    for (name, len) in [
        ("JOB_LEN", dapohiru::JOB_LEN),
        ("VOLUMES_LEN", dapohiru::VOLUMES_LEN),
        ("PRICES_LEN", dapohiru::PRICES_LEN),
        ("ROWS_LEN", dapohiru::ROWS_LEN),
        ("EXPRESSION_LEN", dapohiru::EXPRESSION_LEN),
        ("WORK_LEN", dapohiru::WORK_LEN),
        ("PLAN_LEN", dapohiru::PLAN_LEN),
        ("LISTING_LEN", dapohiru::LISTING_LEN),
        ("RULE_LEN", dapohiru::RULE_LEN),
        ("RECORD_LEN", dapohiru::RECORD_LEN),
        ("EDGES_LEN", dapohiru::EDGES_LEN),
        ("PREDECESSORS_LEN", dapohiru::PREDECESSORS_LEN),
        ("STARTS_LEN", dapohiru::STARTS_LEN),
    ] {
        is_defined(name, &len.to_string());
    }
    assert_eq!(dapohiru::numbers::ACCEPTED, 1 << 48);
    is_defined("ACCEPTED", "(UINT64_C(1) << 48)");
    for (name, number) in [
        ("DIFFERENT", dapohiru::numbers::DIFFERENT),
        ("ALARM", dapohiru::numbers::ALARM),
    ] {
        assert_eq!(number, dapohiru::numbers::ACCEPTED + 1);
        is_defined(name, "(DAPOHIRU_ACCEPTED + 1)");
    }
    for (name, shift) in [("STATES", " >> 32"), ("SYMBOLS", " >> 16"), ("FINALS", "")] {
        let definition = format!("#define DAPOHIRU_{name}(answer) ((answer){shift} & 0xffff) ");
        assert!(header.contains(&definition), "{definition}");
        let from = format!("DAPOHIRU_{name} of its answer: answer{shift} & 0xffff");
        assert!(header.contains(&from), "{from}");
    }
    let states = "#define DAPOHIRU_EXPRESSION_STATES(answer) ((answer) >> 16 & 0xffff) ";
    assert!(header.contains(states), "{states}");
    let refusals: Vec<_> = between(&header, "#define DAPOHIRU_", " /*")
        .filter_map(|definition| definition.split_once(' '))
        .filter(|(name, _)| !name.ends_with("_LEN"))
        .filter_map(|(_, value)| value.parse::<u64>().ok())
        .collect();
    assert_eq!(refusals, (1..=22).chain([28]).collect::<Vec<_>>());
}
