//! The place of the fault of a volume file or a price file.
use crate::kinds::{Kind, Wrong, PRICES, VOLUMES};
use crate::places::columns;
use crate::program::{example, file, folder, PAIR};
use dapohiru_generators::faults::{faulty, Fault, Form};
use dapohiru_generators::numbered::{damaged, refused};
use dapohiru_generators::random::Random;
use dapohiru_generators::zeros::filled;
use dapohiru_generators::{samples, volumes};
use dapohiru_second::pricing::{self, Answer, Call};

/// PAIR's plan, in a folder of the test.
fn plan(test: &str) -> String {
    file(&folder(test), "pair.plan", b"011\n")
}

/// Each of these files is refused with its place and what is expected there.
fn faults_are_told(kind: &Kind, plan: &str, wrong: &[Wrong]) {
    for (text, place, expected) in wrong {
        let told = format!("{place}\n  expected: {expected}\n");
        let told = kind.refused("standard input") + &kind.told(&told);
        let done = kind.price(plan, "-", kind.told(text).as_bytes());
        assert_eq!(done, (2, String::new(), told));
    }
}

#[test]
fn what_was_expected_in_a_volume_file_or_a_price_file_is_told() {
    let plan = plan("numbered-expected");
    for kind in [VOLUMES, PRICES] {
        let (status, _, wrong) = kind.price(&plan, "-", kind.told(&kind.good()).as_bytes());
        assert_eq!((status, wrong.as_str()), (0, ""));
        faults_are_told(&kind, &plan, &kind.wrong());
    }
}

#[test]
fn price_above_9999_is_told_with_the_limits() {
    let plan = plan("numbered-limit");
    let limit = PRICES.told(&PRICES.with(1, "@     1  9999\n"));
    let (status, _, wrong) = PRICES.price(&plan, "-", limit.as_bytes());
    assert_eq!((status, wrong.as_str()), (0, ""));
    let wrong = [
        (1, "@     1 10000\n", "line 2, columns 8 to 13: found 10000"),
        (1, "@     1010000\n", "line 2, columns 8 to 13: found 10000"),
        (1, "@     1 65536\n", "line 2, columns 8 to 13: found 65536"),
        (
            15,
            "@    15999999\n",
            "line 16, columns 8 to 13: found 999999",
        ),
    ]
    .map(|(line, text, place)| (PRICES.with(line, text), place, "NUMBER"));
    faults_are_told(&PRICES, &plan, &wrong);
    // past its columns too
    for (text, found, told) in [
        ("@     1 100000\n", '0', "; MOST"),
        ("@     1  10000\n", '0', "; MOST"),
        ("@     10010000\n", '0', "; MOST"),
        ("@     1   9999\n", '9', ""),
    ] {
        let place = format!("line 2, column 14: found `{found}`");
        let expected = format!("END; this line has 14{told}");
        faults_are_told(&PRICES, &plan, &[(PRICES.with(1, text), &place, &expected)]);
        // events a day of five or six digits are not above their limit
        let expected = "END; this line has 14";
        faults_are_told(
            &VOLUMES,
            &plan,
            &[(VOLUMES.with(1, text), &place, expected)],
        );
    }
    // the symbol comes first
    let other = [(
        PRICES.with(1, "@     2 10000\n"),
        "line 2, columns 2 to 7: found 2",
        "the OWNER, 1 in this line",
    )];
    faults_are_told(&PRICES, &plan, &other);
}

#[test]
fn volume_file_and_price_file_in_place_of_each_other_are_told_by_their_letter() {
    let plan = plan("numbered-exchanged");
    for (kind, other, letter) in [
        (VOLUMES, "house.prices", 'B'),
        (PRICES, "pair.volumes", 'V'),
    ] {
        let other = example(other);
        let told = format!("line 1, column 1: found `{letter}`\n  expected: the letter @\n");
        let wrong = kind.refused(&other) + &kind.told(&told);
        assert_eq!(kind.price(&plan, &other, b""), (2, String::new(), wrong));
    }
}

#[test]
fn endless_file_is_refused() {
    let plan = plan("numbered-endless");
    for kind in [VOLUMES, PRICES] {
        let told = "line 1, column 1: found `\\0`\n  expected: the letter @\n";
        let wrong = kind.refused("/dev/zero") + &kind.told(told);
        let done = kind.price(&plan, "/dev/zero", b"");
        assert_eq!(done, (2, String::new(), wrong));
    }
}

/// The faults that the lines of a kind can have.
fn faults(kind: &Kind) -> Vec<Fault> {
    // the line of each kind that would be next is among what follows
    let follow = [&b"\n"[..], b"0", b"V     3     0\n", b"B    16     0\n"];
    let mut faults: Vec<_> = follow.map(Fault::Follow).into();
    for line in 0..kind.lines {
        faults.push(Fault::Ends(line));
        faults.extend(Form::ALL.map(|form| Fault::Form(line, form)));
        let others = [kind.lines as u64, 513, 999_999];
        faults.extend(others.map(|other| Fault::Number(line, 0, other)));
        // six columns hold no more than the events a day may be
        let above = [10_000, 999_999].into_iter();
        let above = above.filter(|&above| above > kind.lined.most);
        faults.extend(above.map(|above| Fault::Number(line, 1, above)));
    }
    faults
}

#[test]
fn every_fault_of_a_volume_file_or_a_price_file_is_told_with_its_line_and_columns() {
    let mut random = Random::of_this_run();
    let plan = plan("numbered-faults");
    for kind in [VOLUMES, VOLUMES, VOLUMES, VOLUMES, PRICES] {
        // a space stands before each, so that a missing column shows in the field where it is missing
        let numbers = kind.numbers(&mut random);
        let numbers: Vec<_> = numbers.iter().map(|number| number % 100_000).collect();
        let lines = kind.lined.lines(&numbers);
        let letters = vec![kind.lined.letter; kind.lines];
        for fault in faults(&kind) {
            let (line, _) = fault.place(&lines);
            let text = filled(&mut random, faulty(&lines, &[fault]));
            let (status, printed, wrong) = kind.price(&plan, "-", &text);
            assert_eq!((status, printed.as_str()), (2, ""), "{fault:?}");
            let columns = columns(fault, &letters, 2).unwrap();
            let place = format!("line {}, {columns}: found ", line + 1);
            let begins = kind.refused("standard input") + &place;
            assert!(wrong.starts_with(&begins), "{fault:?}: {wrong}");
            assert!(wrong.contains("\n  expected: "), "{fault:?}: {wrong}");
        }
    }
}

/// What the second implementation answers for PAIR with a file of a kind.
fn answer(kind: &Kind, file: &[u8]) -> Answer {
    let good = volumes::file(&[1205, 1205, 1180]);
    let (volumes, prices) = match kind.lined.letter {
        b'V' => (file, None),
        _ => (&good[..], Some(file)),
    };
    let call = Call {
        file_len: PAIR.len(),
        held: Ok(&samples::pair()),
        plan: &[0, 1, 1],
        volumes,
        prices,
    };
    pricing::price(&call, None)
}

#[test]
fn refusal_of_any_damaged_volume_file_or_price_file_is_told_with_what_was_expected() {
    let mut random = Random::of_this_run();
    let plan = plan("numbered-damaged");
    for kind in [VOLUMES, PRICES] {
        let mut told = [0, 0];
        for _ in 0..300 {
            let numbers = kind.numbers(&mut random);
            let file = match random.once_in(2) {
                true => damaged(&mut random, kind.lined, &numbers),
                false => refused(&mut random, kind.lined, &numbers),
            };
            let (status, printed, wrong) = kind.price(&plan, "-", &file);
            let shown = file.escape_ascii();
            match answer(&kind, &file) {
                Answer::Cents(cents) => {
                    assert_eq!((status, wrong.as_str()), (0, ""), "{shown}");
                    assert!(printed.starts_with(&format!("{cents} cent")), "{shown}");
                    told[0] += 1;
                }
                Answer::Refused(number) => {
                    assert_eq!((status, printed.as_str()), (2, ""), "{shown}");
                    assert!(kind.refused.starts_with(&format!("refused {number}: ")));
                    let begins = kind.refused("standard input");
                    assert!(wrong.starts_with(&begins), "{shown}: {wrong}");
                    assert!(wrong.contains("\n  expected: "), "{shown}: {wrong}");
                    told[1] += 1;
                }
            }
        }
        println!("{}: {} priced, {} refused", kind.owner, told[0], told[1]);
        assert!(told.iter().all(|&count| count > 0));
    }
}
