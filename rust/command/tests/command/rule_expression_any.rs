//! Any expression: what is printed is what the call answers, in letters and in names.
use crate::program::{file, folder};
use crate::rule_expression::expressed;
use dapohiru::Rule;
use dapohiru_generators::random::Random;

/// Names for four symbols.
const NAMES: [&str; 4] = ["seal", "re-open", "write", "count again"];

/// A random expression of four symbols.
fn any(random: &mut Random, depth: u64) -> String {
    let letter = |random: &mut Random| random.pick(&["a", "b", "c", "d"]).to_string();
    if depth == 0 {
        return letter(random);
    }
    let mut part = || any(random, depth - 1);
    let [one, other] = [part(), part()];
    match random.below(5) {
        0 => format!("{one}|{other}"),
        1 => format!("({one})*"),
        2 => format!("({one}|{other})"),
        3 => letter(random) + "*",
        _ => one + &other,
    }
}

/// The same with a character that is changed, left out or put in.
fn damaged(random: &mut Random, text: &str) -> String {
    let mut text = text.as_bytes().to_vec();
    let (at, other) = (random.place(text.len()), random.pick(b"ade*|()) x"));
    match random.below(3) {
        0 => text[at] = other,
        1 => text.insert(at, other),
        _ => drop(text.remove(at)),
    }
    String::from_utf8(text).unwrap()
}

/// The R lines of a rule.
fn lines(rule: &Rule) -> String {
    let line = |state: usize| {
        let next = &rule.table[16 * state..][..rule.symbols as usize];
        let next: String = next.iter().map(|next| format!("{next:>6}")).collect();
        format!("R{state:>6}{:>6}{next}\n", rule.finals >> state & 1)
    };
    (0..rule.states as usize).map(line).collect()
}

#[test]
fn answers_are_those_of_the_call() {
    let mut random = Random::of_this_run();
    let mut told = [0; 3];
    for turn in 0..300 {
        let depth = random.between(1, 4);
        let text = match turn % 6 {
            0 | 1 => {
                let text = any(&mut random, depth);
                damaged(&mut random, &text)
            }
            // each letter of the tail is first met in a state of its own
            2 => any(&mut random, 2) + &"a".repeat(16),
            _ => any(&mut random, depth),
        };
        // an empty text is no word of an option
        if text.is_empty() {
            continue;
        }
        let (status, printed, wrong) = expressed(&text, "4", &[]);
        match dapohiru::expression(text.as_bytes(), 4) {
            Ok(rule) => {
                assert_eq!((status, wrong.as_str()), (0, ""), "{text}");
                assert_eq!(printed, lines(&rule), "{text}");
                told[0] += 1;
            }
            Err(refusal) => {
                assert_eq!((status, printed.as_str()), (2, ""), "{text}");
                let begins = format!("dapohiru: the expression: {refusal}: ");
                assert!(wrong.starts_with(&begins), "{text}: {wrong}");
                // the fault is told where the reader of places finds the library's number
                assert!(wrong.contains("\n  expected: "), "{text}: {wrong}");
                told[refusal.0 as usize - 19] += 1;
            }
        }
    }
    println!("accepted, then refusals by number: {told:?}");
    assert!(told.iter().all(|&count| count > 0), "{told:?}");
}

#[test]
fn names_make_the_rule_of_their_letters() {
    let mut random = Random::of_this_run();
    let names: String = NAMES
        .iter()
        .enumerate()
        .map(|(n, name)| format!("{n} {name}\n"))
        .collect();
    let names = file(&folder("expression-any"), "names", names.as_bytes());
    for _ in 0..100 {
        let depth = random.between(1, 3);
        let text = any(&mut random, depth);
        let word = |letter: char| match letter {
            'a'..='d' if random.once_in(4) => format!(" {letter} "),
            'a'..='d' => format!(" {} ", NAMES[letter as usize - 'a' as usize]),
            sign => sign.to_string(),
        };
        let named: String = text.chars().map(word).collect();
        let (status, printed, wrong) = expressed(&named, "4", &["--names", &names]);
        let plain = expressed(&text, "4", &[]);
        assert_eq!((status, printed), (plain.0, plain.1), "{named}");
        let note = format!("note: the expression in letters is {text}\n");
        assert!(status == 2 || wrong == note, "{named}: {wrong}");
    }
}
