//! All short texts, and all short lists of events under the rules that they make.
use dapohiru::numbers::ALARM;
use dapohiru_compare::compared::Compared;
use dapohiru_compare::expression::{refused, Case, Memory};
use dapohiru_compare::library::CALLS;
use dapohiru_compare::memory::Counts;
use dapohiru_second::expression::{alarms, is_word};

/// All texts of at most so many of these bytes.
fn texts(bytes: &[u8], most: u32) -> Vec<Vec<u8>> {
    let mut all = vec![vec![]];
    let mut first = 0;
    for _ in 0..most {
        let past = all.len();
        for place in first..past {
            let longer = bytes
                .iter()
                .map(|&byte| [&all[place][..], &[byte]].concat());
            let longer: Vec<_> = longer.collect();
            all.extend(longer);
        }
        first = past;
    }
    all
}

#[test]
fn all_texts_of_at_most_five_characters_agree() {
    let mut memory = Memory::new(CALLS);
    let mut counts = Counts::default();
    // c is past A, and a space is no character; and without both
    let with_others = texts(b"abc*|() ", 5);
    let without = texts(b"ab*|()", 6);
    assert_eq!((with_others.len(), without.len()), (37_449, 55_987));
    for text in with_others.iter().chain(&without) {
        let compared = Case::of(text, 2).compare(&mut memory, None);
        counts.agree(text.escape_ascii(), compared, |seen| refused(seen.number));
    }
    counts.print("all short texts");
    counts.came([None, Some(20)]);
    // no text of six characters has so many states
    assert_eq!(counts.of(Some(21)), 0);
}

/// Events a and b, as a number.
fn events(list: &[u8]) -> Vec<u64> {
    list.iter().map(|&byte| u64::from(byte - b'a')).collect()
}

#[test]
fn every_event_of_every_short_list_alarms_exactly_where_the_events_so_far_are_a_word() {
    let lists: Vec<_> = texts(b"ab", 4).iter().map(|list| events(list)).collect();
    let (mut rules, mut words, mut others) = (0, 0, 0);
    for text in texts(b"ab*|()", 5) {
        let mut table = [99; 256];
        let number = (CALLS.expression)(&text, 2, &mut table);
        if refused(number).is_some() {
            continue;
        }
        rules += 1;
        let (states, finals) = (number >> 16 & 0xffff, number & 0xffff);
        for list in lists.iter().filter(|list| list.len() == 4) {
            let wanted = alarms(&text, list).expect("the text is sound");
            let mut record = [0; 16];
            for (place, &event) in list.iter().enumerate() {
                let number = (CALLS.event)(&table, states, 2, finals, event, &mut record);
                let name = format_args!("{} {list:?}", text.escape_ascii()).to_string();
                assert_eq!(number == ALARM, wanted[place], "{name}");
                // the language by its definition
                assert_eq!(
                    is_word(&text, &list[..=place]),
                    Some(wanted[place]),
                    "{name}"
                );
                match wanted[place] {
                    true => words += 1,
                    false => others += 1,
                }
            }
        }
    }
    println!("{rules} rules, {words} alarms, {others} quiet events");
    assert!(rules > 500 && words > 1_000 && others > 1_000);
}
