//! Buffers of all lengths around the limits, in every place of every call.
use crate::calls::{exact, filled, Calls};
use dapohiru::numbers::ACCEPTED;
use dapohiru::{EXPRESSION_LEN, PRICES_LEN, ROWS_LEN, RULE_LEN};
use dapohiru_compare::arrivals::{self, Kind};
use dapohiru_compare::expression;
use dapohiru_compare::library::CALLS;
use dapohiru_compare::rows::Case;
use dapohiru_generators::arrivals as graphs;
use dapohiru_generators::events::Call;
use dapohiru_generators::random::Random;
use dapohiru_generators::rows::most_rows;
use dapohiru_generators::samples::{pair, sixteen};
use dapohiru_generators::zeros::zero_filled;
use dapohiru_generators::{prices, volumes};
use dapohiru_second::numbered::PRICES;
use dapohiru_second::reading::{LONGEST, WORK};
use dapohiru_second::rows::{text, ROW};
use dapohiru_second::serving::Service;
use dapohiru_second::step::{Answer, Second};

/// The lengths that every buffer has in turn.
const LENGTHS: [usize; 17] = [
    0, 1, 15, 16, 17, 255, 256, 257, 511, 512, 513, 32_767, 32_768, 32_769, 65_535, 65_536, 65_537,
];

/// How much longer a file is that is taken for a sound one where the high bits of its length are lost.
const HIGH: [usize; 2] = [256, 65_536];

/// Says that a number is not the one wanted.
fn same(number: u64, wanted: u64, what: &str) -> Result<(), String> {
    match number == wanted {
        true => Ok(()),
        false => Err(format!("{number} and not {wanted}: {what}")),
    }
}

/// All the lengths.
pub fn run(calls: &mut Calls, random: &mut Random) -> Result<(), String> {
    plan_and_listing_buffers(calls)?;
    plans(calls)?;
    volume_files(calls)?;
    price_files(calls)?;
    files(calls, &pair().file())?;
    files(calls, &zero_filled(pair().file()))?;
    rule_buffers(calls)?;
    texts_of_rows(calls)?;
    expressions(calls)?;
    rules_and_records(calls)?;
    lists_of_edges(calls)?;
    events(calls, random, Second { slip: None })
}

/// Plan, listing and work buffers.
fn plan_and_listing_buffers(calls: &mut Calls) -> Result<(), String> {
    let file = pair().file();
    for service in Service::BOTH {
        let accepted = calls.serve(service, &file, WORK, service.least());
        for lent in LENGTHS {
            for work in LENGTHS {
                let fits = lent >= service.least() && work >= WORK;
                let number = calls.serve(service, &file, work, lent);
                let what = format!("{service:?} with {lent} and {work} bytes");
                same(number, if fits { accepted } else { 2 }, &what)?;
            }
        }
    }
    Ok(())
}

/// Plans to be checked, with work buffers.
fn plans(calls: &mut Calls) -> Result<(), String> {
    let file = pair().file();
    for plan in LENGTHS.into_iter().chain([2, 3, 4]) {
        for work in LENGTHS {
            let number = calls.check(&file, &vec![0; plan], work);
            let wanted = match plan {
                _ if work < WORK => 2,
                // no point of PAIR is watched
                3 => ACCEPTED + 1,
                _ => 11,
            };
            same(number, wanted, &format!("plan of {plan} and {work} bytes"))?;
        }
    }
    Ok(())
}

/// Plans to be priced, with volume files that are cut short or have lines past the last.
fn volume_files(calls: &mut Calls) -> Result<(), String> {
    let file = pair().file();
    let spaced = volumes::file(&[1_000; 5_000]);
    let both = [spaced.clone(), zero_filled(spaced)];
    for plan in LENGTHS.into_iter().chain([2, 3, 4]) {
        let past = HIGH.map(|high| 3 * 14 + high);
        for len in LENGTHS.into_iter().chain(0..=4 * 14).chain(past) {
            for volumes in &both {
                let number = calls.price(&file, &vec![0; plan], &volumes[..len], None);
                let wanted = match (plan, len) {
                    (3, 42) => ACCEPTED,
                    (3, _) => 16,
                    _ => 11,
                };
                let what = format!("plan of {plan}, volume file of {len} bytes");
                same(number, wanted, &what)?;
            }
        }
    }
    Ok(())
}

/// Plans to be priced by price files that are cut short or have lines past the last, with volume files that are sound,
/// cut short or have bytes past the last line.
fn price_files(calls: &mut Calls) -> Result<(), String> {
    let file = pair().file();
    let spaced = PRICES.file(&[1_000; 5_000]);
    let both = [spaced.clone(), zero_filled(spaced)];
    let thousands = [&volumes::file(&[1_000; 3])[..], &[b'\n'; 65_536]].concat();
    let past = HIGH.map(|high| PRICES_LEN + high);
    for of_volumes in [41, 42, 43].into_iter().chain(HIGH.map(|high| 42 + high)) {
        for len in LENGTHS.into_iter().chain(0..=18 * 14).chain(past) {
            for prices in &both {
                let volumes = &thousands[..of_volumes];
                let number = calls.price(&file, &[0; 3], volumes, Some(&prices[..len]));
                let wanted = match (of_volumes, len) {
                    (42, PRICES_LEN) => ACCEPTED,
                    (42, _) => 28,
                    _ => 16,
                };
                let what = format!("volume file of {of_volumes}, price file of {len} bytes");
                same(number, wanted, &what)?;
            }
        }
    }
    Ok(())
}

/// Rule buffers of the call that takes a job's rule, with work buffers; and of lengths that are taken for the right one
/// where their high bits are lost.
fn rule_buffers(calls: &mut Calls) -> Result<(), String> {
    for job in [pair(), sixteen()] {
        let past = HIGH.map(|high| RULE_LEN + high);
        for rule in LENGTHS.into_iter().chain(past) {
            for work in LENGTHS {
                let number = calls.rule(&job.file(), Ok(&job), work, rule)?;
                let wanted = match rule {
                    _ if work < WORK => 2,
                    RULE_LEN => ACCEPTED,
                    _ => 13,
                };
                let what = format!("rule buffer of {rule} and {work} bytes");
                same(number.min(ACCEPTED), wanted, &what)?;
            }
        }
    }
    Ok(())
}

/// Texts of rule rows, 256 of them, cut short or with rows past the last, with rule buffers; the numbers of rows have
/// spaces or zeros before them.
fn texts_of_rows(calls: &mut Calls) -> Result<(), String> {
    let (given, rows) = most_rows(&mut Random(1));
    let spaced = text(&rows).repeat(9);
    let both = [spaced.clone(), zero_filled(spaced)];
    let around = ROWS_LEN - ROW..=ROWS_LEN + ROW;
    let past = HIGH.map(|high| ROWS_LEN + high);
    for len in LENGTHS.into_iter().chain(around).chain(past) {
        for text in &both {
            for rule in LENGTHS.into_iter().chain(HIGH.map(|high| RULE_LEN + high)) {
                // of most texts the right length of the rule buffer is enough
                if ![0, RULE_LEN, ROWS_LEN].contains(&len) && rule != RULE_LEN {
                    continue;
                }
                let number = calls.rows(&Case {
                    rule_len: rule,
                    ..Case::of_text(given, text[..len].to_vec())
                })?;
                let wanted = match len {
                    _ if rule != RULE_LEN => 13,
                    ROWS_LEN => ACCEPTED,
                    _ if len < ROWS_LEN && len.is_multiple_of(ROW) => 19,
                    _ => 17,
                };
                let what = format!("text of {len}, rule buffer of {rule} bytes");
                same(number, wanted, &what)?;
            }
        }
    }
    Ok(())
}

/// Expressions of a letter and stars, of letters alone, and of a letter in parentheses, of all lengths around the limits,
/// with rule buffers.
fn expressions(calls: &mut Calls) -> Result<(), String> {
    let past = HIGH.map(|high| 1 + high);
    for len in LENGTHS
        .into_iter()
        .chain(1..=EXPRESSION_LEN + 1)
        .chain(past)
    {
        let mut starred = vec![b'*'; len];
        starred.iter_mut().take(1).for_each(|first| *first = b'a');
        let mut deep = vec![b'('; len];
        deep[len / 2..].fill(b')');
        deep.iter_mut()
            .skip(len / 2)
            .take(1)
            .for_each(|middle| *middle = b'a');
        let of_letters = match len {
            1..=14 => ACCEPTED,
            15..=EXPRESSION_LEN => 21,
            _ => 20,
        };
        let is_one = (1..=EXPRESSION_LEN).contains(&len);
        let of_starred = if is_one { ACCEPTED } else { 20 };
        let of_deep = if is_one && len % 2 == 1 { ACCEPTED } else { 20 };
        for (text, wanted) in [
            (starred, of_starred),
            (vec![b'a'; len], of_letters),
            (deep, of_deep),
        ] {
            for rule in LENGTHS.into_iter().chain(HIGH.map(|high| RULE_LEN + high)) {
                // of most texts the right length of the rule buffer is enough
                if ![0, 1, EXPRESSION_LEN].contains(&len) && rule != RULE_LEN {
                    continue;
                }
                let number = calls.expression(&expression::Case {
                    rule_len: rule,
                    ..expression::Case::of(&text, 1)
                })?;
                let wanted = if rule == RULE_LEN { wanted } else { 13 };
                let what = format!("expression of {len}, rule buffer of {rule} bytes");
                same(number.min(ACCEPTED), wanted, &what)?;
            }
        }
    }
    Ok(())
}

/// A file of PAIR, cut short or with bytes past its last line.
fn files(calls: &mut Calls, whole: &[u8]) -> Result<(), String> {
    let around = LONGEST - 1..=LONGEST + 1;
    for len in LENGTHS.into_iter().chain(around).chain(0..=whole.len()) {
        let mut file = whole.to_vec();
        file.resize(len, b'\n');
        let wanted = match len {
            _ if len > LONGEST => 1,
            _ if len > whole.len() => 9,
            _ if len == whole.len() => ACCEPTED,
            _ if len == 0 || whole[len - 1] == b'\n' => 3,
            _ => 4,
        };
        for service in Service::BOTH {
            let number = calls.serve(service, &file, WORK, service.least());
            let number = if number > ACCEPTED { ACCEPTED } else { number };
            same(number, wanted, &format!("{service:?} of {len} bytes"))?;
        }
        let number = calls.check(&file, &[1, 1, 1], WORK);
        same(number, wanted, &format!("check of {len} bytes"))?;
        let job = pair();
        let held = match wanted {
            ACCEPTED => Ok(&job),
            refused => Err(refused),
        };
        let number = calls.rule(&file, held, WORK, RULE_LEN)?;
        same(
            number.min(ACCEPTED),
            wanted,
            &format!("rule of {len} bytes"),
        )?;
        for prices in [None, Some(&prices::house()[..])] {
            let number = calls.price(&file, &[0, 0, 0], &volumes::file(&[1_000; 3]), prices);
            same(number, wanted, &format!("price of {len} bytes"))?;
        }
    }
    Ok(())
}

/// Rules and records of the event step.
fn rules_and_records(calls: &mut Calls) -> Result<(), String> {
    for rule in LENGTHS {
        for record in LENGTHS {
            let (table, mut lent) = (filled(rule, 0), filled(record, 0));
            let number = (CALLS.event)(&table, 16, 16, 0, 15, &mut lent);
            let wanted = match (rule, record) {
                (256, 16) => ACCEPTED,
                (256, _) => 15,
                _ => 13,
            };
            same(
                number,
                wanted,
                &format!("rule of {rule}, record of {record}"),
            )?;
            match number {
                ACCEPTED => calls.tally.quiet += 1,
                _ => calls.tally.add_refused(number, 1),
            }
        }
    }
    Ok(())
}

/// The lists of no edge, of one, of all but one that sixteen nodes can have, and of as many as there can be, each of
/// these lengths and of those around what it need be.
fn lists_of_edges(calls: &mut Calls) -> Result<(), String> {
    let random = &mut Random(1);
    let small = [(1, 0), (1, 1), (16, 255)].map(|sizes| (sizes, &LENGTHS[..]));
    // of long lists the lengths around it are enough
    let large = [(512, 2_047), (512, 2_048)].map(|sizes| (sizes, &[][..]));
    for ((nodes, count), lengths) in small.into_iter().chain(large) {
        let edges = graphs::edges(random, nodes, count);
        let (last, absent) = (edges.last().copied(), graphs::absent(random, nodes, &edges));
        for kind in Kind::ALL {
            let edge = if kind == Kind::Add { absent } else { last };
            let sound = arrivals::Case::of(nodes, &edges, kind.of(edge.unwrap_or((0, 0))));
            let accepted = calls.on_edges(&sound)?;
            for list in 0..3 {
                let needed = sound.lists.all()[list].len();
                let near = needed.saturating_sub(2)..=needed + 1;
                for len in lengths.iter().copied().chain(near) {
                    let number = calls.on_edges(&sound.clone().with_list(list, |_| len))?;
                    let wanted = if len < needed { 22 } else { accepted };
                    let what = format!("{kind:?} at {count} edges, list {list} of {len} numbers");
                    same(number, wanted, &what)?;
                }
            }
        }
    }
    Ok(())
}

/// Calls of the event step with any rule, symbol and record, each beside the second step.
fn events(calls: &mut Calls, random: &mut Random, second: Second) -> Result<(), String> {
    for _ in 0..5_000 {
        let call = Call::any(random);
        let (rule, mut record) = (exact(call.rule()), exact(call.record()));
        let (states, symbols, finals) = (call.states, call.symbols, call.finals);
        let symbol = call.symbol;
        let number = (CALLS.event)(&rule, states, symbols, finals, symbol, &mut record);
        let answer = match number.checked_sub(ACCEPTED) {
            Some(0) => Answer::Quiet,
            Some(1) => Answer::Alarm,
            _ => Answer::Refused(number),
        };
        let mut wanted = exact(call.record());
        let by_second = second.event(&rule, states, symbols, finals, symbol, &mut wanted);
        if (answer, &record) != (by_second, &wanted) {
            return Err(format!(
                "{answer:?} with record {record:?}, and by the second step {by_second:?} with record {wanted:?}; S {states}, A {symbols}, finals {finals:#x}, symbol {symbol}, record {:?}, rule {rule:?}",
                call.record()
            ));
        }
        calls.tally.add_stepped(answer);
    }
    Ok(())
}

#[cfg(test)]
mod tests {
    use super::*;
    use dapohiru_second::step::Slip;

    #[test]
    fn every_slip_of_the_second_step_is_a_difference() {
        let found = |slip| {
            let mut random = Random(1);
            events(&mut Calls::new(1), &mut random, Second { slip })
        };
        assert_eq!(found(None), Ok(()));
        for &slip in Slip::ALL {
            let why = found(Some(slip)).expect_err(&format!("{slip:?}"));
            assert!(why.contains(", and by the second step "), "{why}");
        }
    }
}
