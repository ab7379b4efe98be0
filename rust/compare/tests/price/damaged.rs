//! Every damage of some kind to small volume files and to price files.
use crate::agreement::Calls;
use crate::samples::{price_samples, samples, volume_samples, Part};
use dapohiru_compare::damage;
use dapohiru_compare::pricing::{refused, Case, Memory};
use dapohiru_compare::wrapper::WRAPPER;
use dapohiru_generators::numbered;
use dapohiru_generators::random::Random;
use dapohiru_generators::sized::Sizes;
use dapohiru_generators::zeros::zero_filled;
use dapohiru_second::job::spell;
use dapohiru_second::pricing::Answer;

#[test]
fn cut_at_every_byte_is_refused_as_16_or_28() {
    let mut memory = Memory::new(WRAPPER);
    let mut cuts = 0;
    for sample in samples() {
        let Case {
            checking, volumes, ..
        } = &sample.case;
        for whole in sample.spelled() {
            for cut in 0..whole.len() {
                // what is cut off stands past the file in memory
                let split = whole.split_at(cut);
                let (volumes, prices) = match sample.part {
                    Part::Volumes => (split, None),
                    Part::Prices => ((&volumes[..], &b""[..]), Some(split)),
                };
                let answer = memory.call_before(&checking.on.file, &checking.plan, volumes, prices);
                let wanted = Answer::Refused(sample.part.kind().refusal);
                assert_eq!(answer, Ok(wanted), "{} at {cut}", sample.what);
                cuts += 1;
            }
        }
    }
    println!("{cuts} cuts");
}

#[test]
fn more_bytes_of_any_kind_are_refused_as_16_or_28() {
    let mut memory = Memory::new(WRAPPER);
    for sample in samples() {
        for whole in sample.spelled() {
            for byte in 0..=255 {
                for more in [1, 2, 14, 28] {
                    sample.is_refused(&mut memory, [&whole[..], &vec![byte; more]].concat());
                }
            }
        }
    }
}

#[test]
fn every_byte_of_the_first_and_the_last_lines_replaced_by_any_other_agrees() {
    let all: Vec<u8> = (0..=255).collect();
    for sample in samples() {
        for file in sample.spelled() {
            // all lines of a volume file, of which the longest has six
            let lines = file.len() / 14;
            let places =
                (0..file.len()).filter(|place| lines <= 6 || [0, 15].contains(&(place / 14)));
            let files = places.flat_map(|place| damage::byte_replaced(&file, place, &all));
            let counts = sample.compare_all(files);
            counts.came(sample.answers());
        }
    }
}

#[test]
fn every_byte_of_a_price_file_replaced_by_many_others_agrees() {
    for sample in price_samples() {
        for file in sample.spelled() {
            let counts = sample.compare_all(damage::bytes_replaced(&file, damage::BYTES));
            counts.came(sample.answers());
        }
    }
}

#[test]
fn bytes_put_in_or_taken_out_are_refused_as_16_or_28() {
    for sample in samples() {
        for file in sample.spelled() {
            let counts = sample.compare_all(damage::bytes_moved(&file, damage::BYTES));
            assert_eq!(counts.of(None), 0);
            counts.came([Some(sample.part.kind().refusal)]);
        }
    }
}

#[test]
fn lines_swapped_doubled_or_missing_agree() {
    for sample in samples() {
        let lines = sample.lines();
        let counts = sample.compare_all(damage::lines_moved(&lines));
        counts.came(sample.answers());
        // the file itself comes once for each line, and every other is refused
        assert_eq!(counts.of(None), 2 * lines.len() as u64, "{}", sample.what);
    }
}

#[test]
fn numbers_at_and_past_every_limit_agree() {
    for sample in samples() {
        let job = &sample.case.checking.job;
        let sizes = Sizes {
            states: job.states() as u64,
            symbols: job.symbols,
            nodes: job.nodes.len() as u64,
            edges: job.edges.len() as u64,
        };
        let counts = sample.compare_all(damage::numbers_replaced(&sample.lines(), sizes));
        counts.came(sample.answers());
    }
}

#[test]
fn place_is_never_taken_modulo_a_power_of_two() {
    let mut memory = Memory::new(WRAPPER);
    let mut files = 0;
    for sample in samples() {
        for line in 0..sample.lines().len() {
            for more in (1..16).map(|k| k * 65_536).chain([256, 512, 1024, 32_768]) {
                let mut lines = sample.lines();
                lines[line].numbers[0] += more;
                for file in [spell(&lines), zero_filled(spell(&lines))] {
                    sample.is_refused(&mut memory, file);
                    files += 1;
                }
            }
        }
    }
    println!("{files} files");
}

#[test]
fn price_above_9999_is_never_cut() {
    let mut memory = Memory::new(WRAPPER);
    for sample in price_samples() {
        for line in 0..sample.lines().len() {
            for price in [
                10_000, 10_001, 16_384, 32_768, 65_535, 65_536, 65_556, 999_999,
            ] {
                let mut lines = sample.lines();
                lines[line].numbers[1] = price;
                sample.is_refused(&mut memory, spell(&lines));
            }
        }
    }
}

#[test]
fn fields_spelled_otherwise_agree() {
    for sample in samples() {
        let counts = sample.compare_all(damage::fields_misspelled(&sample.lines()));
        counts.came(sample.answers());
    }
}

#[test]
fn line_ends_letters_byte_order_marks_and_more_bytes_agree() {
    for sample in samples() {
        let lines = sample.lines();
        let counts = sample.compare_all(damage::shape_changed(&lines));
        counts.came(sample.answers());
        // each line with its own letter is the file itself
        assert_eq!(counts.of(None), 2 * lines.len() as u64, "{}", sample.what);
    }
}

#[test]
fn every_field_over_six_bytes_agrees() {
    let [of_volumes, ..] = volume_samples();
    let [of_prices, ..] = price_samples();
    let columns = b" 015:9";
    for sample in [of_volumes, of_prices] {
        let whole = spell(&sample.lines());
        for first in [1, 7] {
            let files = (0..columns.len().pow(6)).map(|number| {
                let mut file = whole.clone();
                let mut left = number;
                for column in &mut file[first..first + 6] {
                    *column = columns[left % columns.len()];
                    left /= columns.len();
                }
                file
            });
            let counts = sample.compare_all(files);
            counts.came(sample.answers());
        }
    }
}

#[test]
fn random_damage_agrees() {
    const FILES: usize = 7_000;
    let mut random = Random::of_this_run();
    for sample in samples() {
        let mut calls = Calls::new();
        for number in 0..FILES {
            let numbers = sample.any_numbers(&mut random);
            let damaged = numbered::damaged(&mut random, sample.part.kind(), &numbers);
            let case = sample.with(damaged);
            calls.agree(format_args!("{}, file {number}", sample.what), &case);
        }
        calls.counts.print(sample.what);
        for answer in sample.answers() {
            let count = calls.counts.of(answer) as usize;
            assert!(count * 20 > FILES, "{answer:?} is too rare");
        }
    }
}

#[test]
fn every_fault_of_the_generators_is_refused_as_16_or_28() {
    const FILES: usize = 7_000;
    let mut random = Random::of_this_run();
    for sample in samples() {
        let mut calls = Calls::new();
        for number in 0..FILES {
            let numbers = sample.any_numbers(&mut random);
            let damaged = numbered::refused(&mut random, sample.part.kind(), &numbers);
            let case = sample.with(damaged);
            let answer = calls.agree(format_args!("{}, file {number}", sample.what), &case);
            let wanted = Some(sample.part.kind().refusal);
            assert_eq!(refused(answer), wanted, "{}", case.words());
        }
    }
}
