//! Every damage of some kind to small files.
use crate::cases::Case;
use crate::memory::{compare_all, Memory};
use crate::samples::{answer, least, small, spelled};
use dapohiru::Refusal;
use dapohiru_compare::damage;
use dapohiru_compare::memory::Counts;
use dapohiru_second::job::{Line, CALL, REENTRANT};
use dapohiru_second::reading::WORK;

/// Asks that the small files agree under every damage of a kind, and that each of these refusals comes
/// with each of them.
fn agree_with(damage: fn(&[Line]) -> Vec<Vec<u8>>, refusals: &[u64]) {
    for (what, lines) in small() {
        let counts = compare_all(what, damage(&lines));
        counts.came(refusals.iter().copied().map(Some));
    }
}

#[test]
fn cut_at_every_byte_is_refused_as_3_or_4() {
    let mut memory = Memory::new();
    let mut counts = Counts::default();
    let spelled = small().map(|(what, lines)| spelled(&lines).map(|file| (what, file)));
    for (what, whole) in spelled.into_iter().flatten() {
        for cut in 0..whole.len() {
            let (file, past) = whole.split_at(cut);
            let case = Case {
                file: file.to_vec(),
                past: past.to_vec(),
                work_len: WORK,
            };
            let between_lines = file.last().is_none_or(|&byte| byte == b'\n');
            let wanted = Some(if between_lines { 3 } else { 4 });
            assert_eq!(memory.compare(&case), Ok(wanted), "{what} cut at {cut}");
            counts.add(wanted);
        }
    }
    counts.print("cut");
}

#[test]
fn every_byte_replaced_by_any_other_agrees() {
    let all: Vec<u8> = (0..=255).collect();
    for (what, lines) in small() {
        let with = if what == "PAIR" { &all } else { damage::BYTES };
        for file in spelled(&lines) {
            let counts = compare_all(what, damage::bytes_replaced(&file, with));
            counts.came([Some(4), Some(5)]);
        }
    }
}

#[test]
fn bytes_put_in_or_taken_out_agree() {
    for (what, lines) in small() {
        for file in spelled(&lines) {
            let counts = compare_all(what, damage::bytes_moved(&file, damage::BYTES));
            assert_eq!(counts.of(None), 0);
            counts.came([Some(4), Some(9)]);
        }
    }
}

#[test]
fn lines_swapped_doubled_or_missing_agree() {
    agree_with(damage::lines_moved, &[4]);
}

#[test]
fn numbers_at_and_past_every_limit_agree() {
    for (what, lines) in small() {
        let sizes = damage::sizes(&lines);
        let counts = compare_all(what, damage::numbers_replaced(&lines, sizes));
        counts.came([4, 5, 6, 7].map(Some));
        assert!(what == "the least job" || counts.of(Some(8)) > 0);
    }
}

#[test]
fn well_formed_number_is_never_taken_modulo_a_power_of_two() {
    // every number of the file plus a multiple of 256 or 65,536 is refused by its line's number
    let mut files = 0;
    for (what, lines) in small() {
        for line in 0..lines.len() {
            for field in 0..lines[line].numbers.len() {
                let number = lines[line].numbers[field];
                for more in (1..16).map(|k| k * 65_536).chain([256, 512, 1024, 32_768]) {
                    let mut damaged = lines.clone();
                    damaged[line].numbers[field] = number + more;
                    let refused = match (damaged[line].letter, field) {
                        (b'J', 2 | 3) if more < 1024 => continue,
                        (b'J', 3) if number + more <= 2048 => continue,
                        (b'J', _) => 5,
                        (b'R', _) => 6,
                        (b'P', 2 | 5) if more < 4096 => continue,
                        (b'P', _) => 7,
                        _ => 8,
                    };
                    for file in spelled(&damaged) {
                        let answer = answer(&file);
                        assert_eq!(answer, Err(Refusal(refused)), "{what}, {:?}", damaged[line]);
                        files += 1;
                    }
                }
            }
        }
    }
    println!("{files} files");
}

#[test]
fn fields_spelled_otherwise_agree() {
    agree_with(damage::fields_misspelled, &[4]);
}

#[test]
fn line_ends_letters_and_more_bytes_agree() {
    agree_with(damage::shape_changed, &[4, 9]);
}

#[test]
fn every_field_over_six_bytes_agrees() {
    // the value of a call with 16 symbols: 0 to 65,535 are sets, greater numbers are refused as 7
    for kind in [CALL, REENTRANT] {
        let mut job = least();
        job.symbols = 16;
        job.next = vec![vec![0; 16]];
        job.nodes[0].kind = kind;
        let file = job.file();
        let start = file.len() - 25;
        let columns = b" 016:9";
        let files = (0..columns.len().pow(6)).map(|number| {
            let mut file = file.clone();
            let mut left = number;
            for column in &mut file[start..start + 6] {
                *column = columns[left % columns.len()];
                left /= columns.len();
            }
            file
        });
        let counts = compare_all("fields", files);
        counts.came([None, Some(4), Some(7)]);
    }
}
