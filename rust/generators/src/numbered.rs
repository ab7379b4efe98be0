//! Files of numbered lines (document 02): with any zeros before their numbers, with a fault, or with damage.
use crate::damage::damage;
use crate::faults::{faulty, lengthen, Fault, Form};
use crate::random::Random;
use crate::zeros::{filled, spoil};
use crate::{prices, volumes};
use dapohiru_second::job::spell;
use dapohiru_second::numbered::Kind;

/// The greatest number that a field can hold.
const MOST_IN_FIELD: u64 = 999_999;

/// Any numbers for a volume file of so many lines, or for a price file.
pub fn numbers(random: &mut Random, kind: Kind, lines: usize) -> Vec<u64> {
    match kind.letter {
        b'V' => volumes::events(random, lines),
        _ => prices::cents(random).to_vec(),
    }
}

/// The file of numbers, with any zeros.
pub fn any(random: &mut Random, kind: Kind, numbers: &[u64]) -> Vec<u8> {
    filled(random, kind.file(numbers))
}

/// A file like the one of these numbers, with any zeros and one fault: it is not exactly these lines.
pub fn refused(random: &mut Random, kind: Kind, numbers: &[u64]) -> Vec<u8> {
    let mut lines = kind.lines(numbers);
    let (count, place) = (lines.len(), random.place(lines.len()));
    match random.below(12) {
        0 => lines.push(kind.line(count, 0)),
        1 => lines.push(kind.line(0, 0)),
        2 if count > 1 => lines.swap(place, (place + 1 + random.place(count - 1)) % count),
        3 => {
            let mut file = any(random, kind, numbers);
            file.pop();
            return file;
        }
        // longer than any job file, now and then
        4 if random.once_in(2) => {
            let mut file = any(random, kind, numbers);
            lengthen(random, &mut file);
            return file;
        }
        _ => {
            let fault = fault(random, kind, place, count);
            return filled(random, faulty(&lines, &[fault]));
        }
    }
    filled(random, spell(&lines))
}

/// A fault of the line of this place of so many, or of the file's end.
fn fault(random: &mut Random, kind: Kind, place: usize, count: usize) -> Fault {
    let named = place as u64;
    let other = [
        named + 1,
        named + 256,
        named + 65_536,
        MOST_IN_FIELD - named,
    ];
    match random.below(8) {
        0 => Fault::Ends(place),
        1 => Fault::Ends(count - 1),
        2 => Fault::Follow(random.pick(&[b"\n", b"0", b"V", b"B", b"\0"])),
        3 | 4 if kind.most < MOST_IN_FIELD => {
            let above = [kind.most + 1, kind.most + 1, 65_536, MOST_IN_FIELD];
            Fault::Number(place, 1, random.pick(&above))
        }
        5 | 6 => Fault::Number(place, 0, random.pick(&other)),
        _ => Fault::Form(place, random.pick(&Form::ALL)),
    }
}

/// A file like the one of these numbers, with any zeros and with other bytes, which it may be sound with.
pub fn damaged(random: &mut Random, kind: Kind, numbers: &[u64]) -> Vec<u8> {
    let mut file = any(random, kind, numbers);
    match random.below(6) {
        0 => spoil(random, &mut file),
        _ => damage(random, &mut file),
    }
    file
}

/// A number up to one of these, of which the last is the greatest that there may be; one in three is at a limit.
pub fn near_limits(random: &mut Random, tops: &[u64]) -> u64 {
    if random.once_in(3) {
        return random.pick(&[0, 1, tops[tops.len() - 1]]);
    }
    let top = random.pick(tops);
    random.between(0, top)
}
