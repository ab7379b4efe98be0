//! Files with random damage.
use crate::random::Random;
use crate::samples::pair;
use crate::small;
use crate::zeros::{filled, spoil};
use dapohiru_second::job::{spell, Job};
use dapohiru_second::reading;

/// The file of a job in which some line has another number in some field.
fn misnumbered(random: &mut Random, job: &Job) -> Vec<u8> {
    let mut lines = job.lines();
    let line = random.place(lines.len());
    let field = random.place(lines[line].numbers.len());
    let near = lines[line].numbers[field];
    lines[line].numbers[field] =
        random.pick(&[near + 1, near.saturating_sub(1), 0, 1, 2, 16, 999_999]);
    spell(&lines)
}

/// Replaces, puts in or takes out some bytes, or cuts the file.
pub fn damage(random: &mut Random, file: &mut Vec<u8>) {
    for _ in 0..random.between(1, 2) {
        if file.is_empty() {
            return;
        }
        let place = random.place(file.len());
        let byte = random.pick(b"  00112233456789\n\r\tJRPF-+\0\xff");
        match random.below(12) {
            0 => file.truncate(place),
            1 => file.insert(place, byte),
            2 => drop(file.remove(place)),
            _ => file[place] = byte,
        }
    }
}

/// The file of a job with another number in some field, changed in this way, and now and then with other
/// bytes too.
fn damaged_and(
    random: &mut Random,
    job: &Job,
    change: impl FnOnce(&mut Random, Vec<u8>) -> Vec<u8>,
) -> Vec<u8> {
    let file = misnumbered(random, job);
    let mut file = change(random, file);
    if random.once_in(3) {
        damage(random, &mut file);
    }
    file
}

/// The file of a job with another number in some field, without zeros before its numbers, and now and then
/// with other bytes too.
pub fn damaged_without_zeros(random: &mut Random, job: &Job) -> Vec<u8> {
    damaged_and(random, job, |_, file| file)
}

/// The file of a job with another number in some field and with any zeros, now and then with a zero before
/// a space or with other bytes too.
pub fn damaged(random: &mut Random, job: &Job) -> Vec<u8> {
    damaged_and(random, job, |random, file| {
        let mut file = filled(random, file);
        if random.once_in(12) {
            spoil(random, &mut file);
        }
        file
    })
}

/// A damaged file of a small job, and what the second reader says of it.
pub struct Damaged {
    pub file: Vec<u8>,
    /// The refusal, 3 to 10, that it deserves.
    pub unread: Option<u64>,
    /// The job that it spells. One that is refused spells none, and PAIR stands for it.
    pub job: Job,
}

impl Damaged {
    /// A random one.
    pub fn random(random: &mut Random) -> Self {
        let whole = small::job(random);
        let file = damaged(random, &whole);
        let read = reading::job(&file);
        Damaged {
            file,
            unread: read.as_ref().err().copied(),
            job: read.unwrap_or_else(|_| pair()),
        }
    }
}
