//! Zeros in the fields of a file, in the place of spaces: before a number, where they change nothing, and
//! before a space, where they spoil the field.
use crate::random::Random;
use std::ops::Range;

/// For each field of a file the columns before its number, spaces and then zeros. After the first byte of a
/// line every six columns are one, if they have its form; other bytes are in none.
fn leads(file: &[u8]) -> Vec<Range<usize>> {
    let mut leads = Vec::new();
    let mut start = 0;
    for line in file.split_inclusive(|&byte| byte == b'\n') {
        for (field, columns) in line[1..].chunks_exact(6).enumerate() {
            let spaces = columns.iter().take_while(|&&byte| byte == b' ').count();
            let digits = &columns[spaces..];
            if digits.is_empty() || !digits.iter().all(u8::is_ascii_digit) {
                continue;
            }
            // the last digit is the number's own, also of zeros alone
            let zeros = digits[..digits.len() - 1].iter();
            let zeros = zeros.take_while(|&&digit| digit == b'0').count();
            let first = start + 1 + 6 * field;
            leads.push(first..first + spaces + zeros);
        }
        start += line.len();
    }
    leads
}

/// The same file with so many zeros before each number as the function says of the count of columns there.
/// Whatever is wrong with the file, it deserves the answer that it deserved.
fn with_zeros(mut file: Vec<u8>, mut zeros: impl FnMut(usize) -> usize) -> Vec<u8> {
    for lead in leads(&file) {
        let (spaces, zeros) = file[lead.clone()].split_at_mut(lead.len() - zeros(lead.len()));
        spaces.fill(b' ');
        zeros.fill(b'0');
    }
    file
}

/// The same file with any zeros before its numbers: one in four as it is, one in four with zeros for all
/// spaces; of the others some fields have no zeros, some no spaces, and some spaces and then zeros.
pub fn filled(random: &mut Random, file: Vec<u8>) -> Vec<u8> {
    match random.below(4) {
        0 => file,
        1 => zero_filled(file),
        _ => with_zeros(file, |columns| match random.below(3) {
            0 => 0,
            1 => columns,
            _ => random.between(0, columns as u64) as usize,
        }),
    }
}

/// The same file with zeros for all spaces before its numbers, as spreadsheets write it.
pub fn zero_filled(file: Vec<u8>) -> Vec<u8> {
    with_zeros(file, |columns| columns)
}

/// The same file with spaces for all zeros before its numbers, as it is written.
pub fn spaced(file: Vec<u8>) -> Vec<u8> {
    with_zeros(file, |_| 0)
}

/// The file with spaces before its numbers, with zeros, and with any of both.
pub fn alike(random: &mut Random, file: &[u8]) -> [Vec<u8>; 3] {
    let without = spaced(file.to_vec());
    let some = filled(random, without.clone());
    [without.clone(), zero_filled(without), some]
}

/// Spoils a field, if one has two columns or more before its number: there a zero stands before a space, as
/// in `0   12`, `0 0  1` and `00 012`.
pub fn spoil(random: &mut Random, file: &mut [u8]) {
    let mut leads = leads(file);
    leads.retain(|lead| lead.len() > 1);
    if leads.is_empty() {
        return;
    }
    let lead = &mut file[leads.swap_remove(random.place(leads.len()))];
    lead.fill_with(|| random.pick(b" 0"));
    let zero = random.place(lead.len() - 1);
    lead[zero] = b'0';
    lead[zero + 1 + random.place(lead.len() - 1 - zero)] = b' ';
}
