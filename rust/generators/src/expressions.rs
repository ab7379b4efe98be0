//! Expressions (document 02, "Rules as expressions"): random ones and ones at the limits, with few and with many states;
//! texts outside the grammar, too long or damaged; and the A that is given with them.
use crate::random::Random;
use dapohiru_second::expression::LONGEST;

/// What an officer could ask for: a seals, b reopens, c writes.
pub const SEALED: &[u8] = b"a(a|c)*c";
/// The characters of an expression that are no letters.
const SIGNS: &[u8] = b"*|()";

/// A: any count, many of them at a limit.
pub fn symbols(random: &mut Random) -> u64 {
    match random.below(3) {
        0 => random.pick(&[1, 2, 15, 16]),
        1 => random.between(1, 4),
        _ => random.between(1, 16),
    }
}

/// A letter below A: any, or one of the lowest two or the highest, so that the same come again.
fn letter(random: &mut Random, symbols: u64) -> u8 {
    let any = random.below(symbols);
    let few = random.below(symbols.min(2));
    b'a' + random.pick(&[any, few, few, symbols - 1]) as u8
}

/// Spells an expression with so many letters.
fn spell(random: &mut Random, symbols: u64, letters: usize, text: &mut Vec<u8>) {
    if letters == 1 {
        text.push(letter(random, symbols));
    } else {
        let first = 1 + random.place(letters - 1);
        for (count, is_last) in [(first, false), (letters - first, true)] {
            let is_group = random.once_in(3);
            text.extend(is_group.then_some(b'('));
            spell(random, symbols, count, text);
            text.extend(is_group.then_some(b')'));
            stars(random, text);
            if !is_last && random.once_in(3) {
                text.push(b'|');
            }
        }
    }
}

/// No star, one, or now and then two or three.
fn stars(random: &mut Random, text: &mut Vec<u8>) {
    let count = random.pick(&[0, 0, 0, 0, 0, 1, 1, 1, 2, 3]);
    text.extend(vec![b'*'; count]);
}

/// A piece that comes many times, all of them in a row or in a choice, and another at the end: starred letters and
/// groups, and choices of the same letter up to thirteen times, so that many letters make few states.
fn wide(random: &mut Random, symbols: u64) -> Vec<u8> {
    let [same, other] = [(); 2].map(|()| letter(random, symbols));
    let piece = match random.below(6) {
        0 => vec![same, b'*'],
        1 => vec![b'(', same, b'|', other, b')', b'*'],
        2 => vec![same, b'|'],
        _ => {
            let count = random.pick(&[2, 3, 7, 13]);
            [&vec![same; count][..], b"|"].concat()
        }
    };
    let last = match random.below(4) {
        0 => vec![other],
        1 => vec![other, b'*'],
        2 => vec![same, other],
        _ => vec![same; 13],
    };
    let room = (LONGEST - 3 - last.len()) / piece.len();
    let any = 1 + random.place(room);
    let count = random.pick(&[any, room]);
    let mut text = piece.repeat(count);
    if piece[0] == same && random.once_in(2) {
        // a letter of its own in each piece
        for place in (0..text.len()).step_by(piece.len()) {
            text[place] = letter(random, symbols);
        }
    }
    text.extend(last);
    match random.once_in(3) {
        true => [b"(", &text[..], b")*"].concat(),
        false => text,
    }
}

/// A sound text of at most 64 characters for so many symbols. Most have few states.
pub fn sound(random: &mut Random, symbols: u64) -> Vec<u8> {
    let most = random.pick(&[2, 4, 6, 9, 14, 30]);
    loop {
        let mut text = Vec::new();
        if random.once_in(6) {
            text = wide(random, symbols);
        } else {
            let letters = random.between(1, most) as usize;
            spell(random, symbols, letters, &mut text);
        }
        stars(random, &mut text);
        if random.once_in(8) {
            deepen(random, &mut text);
        }
        if random.once_in(12) {
            text.resize(text.len().max(LONGEST), b'*');
        }
        if text.len() <= LONGEST {
            return text;
        }
    }
}

/// Puts parentheses around a text, as many as there is room for or fewer.
fn deepen(random: &mut Random, text: &mut Vec<u8>) {
    let room = LONGEST.saturating_sub(text.len()) / 2;
    let count = random.pick(&[1, 2, room]).min(room);
    text.splice(..0, vec![b'('; count]);
    text.extend(vec![b')'; count]);
}

/// A text of about 16 states or of more: of 13 to 60 letters that follow one another, or, where there are two symbols, of
/// a letter with choices after it.
pub fn many_states(random: &mut Random, symbols: u64) -> Vec<u8> {
    if symbols > 1 && random.once_in(2) {
        // the state tells what some events before was
        let either: &[u8] = if symbols > 2 { b"(a|b|c)" } else { b"(a|b)" };
        let ago = random.between(1, 7) as usize;
        return [either, b"*a", &either.repeat(ago)].concat();
    }
    let count = random.pick(&[13, 14, 15, 15, 16, 17, 20, 40, 60]);
    let same = letter(random, symbols);
    let mut text: Vec<u8> = match random.below(2) {
        0 => vec![same; count],
        _ => (0..count).map(|_| letter(random, symbols)).collect(),
    };
    if random.once_in(3) {
        text = [b"(", &text[..], b")*"].concat();
    }
    text
}

/// An A outside its limits; among them numbers that are taken for right ones where high bits are lost.
pub fn wrong_symbols(random: &mut Random, symbols: u64) -> u64 {
    let any = symbols + (1 << random.between(4, 63));
    let high = symbols + (1 << random.pick(&[8, 16, 32, 63]));
    random.pick(&[0, 17, 17, 255, any, any, high, high, u64::MAX])
}

/// A text like this one that is outside the grammar, too long, or has a letter past A.
pub fn refused(random: &mut Random, symbols: u64, sound: &[u8]) -> Vec<u8> {
    let mut text = sound.to_vec();
    let place = random.place(text.len() + 1);
    let mut put = |part: &[u8]| drop(text.splice(place..place, part.iter().copied()));
    match random.below(10) {
        0 => return Vec::new(),
        1 => put(b"()"),
        2 => put(random.pick(&[b"(", b")"])),
        3 => put(b"(|a)"),
        4 => put(b"(*a)"),
        5 => put(b"(a|)"),
        6 => return edge(random, sound),
        7 => return lengthened(random, sound),
        8 => return with_letter_past(random, symbols, sound),
        _ => put(&[other_byte(random)]),
    }
    if text.len() > LONGEST {
        text = random
            .pick(&[&b"()"[..], b"a(", b"a)", b"(|a)", b"(*a)"])
            .to_vec();
    }
    text
}

/// The text with a star or bar at its start, or a bar at its end.
fn edge(random: &mut Random, sound: &[u8]) -> Vec<u8> {
    let (before, after) = random.pick(&[(&b"*"[..], &b""[..]), (b"|", b""), (b"", b"|")]);
    [before, &sound[..sound.len().min(LONGEST - 1)], after].concat()
}

/// A byte that is no character of an expression; among them those that could be taken for one.
pub fn other_byte(random: &mut Random) -> u8 {
    let taken = random.pick(b"ABCP 0123.+?\n\r\t\0[]{}");
    let high = 0x80 | random.pick(b"abcp*|()");
    let any = random.below(256) as u8;
    match random.pick(&[taken, taken, high, any]) {
        byte if is_character(byte) => b'q',
        byte => byte,
    }
}

/// Whether a byte is a character of an expression.
fn is_character(byte: u8) -> bool {
    SIGNS.contains(&byte) || (b'a'..=b'p').contains(&byte)
}

/// The text longer than any may be, and sound but for its length: by a star or more, so that there are 65 characters; or
/// by as many as are lost with the high bits of a length.
pub fn lengthened(random: &mut Random, sound: &[u8]) -> Vec<u8> {
    let len = match random.below(4) {
        0 | 1 => LONGEST + 1,
        2 => sound.len() + 256,
        _ => sound.len() + 65_536,
    };
    let mut text = sound.to_vec();
    text.resize(len, b'*');
    text
}

/// The text with a letter past A at the place of another, or past the end.
pub fn with_letter_past(random: &mut Random, symbols: u64, sound: &[u8]) -> Vec<u8> {
    let past = b'a' + random.between(symbols, 16) as u8;
    let past = random.pick(&[b'a' + symbols as u8, past]);
    let mut text = sound.to_vec();
    let letters: Vec<_> = (0..text.len())
        .filter(|&place| text[place].is_ascii_lowercase())
        .collect();
    match letters.is_empty() {
        false => text[random.pick(&letters)] = past,
        true => text = vec![past],
    }
    text
}

/// The text with some of its bytes changed, put in or taken out, which it may be sound with.
pub fn damaged(random: &mut Random, symbols: u64, sound: &[u8]) -> Vec<u8> {
    let mut text = sound.to_vec();
    for _ in 0..random.pick(&[1, 1, 2, 3]) {
        let letter = letter(random, symbols);
        let byte = match random.below(8) {
            0 => other_byte(random),
            1 | 2 => letter,
            _ => random.pick(SIGNS),
        };
        let place = random.place(text.len() + 1);
        match random.below(4) {
            0 => text.insert(place, byte),
            1 if place < text.len() => drop(text.remove(place)),
            2 if place + 1 < text.len() => text.swap(place, place + 1),
            _ if place < text.len() => text[place] = byte,
            _ => text.push(byte),
        }
    }
    text
}

/// A text that could be taken for a sound one: with one byte that is taken for a character or skipped, with one
/// parenthesis less, or with a byte past its end.
pub fn misread(random: &mut Random, sound: &[u8]) -> Vec<u8> {
    let mut text = sound.to_vec();
    let place = random.place(text.len());
    let (last, after) = (text.len() - 1, random.place(text.len() + 1));
    match random.below(6) {
        0 => text[place] ^= 0x80,
        1 => text[place] ^= 0x20,
        2 => text.insert(after, random.pick(b" .\t\0\n")),
        3 => text.push(random.pick(b"\n\r\0 ")),
        4 if text[last] == b')' => drop(text.pop()),
        _ => {
            let bars: Vec<_> = (0..text.len()).filter(|&p| text[p] == b'|').collect();
            match bars.is_empty() {
                false => text[random.pick(&bars)] = b'+',
                true => text.insert(after, b'+'),
            }
        }
    }
    text
}

/// Some events below A: any, or mostly those that could go on with a word of this text.
pub fn events(random: &mut Random, symbols: u64, text: &[u8], count: usize) -> Vec<u64> {
    let letters: Vec<_> = text
        .iter()
        .filter(|byte| byte.is_ascii_lowercase())
        .collect();
    let mut event = |_| match letters.is_empty() || random.once_in(8) {
        true => random.below(symbols),
        false => u64::from(random.pick(&letters) - b'a'),
    };
    (0..count).map(&mut event).collect()
}
