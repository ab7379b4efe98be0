//! The rule that an expression makes.

/// The longest text.
const LONGEST: usize = 64;

/// Of a part of the text the letters that its words can begin and end with, by their places, and whether the empty word
/// is one of them.
#[derive(Clone, Copy)]
struct Part {
    first: u64,
    last: u64,
    empty: bool,
}

/// A reader of a text, with what can follow each letter.
struct Reader<'a> {
    text: &'a [u8],
    symbols: u8,
    place: usize,
    follow: [u64; LONGEST],
}

impl Reader<'_> {
    /// The byte that is due; 0 past the end.
    fn due(&self) -> u8 {
        self.text.get(self.place).copied().unwrap_or(0)
    }

    /// Says that `first` can follow each letter of `last`.
    fn join(&mut self, mut last: u64, first: u64) {
        while last != 0 {
            self.follow[last.trailing_zeros() as usize] |= first;
            last &= last - 1;
        }
    }

    fn choice(&mut self) -> Option<Part> {
        let mut part = self.row()?;
        while self.due() == b'|' {
            self.place += 1;
            let other = self.row()?;
            part = Part {
                first: part.first | other.first,
                last: part.last | other.last,
                empty: part.empty || other.empty,
            };
        }
        Some(part)
    }

    fn row(&mut self) -> Option<Part> {
        let mut part = self.piece()?;
        while self.place < self.text.len() && !matches!(self.due(), b'|' | b')') {
            let next = self.piece()?;
            self.join(part.last, next.first);
            part = Part {
                first: part.first | if part.empty { next.first } else { 0 },
                last: next.last | if next.empty { part.last } else { 0 },
                empty: part.empty && next.empty,
            };
        }
        Some(part)
    }

    fn piece(&mut self) -> Option<Part> {
        let byte = self.due();
        let mut part = if byte == b'(' {
            self.place += 1;
            let inner = self.choice()?;
            if self.due() != b')' {
                return None;
            }
            inner
        } else if byte.wrapping_sub(b'a') < self.symbols {
            let letter = 1 << self.place;
            Part {
                first: letter,
                last: letter,
                empty: false,
            }
        } else {
            return None;
        };
        self.place += 1;
        if self.due() == b'*' {
            self.join(part.last, part.first);
            part.empty = true;
            while self.due() == b'*' {
                self.place += 1;
            }
        }
        Some(part)
    }
}

/// Makes a rule from an expression, and gives its states and its final set; or gives the refusal, which leaves `rule` as
/// it was. Sets of letters are bits of a word.
pub fn expression(text: &[u8], symbols: u64, rule: &mut [u8]) -> Result<(u64, u64), u64> {
    if rule.len() != 256 {
        return Err(13);
    }
    if !(1..=16).contains(&symbols) || text.len() > LONGEST {
        return Err(20);
    }
    let mut reader = Reader {
        text,
        symbols: symbols as u8,
        place: 0,
        follow: [0; LONGEST],
    };
    let whole = reader.choice().ok_or(20_u64)?;
    if reader.place < text.len() {
        return Err(20);
    }
    let mut of_symbol = [0; 16];
    for (place, &byte) in text.iter().enumerate() {
        if byte.is_ascii_lowercase() {
            of_symbol[usize::from(byte - b'a')] |= 1 << place;
        }
    }
    let mut table = [0; 256];
    let mut sets = [0_u64; 16];
    let (mut states, mut finals, mut state) = (1, 0, 0);
    let mut follows = whole.first;
    loop {
        for (symbol, &letters) in of_symbol[..symbols as usize].iter().enumerate() {
            let set = follows & letters;
            let known = sets[1..states].iter().position(|&other| other == set);
            let next = match known {
                Some(known) => known + 1,
                None if states == 16 => return Err(21),
                None => {
                    sets[states] = set;
                    finals |= u64::from(set & whole.last != 0) << states;
                    states += 1;
                    states - 1
                }
            };
            table[16 * state + symbol] = next as u8;
        }
        state += 1;
        if state == states {
            break;
        }
        follows = 0;
        let mut set = sets[state];
        while set != 0 {
            follows |= reader.follow[set.trailing_zeros() as usize];
            set &= set - 1;
        }
    }
    rule.copy_from_slice(&table);
    Ok((states as u64, finals))
}
