//! Rule rows (document 02, "Rule rows that offices can edit"): rows that name every pair just once, few and many of
//! them, with what is given with them; ones that name a pair twice or leave one out; texts with a fault or with damage.
use crate::damage::damage;
use crate::faults::{faulty, Fault, Form};
use crate::random::Random;
use crate::zeros::{filled, spoil};
use dapohiru_second::job::Job;
use dapohiru_second::rows::{lines, text, Given, Row, LONGEST, ROW};

/// S, A and a final set: any counts, many of them at a limit.
pub fn given(random: &mut Random) -> Given {
    let mut count = || match random.below(3) {
        0 => random.pick(&[1, 2, 15, 16]),
        1 => random.between(1, 4),
        _ => random.between(1, 16),
    };
    let (states, symbols) = (count(), count());
    Given {
        states,
        symbols,
        finals: random.set(states),
    }
}

/// Rows in any order that name every pair just once: one row for all, one for each pair, or rows of any sizes, of which
/// many have one next state.
pub fn rows(random: &mut Random, given: Given) -> Vec<Row> {
    let (states, symbols) = (given.states as usize, given.symbols as usize);
    let [shape, of_next] = [random.below(6), random.below(4)];
    let mut grown = |most: usize| match shape {
        0 => most,
        1 => 1,
        _ => match random.below(3) {
            0 => most,
            _ => 1 + random.place(most),
        },
    };
    let mut is_named = [[false; 16]; 16];
    let mut rows = Vec::new();
    for state in 0..states {
        for symbol in 0..symbols {
            if is_named[state][symbol] {
                continue;
            }
            // from this pair to the right and then down, over pairs that no row names
            let free = is_named[state][symbol..symbols].iter();
            let width = grown(free.take_while(|named| !**named).count());
            let height = grown(states - state);
            for named in &mut is_named[state..state + height] {
                named[symbol..symbol + width].fill(true);
            }
            rows.push(Row {
                states: [state, state + height - 1].map(|state| state as u64),
                symbols: [symbol, symbol + width - 1].map(|symbol| symbol as u64),
                next: 0,
            });
        }
    }
    let same = random.below(given.states);
    for row in &mut rows {
        row.next = match of_next {
            0 => same,
            _ => random.below(given.states),
        };
    }
    random.shuffle(&mut rows);
    rows
}

/// A row for each pair of sixteen states and symbols: as many as there may be.
pub fn most_rows(random: &mut Random) -> (Given, Vec<Row>) {
    let given = Given {
        states: 16,
        symbols: 16,
        finals: random.set(16),
    };
    let pair = |place: u64| Row {
        states: [place / 16; 2],
        symbols: [place % 16; 2],
        next: random.below(16),
    };
    let mut rows: Vec<_> = (0..256).map(pair).collect();
    if random.once_in(2) {
        random.shuffle(&mut rows);
    }
    (given, rows)
}

/// The rule of a job in rows: one for each run of symbols that a state has one next state on.
pub fn of_rule(job: &Job) -> (Given, Vec<Row>) {
    let mut rows: Vec<Row> = Vec::new();
    for (state, next) in (0..).zip(&job.next) {
        for (symbol, &next) in (0..).zip(next) {
            match rows.last_mut() {
                Some(row) if symbol > 0 && row.next == next => row.symbols[1] = symbol,
                _ => rows.push(Row {
                    states: [state; 2],
                    symbols: [symbol; 2],
                    next,
                }),
            }
        }
    }
    let given = Given {
        states: job.states() as u64,
        symbols: job.symbols,
        finals: job.final_set(),
    };
    (given, rows)
}

/// Has some pairs named twice or more: those of a row, some of them, or the last pair alone, by rows that stand anywhere
/// or right beside it, with the same next state or with another; where there are 256 rows, in the place of another. Asks
/// for a row.
pub fn name_twice(random: &mut Random, given: Given, rows: &mut Vec<Row>) {
    let last = [given.states - 1, given.symbols - 1];
    let names_last = |row: &Row| [row.states[1], row.symbols[1]] == last;
    let of_last = rows.iter().position(names_last);
    let of_last = of_last.filter(|_| random.once_in(3));
    let place = of_last.unwrap_or_else(|| random.place(rows.len()));
    let mut again = rows[place];
    let mut part = |[first, last]: [u64; 2]| {
        let low = random.between(first, last);
        [low, random.between(low, last)]
    };
    let (states, symbols) = (part(again.states), part(again.symbols));
    if of_last.is_some() {
        (again.states, again.symbols) = ([last[0]; 2], [last[1]; 2]);
    } else if random.once_in(2) {
        (again.states, again.symbols) = (states, symbols);
    }
    if random.once_in(2) {
        again.next = random.below(given.states);
    }
    let most = LONGEST / ROW;
    if rows.len() == most {
        let other = (place + 1 + random.place(rows.len() - 1)) % rows.len();
        rows[other] = again;
        return;
    }
    let copies = random.pick(&[1, 1, 1, 2, 2, 3]);
    for _ in 0..copies.min(most - rows.len()) {
        let beside = place + random.place(2);
        let anywhere = random.place(rows.len() + 1);
        rows.insert(random.pick(&[beside, anywhere]), again);
    }
}

/// Has some pairs named by no row: a row goes, or ends before its last state or symbol. At least a row is left, where
/// there are two pairs.
pub fn leave_out(random: &mut Random, rows: &mut Vec<Row>) {
    let place = random.place(rows.len());
    let ([first, last], [low, high]) = (rows[place].states, rows[place].symbols);
    match random.below(4) {
        0 if first < last => rows[place].states[1] -= 1,
        1 if low < high => rows[place].symbols[1] -= 1,
        2 if first < last => rows[place].states[0] += 1,
        _ if rows.len() > 1 => drop(rows.remove(place)),
        _ if first < last => rows[place].states[1] = first,
        _ if low < high => rows[place].symbols[0] = high,
        _ => rows.clear(),
    }
}

/// S, A or a final state outside its limits; among them numbers that are taken for right ones where high bits are lost.
pub fn wrong_given(random: &mut Random, given: Given) -> Given {
    let Given {
        states, symbols, ..
    } = given;
    let mut wrong = given;
    let mut count = |right: u64| {
        let high = right + (1 << random.pick(&[8, 16, 32, 63]));
        random.pick(&[0, 17, 17, 255, high, high, high, u64::MAX])
    };
    let (no_states, no_symbols) = (count(states), count(symbols));
    match random.below(4) {
        0 => wrong.states = no_states,
        1 => wrong.symbols = no_symbols,
        _ => {
            let bit = random.pick(&[states, states, 15, 16, 31, 32, 63]);
            wrong.finals |= 1 << bit.max(states);
        }
    }
    wrong
}

/// A text like the one of these rows, with any zeros and one fault. Asks for a row.
pub fn refused(random: &mut Random, given: Given, rows: &[Row]) -> Vec<u8> {
    let place = random.place(rows.len());
    let lines = lines(rows);
    let fault = match random.below(12) {
        0 => return lengthened(random, rows),
        1 => Fault::Follow(random.pick(&[&b"\n"[..], b"0", b"Q", b"Q     0     0", b"\0"])),
        2 | 3 => Fault::Form(place, random.pick(&Form::ALL)),
        4 | 5 => return respelled(random, rows, place),
        6 => return with_empty_row(random, given, rows),
        _ => number_fault(random, given, rows, place),
    };
    let text = faulty(&lines, &[fault]);
    filled(random, text)
}

/// A number of a row outside its limits, or a first above its last.
fn number_fault(random: &mut Random, given: Given, rows: &[Row], place: usize) -> Fault {
    let Row {
        states: [first, last],
        symbols: [low, high],
        next,
    } = rows[place];
    let numbers = [first, last, low, high, next];
    let limits = [
        given.states,
        given.states,
        given.symbols,
        given.symbols,
        given.states,
    ];
    let field = random.place(5);
    let past = limits[field];
    let lost = numbers[field] + random.pick(&[256, 65_536]);
    match field {
        0 if random.once_in(3) => Fault::Number(place, 0, last + 1),
        2 if random.once_in(3) => Fault::Number(place, 2, high + 1),
        _ => Fault::Number(
            place,
            field,
            random.pick(&[past, past, lost, lost, 999_999]),
        ),
    }
}

/// The text with a row more that would name no pair: a first is above its last, and where there are two states or
/// symbols both are within their limits.
fn with_empty_row(random: &mut Random, given: Given, rows: &[Row]) -> Vec<u8> {
    let mut rows = rows.to_vec();
    let mut row = rows[random.place(rows.len())];
    match random.below(2) {
        0 if given.states > 1 => row.states = [given.states - 1, 0],
        _ if given.symbols > 1 => row.symbols = [given.symbols - 1, 0],
        _ => row.states = [1, 0],
    }
    if random.once_in(3) {
        // in the place of a row
        rows.pop();
    }
    rows.insert(random.place(rows.len() + 1), row);
    filled(random, text(&rows))
}

/// The text longer than any may be: by a byte, by a row, by rows of any count, or by 65,536 bytes.
fn lengthened(random: &mut Random, rows: &[Row]) -> Vec<u8> {
    let sound = text(rows);
    let mut longer = sound.clone();
    let len = match random.below(4) {
        0 => LONGEST + 1,
        1 => LONGEST + ROW,
        2 => LONGEST + ROW * (1 + random.place(300)),
        _ => sound.len() + 65_536,
    };
    while longer.len() < len {
        longer.extend(&sound);
    }
    longer.truncate(len);
    filled(random, longer)
}

/// The text with one row spelled as another program would: with CR before its end byte, a small letter, a tab, no
/// number, an empty line before it, or without the text's last end byte.
fn respelled(random: &mut Random, rows: &[Row], place: usize) -> Vec<u8> {
    let mut spelled = filled(random, text(rows));
    let start = ROW * place;
    match random.below(6) {
        0 => spelled.insert(start + ROW - 1, b'\r'),
        1 => spelled[start] = b'q',
        2 => spelled[start + 1 + 6 * random.place(5)] = b'\t',
        3 => {
            let field = start + 1 + 6 * random.place(5);
            spelled[field..field + 6].fill(b' ');
        }
        4 => spelled.insert(start, b'\n'),
        _ => drop(spelled.pop()),
    }
    spelled
}

/// A text like the one of these rows, with any zeros and with other bytes, which it may be sound with.
pub fn damaged(random: &mut Random, rows: &[Row]) -> Vec<u8> {
    let mut damaged = filled(random, text(rows));
    match random.below(6) {
        0 => spoil(random, &mut damaged),
        _ => damage(random, &mut damaged),
    }
    damaged
}

/// A text like the one of these rows, with any zeros and one byte that could be taken for the right one: in the place of
/// a letter, of an end byte, of a number's last digit or of what is before it, or past the end.
pub fn misread(random: &mut Random, rows: &[Row]) -> Vec<u8> {
    let mut misread = filled(random, text(rows));
    let start = ROW * random.place(rows.len());
    let digit = start + 6 * (1 + random.place(5));
    let (place, taken): (usize, &[u8]) = match random.below(6) {
        0 => (start, b"qRPO\0"),
        1 => (start + ROW - 1, b"\r\x0b\x0c\x1a\x85\0 "),
        2 | 3 => (digit, b"/:;<=>?ABCDEFabcdefO "),
        4 => (digit - 1, b"\t--+_"),
        _ => {
            misread.push(random.pick(b"\n\x0c\x1a\0 Q"));
            return misread;
        }
    };
    misread[place] = match random.below(4) {
        0 => misread[place] ^ 0x80,
        1 => random.below(256) as u8,
        _ => random.pick(taken),
    };
    misread
}
