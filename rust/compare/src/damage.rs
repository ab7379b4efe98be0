//! Damaged files: every damage of some kind to one file.
use dapohiru_generators::sized::Sizes;
use dapohiru_second::job::{spell, Line};
use std::ops::Range;
use std::slice::from_ref;

/// Bytes that stand next to those of a file, or are taken for them by mistake.
pub const BYTES: &[u8] = b" 012349:/\t\r\n\0-+.,aJRPFVBjrpfvb\x0b\x7f\x80\xa0\xb0\xff";

/// The columns of a field in the line that starts at this byte.
pub fn columns(start: usize, field: usize) -> Range<usize> {
    start + 1 + 6 * field..start + 7 + 6 * field
}

/// Numbers at and past every limit of a file with these sizes, and those that lose high bits.
pub fn numbers_near(number: u64, sizes: Sizes) -> Vec<u64> {
    let limits = [
        0, 1, 2, 3, 4, 5, 15, 16, 17, 127, 128, 255, 256, 511, 512, 513, 2047, 2048, 2049, 9_999,
        10_000, 32_767, 32_768, 65_535, 65_536, 99_999, 131_071, 131_072, 524_288, 999_999,
    ];
    let mut near = vec![number.saturating_sub(1), number, number + 1];
    let Sizes {
        states,
        symbols,
        nodes,
        edges,
    } = sizes;
    for count in [states, symbols] {
        near.extend([
            1 << count.min(17),
            (1 << count.min(17)) - 1,
            1 << (count.min(17) + 1),
        ]);
    }
    for count in [states, symbols, nodes, edges] {
        near.extend([count.saturating_sub(1), count, count + 1]);
    }
    let mut wrapped = Vec::new();
    for low in near.iter().chain(&[number]) {
        wrapped.extend([256, 512, 65_536, 131_072].map(|high| high + low));
    }
    near.extend(wrapped);
    near.extend(limits);
    near.retain(|&number| number <= 999_999);
    near.sort_unstable();
    near.dedup();
    near
}

/// The sizes that the J line of these lines says.
pub fn sizes(lines: &[Line]) -> Sizes {
    match lines[0].numbers[..] {
        [states, symbols, nodes, edges] => Sizes {
            states,
            symbols,
            nodes,
            edges,
        },
        _ => unreachable!("a J line has four fields"),
    }
}

/// The byte at this place replaced by each of these.
pub fn byte_replaced(file: &[u8], place: usize, with: &[u8]) -> Vec<Vec<u8>> {
    let others = with.iter().filter(|&&byte| byte != file[place]);
    let files = others.map(|&byte| {
        let mut damaged = file.to_vec();
        damaged[place] = byte;
        damaged
    });
    files.collect()
}

/// Each byte replaced by each of these.
pub fn bytes_replaced(file: &[u8], with: &[u8]) -> Vec<Vec<u8>> {
    let places = 0..file.len();
    places
        .flat_map(|place| byte_replaced(file, place, with))
        .collect()
}

/// Each of these bytes put in at each place, the end too; and each byte taken out.
pub fn bytes_moved(file: &[u8], with: &[u8]) -> Vec<Vec<u8>> {
    let mut files = Vec::new();
    for place in 0..=file.len() {
        for &byte in with {
            let mut damaged = file.to_vec();
            damaged.insert(place, byte);
            files.push(damaged);
        }
    }
    for place in 0..file.len() {
        let mut damaged = file.to_vec();
        damaged.remove(place);
        files.push(damaged);
    }
    files
}

/// Lines swapped, doubled, doubled elsewhere, and missing, one or two of them.
pub fn lines_moved(lines: &[Line]) -> Vec<Vec<u8>> {
    let mut files = Vec::new();
    for first in 0..lines.len() {
        for second in 0..lines.len() {
            let mut swapped = lines.to_vec();
            swapped.swap(first, second);
            files.push(spell(&swapped));
            let mut doubled = lines.to_vec();
            doubled.insert(second, lines[first].clone());
            files.push(spell(&doubled));
            let mut missing = lines.to_vec();
            missing.remove(first.max(second));
            if first != second {
                missing.remove(first.min(second));
            }
            files.push(spell(&missing));
        }
    }
    files
}

/// Each number replaced by those near it and near every limit of a file with these sizes.
pub fn numbers_replaced(lines: &[Line], sizes: Sizes) -> Vec<Vec<u8>> {
    let mut files = Vec::new();
    for line in 0..lines.len() {
        for field in 0..lines[line].numbers.len() {
            for number in numbers_near(lines[line].numbers[field], sizes) {
                let mut damaged = lines.to_vec();
                damaged[line].numbers[field] = number;
                files.push(spell(&damaged));
            }
        }
    }
    files
}

/// Other ways to spell a number in a field: with zeros in front, which is a field too where it has six
/// columns; with spaces after zeros, not right-justified, empty, signed, with tabs, as octal or hexadecimal,
/// with a point, or in another width.
pub fn misspelled(number: u64) -> [String; 36] {
    [
        format!("{number:06}"),
        format!("{number:05}"),
        format!("{number:07}"),
        format!("{number:012}"),
        format!(" {number:06}"),
        format!("{:>6}", format!("0{number}")),
        format!("{:>6}", format!("00{number}")),
        format!("0{number:>5}"),
        format!("00{number:>4}"),
        format!("0 0{number:>3}"),
        format!("{:>6}", format!("0 {number}")),
        format!("{:>6}", format!("00 0{number}")),
        format!("{number:05} "),
        format!("{:>6}", format!("-0{number}")),
        format!("0{number:\t>5}"),
        format!("0{number:\0>5}"),
        format!("{number:<6}"),
        format!("{number:^6}"),
        format!("{number:>5} "),
        format!("{number:>5}\0"),
        format!("{number:\0>6}"),
        format!("{number:\t>6}"),
        format!("\t{number:>5}"),
        format!("{:>6}", format!("+{number}")),
        format!("{:>6}", format!("-{number}")),
        format!("+{number:>5}"),
        format!("{:>6}", format!("{number}.")),
        format!("{:>6}", format!("0x{number:x}")),
        format!("{:>6}", format!("0o{number:o}")),
        format!("{:>6}", format!("{number} {number}")),
        "      ".to_string(),
        "     -".to_string(),
        "\r\n\r\n\r\n".to_string(),
        format!("\n{number:>5}"),
        format!("{number:>5}"),
        format!("{number:>7}"),
    ]
}

/// Every choice of a space or a zero in the five columns before each number of one digit, and whether the field is one:
/// spaces and then zeros.
pub fn leads_replaced(file: &[u8]) -> Vec<(Vec<u8>, bool)> {
    let mut files = Vec::new();
    let columns = (0..file.len()).filter(|&place| file[place..].starts_with(b"     "));
    for first in columns {
        for choice in 0..32_u8 {
            let column = |column: u8| b" 0"[usize::from(choice >> column & 1)];
            let lead: Vec<_> = (0..5).map(column).collect();
            let mut other = file.to_vec();
            other[first..first + 5].copy_from_slice(&lead);
            files.push((other, lead.is_sorted()));
        }
    }
    files
}

/// Each field spelled in other ways.
pub fn fields_misspelled(lines: &[Line]) -> Vec<Vec<u8>> {
    let mut files = Vec::new();
    for line in 0..lines.len() {
        let start = spell(&lines[..line]).len();
        for (field, &number) in lines[line].numbers.iter().enumerate() {
            let columns = columns(start, field);
            for way in misspelled(number) {
                let mut damaged = spell(lines);
                damaged.splice(columns.clone(), way.bytes());
                files.push(damaged);
            }
        }
    }
    files
}

/// Other line ends and letters, one field more or fewer, and more bytes at the end and at the start, a byte order
/// mark among them.
pub fn shape_changed(lines: &[Line]) -> Vec<Vec<u8>> {
    let whole = spell(lines);
    let mut files = Vec::new();
    let ends: [&[u8]; 10] = [
        b"\r\n",
        b"\n\r",
        b"\r",
        b"\n\n",
        b" \n",
        b"\t\n",
        b"\0\n",
        b"\0",
        b"",
        b"     0\n",
    ];
    for end in ends {
        let mut all = Vec::new();
        for line in 0..lines.len() {
            let start = spell(&lines[..line]).len();
            let stop = spell(&lines[..=line]).len();
            let mut damaged = whole.clone();
            damaged.splice(stop - 1..stop, end.iter().copied());
            files.push(damaged);
            all.extend(&whole[start..stop - 1]);
            all.extend(end);
        }
        files.push(all);
    }
    for line in 0..lines.len() {
        let mut fewer = lines.to_vec();
        fewer[line].numbers.pop();
        files.push(spell(&fewer));
        for number in [0, 1, 999_999] {
            let mut more = lines.to_vec();
            more[line].numbers.push(number);
            files.push(spell(&more));
        }
        for letter in 0..=255 {
            let mut other = lines.to_vec();
            other[line].letter = letter;
            files.push(spell(&other));
        }
    }
    let more = (0..=255).map(|byte| vec![byte]);
    let more = more.chain(lines.iter().map(|line| spell(from_ref(line))));
    let marks = [&b"\n\n"[..], b"\r\n", b"\xef\xbb\xbf"].map(<[u8]>::to_vec);
    for bytes in more.chain(marks).chain([whole.clone()]) {
        files.push([&whole[..], &bytes].concat());
        files.push([&bytes[..], &whole].concat());
    }
    files
}
