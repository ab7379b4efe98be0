//! How text from outside is shown: names of files, of symbols, nodes and states, words of the command line,
//! and what was found in a file. Nothing of it leaves its line or changes the terminal, and no two texts are
//! shown alike.
use std::ffi::OsStr;
use std::os::unix::ffi::OsStrExt;

/// The characters that stand in two columns (Unicode's East Asian Width W and F, in whole blocks).
const WIDE: [(u32, u32); 13] = [
    (0x1100, 0x115f),
    (0x2e80, 0x303e),
    (0x3041, 0x4dbf),
    (0x4e00, 0xa4cf),
    (0xa960, 0xa97c),
    (0xac00, 0xd7a3),
    (0xf900, 0xfaff),
    (0xfe30, 0xfe6f),
    (0xff01, 0xff60),
    (0xffe0, 0xffe6),
    (0x1f300, 0x1f64f),
    (0x1f900, 0x1f9ff),
    (0x20000, 0x3fffd),
];

/// The name of a file, or a word of the command line.
pub fn name(name: &OsStr) -> String {
    bytes(name.as_bytes())
}

/// Text: control characters, those that change the direction or stand in no cell, and the backslash are
/// escaped; all else is as it is.
pub fn text(text: &str) -> String {
    text.chars().map(letter).collect()
}

/// Bytes as text; those that are no UTF-8 are escaped too.
pub fn bytes(bytes: &[u8]) -> String {
    let mut shown = String::new();
    for chunk in bytes.utf8_chunks() {
        shown += &text(chunk.valid());
        for byte in chunk.invalid() {
            shown += &format!("\\x{byte:02x}");
        }
    }
    shown
}

fn letter(letter: char) -> String {
    match is_plain(letter) {
        true if letter != '\\' => letter.to_string(),
        _ => letter.escape_debug().to_string(),
    }
}

/// Whether a character stands in a cell, or as a combining mark on the one before it.
pub fn is_plain(letter: char) -> bool {
    // after another character `escape_debug` leaves combining marks as they are
    let after = format!("a{letter}");
    matches!(letter, '\'' | '"' | '\\') || after.escape_debug().eq(after.chars())
}

/// The columns of a terminal that a shown text takes.
pub fn width(shown: &str) -> usize {
    shown.chars().map(columns).sum()
}

/// The columns of one character: none for a combining mark.
fn columns(letter: char) -> usize {
    let number = u32::from(letter);
    let is_mark = !letter.is_ascii() && letter.escape_debug().len() > 1;
    match WIDE
        .iter()
        .any(|&(first, last)| (first..=last).contains(&number))
    {
        _ if is_mark => 0,
        true => 2,
        false => 1,
    }
}

#[cfg(test)]
mod tests {
    use super::*;

    #[test]
    fn plain_text_is_shown_as_it_is() {
        for plain in [
            "",
            "pair.job",
            "St John's \"own\" `a`",
            "b\u{fc}ro \u{5c01}\u{5370}",
            "e\u{301}",
        ] {
            assert_eq!(text(plain), plain);
            assert_eq!(bytes(plain.as_bytes()), plain);
            assert_eq!(name(OsStr::new(plain)), plain);
        }
    }

    #[test]
    fn what_leaves_its_line_or_stands_in_no_cell_is_escaped() {
        for (found, shown) in [
            ("a\nb\rc\td", "a\\nb\\rc\\td"),
            ("\x1b]0;title\x07", "\\u{1b}]0;title\\u{7}"),
            ("\0\x7f\u{9b}2J", "\\0\\u{7f}\\u{9b}2J"),
            ("a\u{202e}b\u{2066}c", "a\\u{202e}b\\u{2066}c"),
            ("\u{200b}\u{feff}\u{ad}", "\\u{200b}\\u{feff}\\u{ad}"),
            ("\u{2028}\u{2029}\u{85}", "\\u{2028}\\u{2029}\\u{85}"),
            ("\u{a0}\u{e000}", "\\u{a0}\\u{e000}"),
        ] {
            assert_eq!(text(found), shown);
        }
    }

    #[test]
    fn bytes_that_are_no_text_are_escaped() {
        assert_eq!(bytes(b"a\xffb\xc3"), "a\\xffb\\xc3");
        assert_eq!(bytes(b"\xed\xa0\x80"), "\\xed\\xa0\\x80");
        assert_eq!(name(OsStr::from_bytes(b"\xff.job")), "\\xff.job");
    }

    #[test]
    fn different_bytes_are_shown_differently() {
        let alike: [&[u8]; 4] = [b"\n", b"\\n", b"\\\n", b"\\\\n"];
        let mut shown: Vec<_> = alike.into_iter().map(bytes).collect();
        assert_eq!(shown, ["\\n", "\\\\n", "\\\\\\n", "\\\\\\\\n"]);
        shown.dedup();
        assert_eq!(shown.len(), 4);
        assert_ne!(bytes(b"\xff"), bytes(b"\\xff"));
    }

    #[test]
    fn columns_are_counted() {
        for (shown, columns) in [
            ("", 0),
            ("pair", 4),
            ("e\u{301}", 1),
            ("\u{5c01}\u{5370}", 4),
            ("\u{fc}", 1),
            ("\u{1f600}", 2),
            ("\\'\"", 3),
        ] {
            assert_eq!(width(shown), columns, "{shown}");
        }
    }
}
