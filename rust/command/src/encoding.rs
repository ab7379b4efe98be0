//! How a text was written, where no input of this program is written so: what it has, and how it is mended.
use crate::lines::Line;

/// What a byte order mark is called.
pub const MARK: &str = "a byte order mark";

/// Whether a text begins with a byte order mark, of UTF-8 or of UTF-16.
pub fn is_marked(text: &[u8]) -> bool {
    matches!(
        text,
        [0xef, 0xbb, 0xbf, ..] | [0xff, 0xfe, ..] | [0xfe, 0xff, ..]
    )
}

/// What the characters of a text have that are no plain bytes, and what writes them anew.
type Characters = (&'static str, &'static str);

/// UTF-16, with what writes it anew.
const fn wide(from: &'static str) -> Option<Characters> {
    Some(("UTF-16 characters", from))
}

/// UTF-16 whose first character may be a mark.
const WIDE: Option<Characters> = wide("iconv -f UTF-16 -t UTF-8");

/// What the characters of a text have, if they are not plain bytes.
fn characters(text: &[u8]) -> Option<Characters> {
    match text {
        [0xef, 0xbb, 0xbf, ..] => Some((MARK, "tail -c +4")),
        [0xff, 0xfe, ..] | [0xfe, 0xff, ..] => WIDE,
        [1..=255, 0, ..] if are_mostly(text, |pair| pair[1] == 0) => {
            wide("iconv -f UTF-16LE -t UTF-8")
        }
        [0, 1..=255, ..] if are_mostly(text, |pair| pair[0] == 0) => {
            wide("iconv -f UTF-16BE -t UTF-8")
        }
        _ => None,
    }
}

/// Whether half of the pairs of bytes are such, or more.
fn are_mostly(text: &[u8], is_such: impl Fn(&[u8]) -> bool) -> bool {
    let pairs = text.chunks_exact(2);
    let count = pairs.len();
    2 * pairs.filter(|pair| is_such(pair)).count() >= count
}

/// Whether a character has two bytes.
fn is_wide(characters: Option<Characters>) -> bool {
    characters.is_some_and(|(_, from)| from.starts_with("iconv"))
}

/// How lines end.
#[derive(Clone, Copy)]
enum Ends {
    /// By byte 10 alone, as far as is seen.
    Plain,
    /// By a carriage return before it.
    Windows,
    /// By a carriage return in its place.
    Returns,
}

/// What a file has that no input has, with the command that mends it.
pub fn hint(text: &[u8]) -> Option<String> {
    let characters = characters(text);
    let has_return = text.contains(&b'\r');
    let ends = match text.contains(&b'\n') {
        false if has_return => Ends::Returns,
        // where characters have two bytes the one after it stands between
        true if has_return && is_wide(characters) => Ends::Windows,
        true if text.windows(2).any(|pair| pair == b"\r\n") => Ends::Windows,
        true if text.ends_with(b"\r") => Ends::Windows,
        _ => Ends::Plain,
    };
    mended(characters, ends)
}

/// What is added to a message about a file: nothing, or a line with the hint.
pub fn told(text: &[u8]) -> String {
    line(hint(text).as_ref())
}

/// The line with a hint, if there is one.
pub fn line(hint: Option<&String>) -> String {
    let hint = hint.map(|hint| format!("\n  the file has {hint}"));
    hint.unwrap_or_default()
}

/// What is seen of an input that comes line by line.
#[derive(Default)]
pub struct Seen {
    /// Whether there was a line that is not empty.
    any: bool,
    /// The characters of two bytes that it has shown.
    wide: Option<Characters>,
}

impl Seen {
    /// The hint for a line of this number, with its end or without.
    pub fn hint(&mut self, line: &Line, number: u64, is_ended: bool) -> Option<String> {
        let characters = self.characters(&line.bytes, number);
        let returns = line.bytes.iter().filter(|&&byte| byte == b'\r').count();
        let at_end = line.last == Some(b'\r');
        let is_windows = at_end || (returns > 0 && is_wide(characters));
        let ends = match is_ended {
            true if is_windows => Ends::Windows,
            // the input was cut within the end of a line
            false if number > 1 && returns <= 1 && is_windows => Ends::Windows,
            false if returns > 0 || at_end => Ends::Returns,
            _ => Ends::Plain,
        };
        mended(characters, ends)
    }

    /// What the characters of a line have. Without a mark the first line of the input alone shows in what order their
    /// bytes stand, and lines after a plain one are plain.
    fn characters(&mut self, line: &[u8], number: u64) -> Option<Characters> {
        let is_first = !self.any;
        self.any |= !line.is_empty();
        let zeros = || line.iter().filter(|&&byte| byte == 0).count();
        let looks_wide = || line.contains(&0) && 2 * zeros() + 1 >= line.len();
        let found = match is_first {
            _ if is_marked(line) => characters(line),
            true if number == 1 => characters(line),
            true if looks_wide() => WIDE,
            false if self.wide.is_some() && looks_wide() => self.wide,
            _ => None,
        };
        if is_wide(found) {
            self.wide = found;
        }
        found
    }
}

/// What is found, with the command that mends it.
fn mended(characters: Option<Characters>, ends: Ends) -> Option<String> {
    let ends = match ends {
        Ends::Plain => None,
        Ends::Windows => Some(("Windows line ends", r"tr -d '\r'")),
        Ends::Returns => Some(("carriage returns as line ends", r"tr '\r' '\n'")),
    };
    let (found, mend) = match (characters, ends) {
        (None, None) => return None,
        (Some((found, mend)), None) | (None, Some((found, mend))) => {
            (found.to_string(), format!("{mend} < FILE > NEW"))
        }
        (Some((found, from)), Some((ends, to))) => (
            format!("{found} and {ends}"),
            format!("{from} < FILE | {to} > NEW"),
        ),
    };
    Some(format!("{found}, mended by `{mend}`"))
}

#[cfg(test)]
mod tests {
    use super::*;

    /// A text in UTF-16, the low byte of each character first or last.
    fn in_utf_16(text: &str, low_first: bool) -> Vec<u8> {
        let bytes = |unit: u16| match low_first {
            true => unit.to_le_bytes(),
            false => unit.to_be_bytes(),
        };
        text.encode_utf16().flat_map(bytes).collect()
    }

    #[test]
    fn plain_text_has_no_hint() {
        for text in [
            &b""[..],
            b"011\n",
            b"J     3\n",
            b"a\rb\n",
            b"\0",
            b"\0\0\0\0",
        ] {
            assert_eq!(hint(text), None, "{}", text.escape_ascii());
        }
    }

    #[test]
    fn windows_line_ends_marks_and_utf_16_are_told_with_their_mend() {
        let wide_marked = |low_first| in_utf_16("\u{feff}011\r\n", low_first);
        for (text, wanted) in [
            (
                b"011\r\n".to_vec(),
                r"Windows line ends, mended by `tr -d '\r' < FILE > NEW`",
            ),
            (
                b"011\r\n011\r".to_vec(),
                r"Windows line ends, mended by `tr -d '\r' < FILE > NEW`",
            ),
            (
                in_utf_16("011\r", true),
                r"UTF-16 characters and carriage returns as line ends, mended by `iconv -f UTF-16LE -t UTF-8 < FILE | tr '\r' '\n' > NEW`",
            ),
            (
                "\u{feff}011\n".into(),
                "a byte order mark, mended by `tail -c +4 < FILE > NEW`",
            ),
            (
                "\u{feff}011\r\n".into(),
                r"a byte order mark and Windows line ends, mended by `tail -c +4 < FILE | tr -d '\r' > NEW`",
            ),
            (
                in_utf_16("011\n", true),
                "UTF-16 characters, mended by `iconv -f UTF-16LE -t UTF-8 < FILE > NEW`",
            ),
            (
                in_utf_16("011\n", false),
                "UTF-16 characters, mended by `iconv -f UTF-16BE -t UTF-8 < FILE > NEW`",
            ),
            (
                wide_marked(true),
                r"UTF-16 characters and Windows line ends, mended by `iconv -f UTF-16 -t UTF-8 < FILE | tr -d '\r' > NEW`",
            ),
            (
                wide_marked(false),
                r"UTF-16 characters and Windows line ends, mended by `iconv -f UTF-16 -t UTF-8 < FILE | tr -d '\r' > NEW`",
            ),
        ] {
            assert_eq!(hint(&text).as_deref(), Some(wanted));
        }
    }

    /// What is told of the lines of an input, the last without its end if it is not empty.
    fn told_of_lines(text: &[u8]) -> Vec<Option<String>> {
        let mut seen = Seen::default();
        let lines: Vec<_> = text.split(|&byte| byte == b'\n').collect();
        let hint = |(place, line): (usize, &&[u8])| {
            let (bytes, last) = (line.to_vec(), line.last().copied());
            let is_ended = place + 1 < lines.len();
            seen.hint(&Line { bytes, last }, place as u64 + 1, is_ended)
        };
        lines.iter().enumerate().map(hint).collect()
    }

    #[test]
    fn lines_of_wide_characters_keep_what_the_first_has_shown() {
        for (low_first, order) in [(true, "UTF-16LE"), (false, "UTF-16BE")] {
            let ends = r"-t UTF-8 < FILE | tr -d '\r' > NEW`";
            let told = Some(format!(
                "UTF-16 characters and Windows line ends, mended by `iconv -f {order} {ends}"
            ));
            let hints = told_of_lines(&in_utf_16("0\r\n1\r\n=12\r\n", low_first));
            assert_eq!(hints[..3], [told.clone(), told.clone(), told]);
        }
        let hints = told_of_lines("0\n\u{feff}0\n1\n".as_bytes());
        let mend = "a byte order mark, mended by `tail -c +4 < FILE > NEW`";
        assert_eq!(hints, [None, Some(mend.to_string()), None, None]);
    }

    #[test]
    fn stray_zero_byte_is_no_wide_character() {
        for text in [&b"0\n1\0\n\x002\n"[..], b"0\x001234\n", b"\0J    3\n"] {
            assert!(told_of_lines(text).iter().all(Option::is_none));
        }
        for text in [&b"0\x001234\n"[..], b"J\0    3\n", b"\0J    3\n"] {
            assert_eq!(hint(text), None);
        }
    }

    #[test]
    fn carriage_returns_alone_are_told_as_line_ends() {
        let told = Some(
            r"carriage returns as line ends, mended by `tr '\r' '\n' < FILE > NEW`".to_string(),
        );
        for text in [&b"0\r1\r2\r"[..], b"0\r1\r2", b"0\r"] {
            assert_eq!(hint(text), told);
            assert_eq!(told_of_lines(text), std::slice::from_ref(&told));
        }
        assert_eq!(told_of_lines(b"0\n1\r2\r")[1], told);
        let windows = Some(r"Windows line ends, mended by `tr -d '\r' < FILE > NEW`".to_string());
        assert_eq!(told_of_lines(b"0\r\n1\r"), [windows.clone(), windows]);
    }
}
