//! JSON, as it is printed.
use crate::shown;
use std::ffi::OsStr;
use std::fmt::{self, Display, Formatter, Write};
use std::os::unix::ffi::OsStrExt;

/// A value.
#[derive(Clone, Debug, PartialEq, Eq)]
pub enum Json {
    Bool(bool),
    Number(u64),
    Text(String),
    List(Vec<Json>),
    Object(Vec<(&'static str, Json)>),
}

impl Json {
    /// Text.
    pub fn text(text: impl Into<String>) -> Self {
        Json::Text(text.into())
    }

    /// A count, or the number of a node, symbol or state.
    pub fn number(number: usize) -> Self {
        Json::Number(number as u64)
    }

    /// The name of a file: text, or where it is no UTF-8 an object with its bytes.
    pub fn name(name: &OsStr) -> Self {
        let byte = |&byte| Json::Number(u64::from(byte));
        match name.to_str() {
            Some(text) => Json::text(text),
            None => {
                let bytes = name.as_bytes().iter().map(byte).collect();
                Json::Object(vec![("bytes", Json::List(bytes))])
            }
        }
    }
}

/// A document of these fields, as a line.
pub fn document(fields: Vec<(&'static str, Json)>) -> String {
    format!("{}\n", Json::Object(fields))
}

impl Display for Json {
    /// All of it on one line.
    fn fmt(&self, out: &mut Formatter) -> fmt::Result {
        match self {
            Json::Bool(value) => write!(out, "{value}"),
            Json::Number(number) => write!(out, "{number}"),
            Json::Text(text) => quoted(out, text),
            Json::List(values) => {
                out.write_char('[')?;
                for (place, value) in values.iter().enumerate() {
                    let comma = if place == 0 { "" } else { "," };
                    write!(out, "{comma}{value}")?;
                }
                out.write_char(']')
            }
            Json::Object(fields) => {
                out.write_char('{')?;
                for (place, (key, value)) in fields.iter().enumerate() {
                    let comma = if place == 0 { "" } else { "," };
                    write!(out, "{comma}\"{key}\":{value}")?;
                }
                out.write_char('}')
            }
        }
    }
}

/// Text in quotes; what a terminal would not show as a character is escaped.
fn quoted(out: &mut Formatter, text: &str) -> fmt::Result {
    out.write_char('"')?;
    for letter in text.chars() {
        match letter {
            '"' | '\\' => write!(out, "\\{letter}")?,
            '\n' => out.write_str("\\n")?,
            '\r' => out.write_str("\\r")?,
            '\t' => out.write_str("\\t")?,
            _ if shown::is_plain(letter) => out.write_char(letter)?,
            _ => {
                for unit in letter.encode_utf16(&mut [0; 2]) {
                    write!(out, "\\u{unit:04x}")?;
                }
            }
        }
    }
    out.write_char('"')
}

#[cfg(test)]
mod tests {
    use super::*;

    #[test]
    fn values_are_printed_on_one_line() {
        let value = Json::Object(vec![
            ("job", Json::text("a \"b\"\n")),
            (
                "points",
                Json::List(vec![Json::number(0), Json::Number(u64::MAX)]),
            ),
            ("none", Json::List(Vec::new())),
            ("empty", Json::Object(Vec::new())),
            ("nop", Json::Bool(true)),
        ]);
        assert_eq!(
            value.to_string(),
            "{\"job\":\"a \\\"b\\\"\\n\",\"points\":[0,18446744073709551615],\"none\":[],\"empty\":{},\"nop\":true}"
        );
    }

    #[test]
    fn text_is_escaped() {
        for (text, printed) in [
            ("b\u{fc}ro \u{5c01}", "\"b\u{fc}ro \u{5c01}\""),
            ("\\n'`/", "\"\\\\n'`/\""),
            (
                "\r\t\0\x1b]0;\x07\x7f",
                "\"\\r\\t\\u0000\\u001b]0;\\u0007\\u007f\"",
            ),
            ("\u{202e}\u{2028}\u{9b}", "\"\\u202e\\u2028\\u009b\""),
            ("\u{e0001}", "\"\\udb40\\udc01\""),
        ] {
            assert_eq!(Json::text(text).to_string(), printed);
        }
    }

    #[test]
    fn name_that_is_no_text_is_told_by_its_bytes() {
        assert_eq!(Json::name(OsStr::new("a\\xff")).to_string(), "\"a\\\\xff\"");
        let name = OsStr::from_bytes(b"a\xff");
        assert_eq!(Json::name(name).to_string(), "{\"bytes\":[97,255]}");
    }
}
