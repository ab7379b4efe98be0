//! Volume files and price files: refused ones, with the place of the fault and what is expected there.
use crate::program::{example, run_bytes, Done, PAIR, WINDOWS};
use dapohiru_generators::numbered::numbers;
use dapohiru_generators::random::Random;
use dapohiru_second::numbered;

/// A kind of file, and what is said of it.
pub struct Kind {
    pub lined: numbered::Kind,
    /// How many lines it has for PAIR.
    pub lines: usize,
    /// What has a line.
    pub owner: &'static str,
    /// What its number is.
    number: &'static str,
    pub refused: &'static str,
}

/// A refused file, the place of its fault with what stands there, and what is expected; the letter and the
/// words of a kind are left open ([`Kind::told`]).
pub type Wrong<'a> = (String, &'a str, &'a str);

pub const VOLUMES: Kind = Kind {
    lined: numbered::VOLUMES,
    lines: 3,
    owner: "node",
    number: "the events a day",
    refused: "refused 16: the volume file is not exactly one V line for each node, in order",
};
pub const PRICES: Kind = Kind {
    lined: numbered::PRICES,
    lines: 16,
    owner: "symbol",
    number: "the cents per thousand",
    refused: "refused 28: the price file is not exactly one B line for each of the symbols 0 to 15, in order",
};

/// Texts for the second line of a file, each as in [`Wrong`].
const SECOND_LINES: [(&str, &str, &str); 26] = [
    // the letter
    (
        "P     1  1205\n",
        "line 2, column 1: found `P`",
        "the letter @",
    ),
    (
        "b     1  1205\n",
        "line 2, column 1: found `b`",
        "the letter @",
    ),
    (
        "v     1  1205\n",
        "line 2, column 1: found `v`",
        "the letter @",
    ),
    (
        "\n@     1  1205\n",
        "line 2, column 1: found the end of the line",
        "the letter @",
    ),
    // a field that is no number
    (
        "@     1 1,205\n",
        "line 2, columns 8 to 13: found ` 1,205`",
        "NUMBER: FIELD",
    ),
    (
        "@     1 12.05\n",
        "line 2, columns 8 to 13: found ` 12.05`",
        "NUMBER: FIELD",
    ),
    (
        "@     1 -1205\n",
        "line 2, columns 8 to 13: found ` -1205`",
        "NUMBER: FIELD",
    ),
    (
        "@     1      \n",
        "line 2, columns 8 to 13: found `      `",
        "NUMBER: FIELD",
    ),
    (
        "@     11205  \n",
        "line 2, columns 8 to 13: found `1205  `",
        "NUMBER: FIELD",
    ),
    (
        "@     10 1205\n",
        "line 2, columns 8 to 13: found `0 1205`",
        "NUMBER: FIELD",
    ),
    (
        "@   one  1205\n",
        "line 2, columns 2 to 7: found `   one`",
        "the OWNER: FIELD",
    ),
    (
        "@;1;1205\n",
        "line 2, columns 2 to 7: found `;1;120`",
        "the OWNER: FIELD, in a line of FORM; this line has 8",
    ),
    // another node or symbol
    (
        "@     2  1205\n",
        "line 2, columns 2 to 7: found 2",
        "the OWNER, 1 in this line",
    ),
    (
        "@ 65537  1205\n",
        "line 2, columns 2 to 7: found 65537",
        "the OWNER, 1 in this line",
    ),
    (
        "@000000001205\n",
        "line 2, columns 2 to 7: found 0",
        "the OWNER, 1 in this line",
    ),
    // too short, too long, without its end byte
    (
        "@     1 1205\n",
        "line 2, columns 8 to 13: found ` 1205` and then the end of the line",
        "NUMBER: FIELD, in a line of FORM; this line has 12",
    ),
    (
        "@     11000000\n",
        "line 2, column 14: found `0`",
        "END; this line has 14; MOST",
    ),
    (
        "@     1 1000000\n",
        "line 2, column 14: found `0`",
        "END; this line has 15; MOST",
    ),
    (
        "@     1 12345678 \n",
        "line 2, column 14: found `6`",
        "END; this line has 17; MOST",
    ),
    (
        "@     101000000\r\n",
        "line 2, column 14: found `0`",
        "END; this line has 16; MOSTWINDOWS",
    ),
    (
        "@     1   1205\n",
        "line 2, column 14: found `5`",
        "END; this line has 14",
    ),
    (
        "@     1 000999\n",
        "line 2, column 14: found `9`",
        "END; this line has 14",
    ),
    (
        "@     1   999 99999\n",
        "line 2, column 14: found ` `",
        "END; this line has 19",
    ),
    (
        "@     10001205\n",
        "line 2, column 14: found `5`",
        "END; this line has 14",
    ),
    (
        "@     1  1205\r\n",
        "line 2, column 14: found `\\r`",
        "END; this line has 14WINDOWS",
    ),
    (
        "@     1  1205",
        "line 2, column 14: found `@`",
        "END; this line has 26",
    ),
];

impl Kind {
    /// Prices PAIR with a file of this kind, which may be - for standard input.
    pub fn price(&self, plan: &str, name: &str, input: &[u8]) -> Done {
        let (job, volumes) = (example("pair.job"), example("pair.volumes"));
        match self.lined.letter {
            b'V' => run_bytes(&["price", &job, plan, name], input),
            _ => run_bytes(&["price", &job, plan, &volumes, "--prices", name], input),
        }
    }

    /// Any numbers for its lines.
    pub fn numbers(&self, random: &mut Random) -> Vec<u64> {
        numbers(random, self.lined, self.lines)
    }

    /// What is said first of a refused file.
    pub fn refused(&self, name: &str) -> String {
        format!("dapohiru: {name}: {}\n  ", self.refused)
    }

    /// A text with this kind's letter for `@` and its words for those in capitals.
    pub fn told(&self, text: &str) -> String {
        let Kind { lines, number, .. } = self;
        let numbered::Kind { letter, most, .. } = self.lined;
        let words = [
            ("END", "the end of the line (byte 10) after FORM"),
            ("DUE", "a line of the letter @ and 2 fields of six columns, for OWNER"),
            ("FORM", "@ and 2 fields of six columns, 13 columns in all"),
            ("FIELD", "a number in six columns, right-justified, with spaces or zeros before it and no space after a digit"),
            ("NUMBER", &format!("{number}, 0 to {most}")),
            ("MOST", &format!("{number} are at most {most}")),
            ("OWNER", self.owner),
            ("LAST", &(lines - 1).to_string()),
            ("LINES", &lines.to_string()),
            ("NEXT", &(lines + 1).to_string()),
            ("@", &char::from(letter).to_string()),
            ("WINDOWS", WINDOWS),
        ];
        let told = text.to_string();
        words
            .iter()
            .fold(told, |told, (word, words)| told.replace(word, words))
    }

    /// A good file, its letter left open.
    pub fn good(&self) -> String {
        let lines = (0..self.lines).map(|owner| format!("@{owner:>6}  1205\n"));
        lines.collect()
    }

    /// The same with another text for one of its lines.
    pub fn with(&self, line: usize, text: &str) -> String {
        let good = self.good();
        let (before, after) = (&good[..14 * line], &good[14 * (line + 1)..]);
        [before, text, after].concat()
    }

    /// Refused files.
    pub fn wrong(&self) -> Vec<Wrong<'static>> {
        let (good, last) = (self.good(), self.lines - 1);
        let last_line = |text: &str| self.with(last, text);
        let cut = |columns: &str| last_line(&format!("@{last:>6}{columns}"));
        let lines =
            SECOND_LINES.map(|(text, place, expected)| (self.with(1, text), place, expected));
        let files = [
            // the file ends early
            (
                String::new(),
                "line 1, column 1: found the end of the file",
                "DUE 0",
            ),
            (
                last_line(""),
                "line LINES, column 1: found the end of the file",
                "DUE LAST",
            ),
            (
                cut(""),
                "line LINES, columns 8 to 13: found the end of the file",
                "NUMBER: FIELD, in a line of FORM; this line has 7",
            ),
            (
                cut("  118"),
                "line LINES, columns 8 to 13: found `  118` and then the end of the file",
                "NUMBER: FIELD, in a line of FORM; this line has 12",
            ),
            (
                cut("  1180"),
                "line LINES, column 14: found the end of the file",
                "END",
            ),
            // bytes follow
            (
                good.clone() + "\n",
                "line NEXT, column 1: found `\\n`",
                "the end of the file",
            ),
            (
                format!("{good}@{:>6}     0\n", self.lines),
                "line NEXT, column 1: found `@`",
                "the end of the file",
            ),
            (
                good.clone() + "@     0     0\n",
                "line NEXT, column 1: found `@`",
                "the end of the file",
            ),
            // lines out of order
            (
                last_line(&format!("@{:>6}  1180\n", self.lines)),
                "line LINES, columns 2 to 7: found LINES",
                "the OWNER, LAST in this line",
            ),
            (
                good[14..28].to_string() + &good[..14] + &good[28..],
                "line 1, columns 2 to 7: found 1",
                "the OWNER, 0 in this line",
            ),
            // another file, other ends of lines, far too long
            (
                PAIR.to_string(),
                "line 1, column 1: found `J`",
                "the letter @",
            ),
            (
                good.replace('\n', "\r\n"),
                "line 1, column 14: found `\\r`",
                "END; this line has 14WINDOWS",
            ),
            (
                " ".repeat(70_000),
                "line 1, column 1: found ` `",
                "the letter @",
            ),
            (
                format!("@     0  1205{}", "0".repeat(70_000)),
                "line 1, column 14: found `0`",
                "END; this line has more than 1000; MOST",
            ),
            (
                good.repeat(2_000),
                "line NEXT, column 1: found `@`",
                "the end of the file",
            ),
        ];
        lines.into_iter().chain(files).collect()
    }
}
