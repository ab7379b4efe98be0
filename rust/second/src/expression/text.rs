//! The grammar: parentheses first, and then of each group the choices between its bars, the pieces of each, and their
//! stars.
use crate::slip::Slip;

/// A letter: its symbol, and its place in the text.
#[derive(Clone, Copy, Debug, PartialEq, Eq, PartialOrd, Ord, Hash)]
pub(super) struct Letter {
    pub symbol: u64,
    pub place: usize,
}

/// An expression as it is put together.
#[derive(Clone, Debug)]
pub(super) enum Tree {
    Letter(Letter),
    Following(Vec<Tree>),
    Choice(Vec<Tree>),
    Repeated(Box<Tree>, Times),
}

/// How often a piece with a star may stand: any number of times, but for slips.
#[derive(Clone, Copy, Debug, PartialEq, Eq)]
pub(super) enum Times {
    Any,
    AtLeastOnce,
    AtMostOnce,
}

impl Tree {
    /// Nothing, which only slips accept.
    fn nothing() -> Self {
        Tree::Following(Vec::new())
    }

    /// The letters, in the order of the text.
    pub fn letters(&self) -> Vec<Letter> {
        match self {
            Tree::Letter(letter) => vec![*letter],
            Tree::Following(parts) | Tree::Choice(parts) => {
                parts.iter().flat_map(Tree::letters).collect()
            }
            Tree::Repeated(of, _) => of.letters(),
        }
    }
}

/// A character, or what stands between two parentheses.
#[derive(Clone, Debug)]
enum Sign {
    Letter(Letter),
    Group(Vec<Sign>),
    Star,
    Bar,
}

/// The grammar, with one slip or with none.
#[derive(Clone, Copy)]
pub(super) struct Reading {
    slip: Option<Slip>,
}

impl Reading {
    pub fn of(slip: Option<Slip>) -> Self {
        Reading { slip }
    }

    fn slips(self, slip: Slip) -> bool {
        self.slip == Some(slip)
    }

    /// The expression that a text spells; nothing for a text outside the grammar. A letter of any symbol is one here.
    pub fn tree(self, text: &[u8]) -> Option<Tree> {
        let signs = self.signs(text)?;
        match self.slip {
            Some(Slip::EmptyExpressionAccepted) if text.is_empty() => Some(Tree::nothing()),
            _ => self.group(&signs),
        }
    }

    /// The characters of a text, those between parentheses as one sign.
    fn signs(self, text: &[u8]) -> Option<Vec<Sign>> {
        // what stands between the parentheses that are open, the innermost last
        let mut open = vec![Vec::new()];
        for (place, &byte) in text.iter().enumerate() {
            let byte = match self.slip {
                Some(Slip::HighBitCut) => byte % 128,
                _ => byte,
            };
            let sign = match byte {
                b'(' | b')' if self.slips(Slip::ParenthesesDoNotGroup) => continue,
                b'(' => {
                    open.push(Vec::new());
                    continue;
                }
                b')' => {
                    let inner = open.pop()?;
                    if open.is_empty() {
                        match self.slip {
                            Some(Slip::ClosedWithoutOpenAccepted) => open.push(inner),
                            _ => return None,
                        }
                        continue;
                    }
                    Sign::Group(inner)
                }
                b'*' => Sign::Star,
                b'|' => Sign::Bar,
                b'A'..=b'P' if self.slips(Slip::CapitalsAccepted) => Sign::Letter(Letter {
                    symbol: u64::from(byte - b'A'),
                    place,
                }),
                b'0'..=b'9' if self.slips(Slip::DigitsAccepted) => Sign::Letter(Letter {
                    symbol: u64::from(byte - b'0'),
                    place,
                }),
                b' ' if self.slips(Slip::BlanksSkipped) => continue,
                b'\n' if self.slips(Slip::EndByteAccepted) && place + 1 == text.len() => continue,
                0 if self.slips(Slip::ZeroByteEnds) => break,
                b'+' if self.slips(Slip::PlusForBar) => Sign::Bar,
                b'.' if self.slips(Slip::DotsSkipped) => continue,
                _ if self.slips(Slip::OtherBytesSkipped) && !byte.is_ascii_lowercase() => continue,
                // q is past every A
                b'a'..=b'q' => Sign::Letter(Letter {
                    symbol: u64::from(byte - b'a'),
                    place,
                }),
                _ => return None,
            };
            open.last_mut()?.push(sign);
        }
        while open.len() > 1 && self.slips(Slip::UnclosedAccepted) {
            let inner = open.pop()?;
            open.last_mut()?.push(Sign::Group(inner));
        }
        let all = open.pop()?;
        open.is_empty().then_some(all)
    }

    /// What stands in the whole text or between two parentheses: rows with bars between them.
    fn group(self, signs: &[Sign]) -> Option<Tree> {
        if self.slips(Slip::BarBeforeFollowing) {
            return self.bars_first(signs);
        }
        let mut rows = Vec::new();
        for part in signs.split(|sign| matches!(sign, Sign::Bar)) {
            match part.is_empty() {
                false => rows.push(self.row(part)?),
                true if self.slips(Slip::BarOfNothingAccepted) && !signs.is_empty() => {
                    rows.push(Tree::nothing());
                }
                true => return None,
            }
        }
        Some(Tree::Choice(rows))
    }

    /// A group, taken as pieces that follow one another, of which those with a bar between them are a choice.
    fn bars_first(self, signs: &[Sign]) -> Option<Tree> {
        let mut rows: Vec<Vec<Tree>> = Vec::new();
        let mut after_bar = false;
        for sign in signs {
            match sign {
                Sign::Bar if after_bar || rows.is_empty() => return None,
                Sign::Bar => after_bar = true,
                Sign::Star if after_bar => return None,
                Sign::Star => {
                    let last = rows.last_mut()?;
                    let piece = last.pop()?;
                    last.push(Tree::Repeated(Box::new(piece), Times::Any));
                }
                _ => {
                    let piece = self.atom(sign)?;
                    match rows.last_mut().filter(|_| after_bar) {
                        Some(choice) => choice.push(piece),
                        None => rows.push(vec![piece]),
                    }
                    after_bar = false;
                }
            }
        }
        let whole = !after_bar && !rows.is_empty();
        whole.then(|| Tree::Following(rows.into_iter().map(Tree::Choice).collect()))
    }

    /// A letter, or what stands between two parentheses.
    fn atom(self, sign: &Sign) -> Option<Tree> {
        match sign {
            Sign::Letter(letter) => Some(Tree::Letter(*letter)),
            Sign::Group(inner) if inner.is_empty() => self
                .slips(Slip::EmptyParenthesesAccepted)
                .then(Tree::nothing),
            Sign::Group(inner) => self.group(inner),
            Sign::Star | Sign::Bar => None,
        }
    }

    /// Pieces that follow one another, each a letter or a group with its stars.
    fn row(self, signs: &[Sign]) -> Option<Tree> {
        let mut pieces = Vec::new();
        for (place, sign) in signs.iter().enumerate() {
            if !matches!(sign, Sign::Star) {
                pieces.push(self.atom(sign)?);
                continue;
            }
            let after_star = place > 0 && matches!(signs[place - 1], Sign::Star);
            if after_star && self.slips(Slip::SecondStarRefused) {
                return None;
            }
            if pieces.is_empty() && self.slips(Slip::StarOfNothingAccepted) {
                continue;
            }
            let count = match self.slip {
                Some(Slip::StarOfTwoPieces) => 2,
                Some(Slip::StarOfRow) => pieces.len(),
                _ => 1,
            };
            let starred = pieces.split_off(pieces.len().saturating_sub(count));
            if starred.is_empty() {
                return None;
            }
            pieces.push(self.starred(Tree::Following(starred)));
        }
        Some(Tree::Following(pieces))
    }

    /// What a star makes of a piece.
    fn starred(self, piece: Tree) -> Tree {
        let times = match self.slip {
            Some(Slip::StarAtLeastOnce) => Times::AtLeastOnce,
            Some(Slip::StarAtMostOnce) => Times::AtMostOnce,
            _ => Times::Any,
        };
        Tree::Repeated(Box::new(piece), times)
    }
}
