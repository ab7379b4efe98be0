//! Terms and their derivatives: what must follow a letter for the whole to be a word. Terms that are alike are one.
use super::text::{Letter, Times, Tree};
use std::collections::HashMap;

/// A term, by its number.
pub(super) type Id = usize;

/// The term without a word, and the one whose only word is empty.
pub(super) const NO_WORD: Id = 0;
const EMPTY_WORD: Id = 1;

/// A term over others.
#[derive(Clone, PartialEq, Eq, Hash)]
enum Term {
    NoWord,
    EmptyWord,
    Letter(Letter),
    Then(Id, Id),
    /// Two or more, in order, each once.
    Either(Vec<Id>),
    Star(Id),
}

/// All terms so far, and their derivatives by letters.
pub(super) struct Terms {
    all: Vec<Term>,
    known: HashMap<Term, Id>,
    derived: HashMap<(Id, Letter), Id>,
}

impl Default for Terms {
    fn default() -> Self {
        let mut terms = Terms {
            all: Vec::new(),
            known: HashMap::new(),
            derived: HashMap::new(),
        };
        terms.id(Term::NoWord);
        terms.id(Term::EmptyWord);
        terms
    }
}

impl Terms {
    /// The number of a term.
    fn id(&mut self, term: Term) -> Id {
        let next = self.all.len();
        let id = *self.known.entry(term.clone()).or_insert(next);
        if id == next {
            self.all.push(term);
        }
        id
    }

    /// The words of both, one after the other. What follows on twice is put together from the right.
    fn then(&mut self, first: Id, second: Id) -> Id {
        match (first, second) {
            (NO_WORD, _) | (_, NO_WORD) => NO_WORD,
            (EMPTY_WORD, other) | (other, EMPTY_WORD) => other,
            _ => match self.all[first] {
                Term::Then(of_first, middle) => {
                    let rest = self.then(middle, second);
                    self.then(of_first, rest)
                }
                _ => self.id(Term::Then(first, second)),
            },
        }
    }

    /// The words of each.
    fn either(&mut self, of: &[Id]) -> Id {
        let mut all = Vec::new();
        for &id in of {
            match &self.all[id] {
                Term::NoWord => {}
                Term::Either(parts) => all.extend(parts),
                _ => all.push(id),
            }
        }
        all.sort_unstable();
        all.dedup();
        match all[..] {
            [] => NO_WORD,
            [one] => one,
            _ => self.id(Term::Either(all)),
        }
    }

    /// Any number of words, one after the other.
    fn star(&mut self, of: Id) -> Id {
        match self.all[of] {
            Term::NoWord | Term::EmptyWord => EMPTY_WORD,
            Term::Star(_) => of,
            _ => self.id(Term::Star(of)),
        }
    }

    /// The term of an expression, each letter with its place.
    pub fn marked(&mut self, tree: &Tree) -> Id {
        self.of(tree, |letter| letter)
    }

    /// The term of an expression, its letters without their places.
    pub fn unmarked(&mut self, tree: &Tree) -> Id {
        self.of(tree, |letter| Letter { place: 0, ..letter })
    }

    fn of(&mut self, tree: &Tree, name: fn(Letter) -> Letter) -> Id {
        match tree {
            Tree::Letter(letter) => self.id(Term::Letter(name(*letter))),
            Tree::Following(parts) => {
                let mut whole = EMPTY_WORD;
                for part in parts.iter().rev() {
                    let part = self.of(part, name);
                    whole = self.then(part, whole);
                }
                whole
            }
            Tree::Choice(parts) => {
                let parts: Vec<_> = parts.iter().map(|part| self.of(part, name)).collect();
                self.either(&parts)
            }
            Tree::Repeated(of, times) => {
                let once = self.of(of, name);
                match times {
                    Times::Any => self.star(once),
                    Times::AtLeastOnce => {
                        let more = self.star(once);
                        self.then(once, more)
                    }
                    Times::AtMostOnce => self.either(&[once, EMPTY_WORD]),
                }
            }
        }
    }

    /// Whether the empty word is one of a term's.
    pub fn has_empty_word(&self, id: Id) -> bool {
        match &self.all[id] {
            Term::NoWord | Term::Letter(_) => false,
            Term::EmptyWord | Term::Star(_) => true,
            Term::Then(first, second) => {
                self.has_empty_word(*first) && self.has_empty_word(*second)
            }
            Term::Either(parts) => parts.iter().any(|&part| self.has_empty_word(part)),
        }
    }

    /// The term whose words are what follows this letter in words that begin with it. It is `NO_WORD` where there are
    /// none.
    pub fn by(&mut self, id: Id, letter: Letter) -> Id {
        if let Some(&known) = self.derived.get(&(id, letter)) {
            return known;
        }
        let derived = match self.all[id].clone() {
            Term::NoWord | Term::EmptyWord => NO_WORD,
            Term::Letter(other) if other == letter => EMPTY_WORD,
            Term::Letter(_) => NO_WORD,
            Term::Then(first, second) => {
                let of_first = self.by(first, letter);
                let begun = self.then(of_first, second);
                match self.has_empty_word(first) {
                    true => {
                        let passed = self.by(second, letter);
                        self.either(&[begun, passed])
                    }
                    false => begun,
                }
            }
            Term::Either(parts) => {
                let parts: Vec<_> = parts.iter().map(|&part| self.by(part, letter)).collect();
                self.either(&parts)
            }
            Term::Star(of) => {
                let of = self.by(of, letter);
                self.then(of, id)
            }
        };
        self.derived.insert((id, letter), derived);
        derived
    }

    /// The same by the letter of a symbol, of a term without places.
    pub fn by_symbol(&mut self, id: Id, symbol: u64) -> Id {
        self.by(id, Letter { symbol, place: 0 })
    }
}
