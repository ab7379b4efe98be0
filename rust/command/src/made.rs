//! A rule that `rule` has made, in the form that is asked for, and the refusal of one.
use crate::args::Given;
use crate::automaton::Automaton;
use crate::dot::{Drawer, Picture};
use crate::json::{self, Json};
use crate::names::Names;
use crate::{diagram, output, shown, terminal};
use dapohiru::Rule;
use std::ffi::OsStr;
use std::io;
use std::os::unix::ffi::OsStrExt;

/// The options for a form, without which there are R lines.
pub const FORMS: &[&str] = &["--table", "--json", "--dot", "--svg", "--png"];

/// How pictures are asked for.
const DRAWER: Drawer = Drawer {
    command: "rule",
    as_text: |_| "--dot prints the graph as text".to_string(),
};

/// What a rule is printed as.
pub enum Form {
    Lines,
    Table,
    Json,
    Dot,
    Picture(Picture),
}

impl Form {
    /// The form that is asked for; it goes to this file or to standard output.
    pub fn asked(given: &Given, to: Option<&OsStr>) -> Result<Self, String> {
        let picture = DRAWER.asked(given, to)?;
        let asked: Vec<_> = FORMS.iter().filter(|flag| given.has(flag)).collect();
        match (&asked[..], picture) {
            ([one, other, ..], _) => {
                Err(format!("rule: {one} and {other} are two forms, take one"))
            }
            (_, Some(picture)) => Ok(Form::Picture(picture)),
            ([&"--table"], _) => Ok(Form::Table),
            ([&"--json"], _) => Ok(Form::Json),
            ([&"--dot"], _) => Ok(Form::Dot),
            _ => Ok(Form::Lines),
        }
    }
}

/// What a rule is made of, and what the forms say of that.
#[derive(Default)]
pub struct Origin {
    /// The first fields of a document.
    fields: Vec<(&'static str, Json)>,
    /// Lines above a table.
    above: String,
    /// A line below it.
    below: &'static str,
    /// What is noted where it stands in no table or document.
    note: String,
    /// What is noted beside every form.
    beside: &'static str,
}

impl Origin {
    /// Rows of this file.
    pub fn rows(name: &OsStr) -> Self {
        Origin {
            fields: vec![("rows", Json::name(name))],
            ..Origin::default()
        }
    }

    /// An expression as it was typed.
    pub fn expression(typed: &[u8]) -> Self {
        Origin {
            fields: vec![("expression", Json::name(OsStr::from_bytes(typed)))],
            above: format!("expression: {}\n", shown::bytes(typed)),
            below: "State 0 is where walks begin: no event has come yet.\n",
            ..Origin::default()
        }
    }

    /// The same with the letters that stand for its names; where they are what was typed nothing is noted.
    pub fn with_letters(mut self, typed: &[u8], letters: &[u8]) -> Self {
        let shown = shown::bytes(letters);
        if typed != letters {
            self.above += &format!("in letters: {shown}\n");
            self.note = format!("note: the expression in letters is {shown}\n");
        }
        self.fields.push(("letters", Json::text(shown)));
        self
    }

    /// The same with names that states have, which is noted: those of another rule would mislead.
    pub fn with_states_of(mut self, names: &Names) -> Self {
        if names.has_states() {
            self.beside = "note: the names of states in the file of --names are put, by their numbers, on the states of \
                           the expression's rule\n";
        }
        self
    }

    /// Writes the rule, and gives the exit status.
    pub fn deliver(
        self,
        given: &Given,
        form: &Form,
        rule: &Rule,
        names: &Names,
    ) -> Result<u8, String> {
        let to = output::named(given.value("-o"));
        let automaton = Automaton::from(rule);
        let mut note = self.note;
        let bytes = match form {
            Form::Lines => automaton.lines(),
            Form::Table => {
                note.clear();
                let room = match to {
                    Some(_) => None,
                    None => terminal::columns(&io::stdout()),
                };
                let between = if self.above.is_empty() { "" } else { "\n" };
                let table = automaton.table(names, room);
                [&self.above, between, &table, self.below]
                    .concat()
                    .into_bytes()
            }
            Form::Json => {
                note.clear();
                let mut fields = self.fields;
                fields.extend(automaton.json());
                fields.extend(
                    given
                        .value("--names")
                        .map(|_| ("names", names.json_of_rule())),
                );
                json::document(fields).into_bytes()
            }
            Form::Dot => diagram::drawn(&automaton, names).into_bytes(),
            Form::Picture(picture) => picture.of(diagram::drawn(&automaton, names))?,
        };
        output::deliver(to, &bytes)?;
        note += self.beside;
        if !automaton.alarms() {
            note += "note: no state is final (--finals), so the rule raises no alarm\n";
        }
        match note.is_empty() {
            true => Ok(0),
            false => output::note(&note).map(|()| 0),
        }
    }

    /// Prints a refusal where the form has one, and gives what is said of it.
    pub fn refused(mut self, form: &Form, (refused, text): (Json, String)) -> String {
        match form {
            Form::Json => {
                self.fields.push(("refused", refused));
                output::refused(&json::document(self.fields), text)
            }
            _ => text,
        }
    }
}
