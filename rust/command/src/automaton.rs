//! A rule as it is printed: R lines, a table or a document.
use crate::json::Json;
use crate::names::Names;
use crate::table::{self, Side};
use dapohiru::Rule;
use dapohiru_second::job::{members, spell, Line};

/// A rule: the next states of each state, and the final ones.
pub struct Automaton {
    /// For each state the next state on each symbol.
    pub next: Vec<Vec<usize>>,
    /// The set of final states: bit q stands for state q.
    finals: u64,
}

impl From<&Rule> for Automaton {
    fn from(rule: &Rule) -> Self {
        let (states, symbols) = (rule.states as usize, rule.symbols as usize);
        let next = |row: &[u8]| row[..symbols].iter().copied().map(usize::from).collect();
        Automaton {
            next: rule.table.chunks_exact(16).take(states).map(next).collect(),
            finals: rule.finals,
        }
    }
}

impl Automaton {
    /// Whether a state is final.
    pub fn is_final(&self, state: usize) -> bool {
        self.finals >> state & 1 == 1
    }

    /// Whether some state is final.
    pub fn alarms(&self) -> bool {
        self.finals != 0
    }

    /// The R lines, as a job file has them.
    pub fn lines(&self) -> Vec<u8> {
        let line = |(state, next): (usize, &Vec<usize>)| {
            let mut numbers = vec![state as u64, u64::from(self.is_final(state))];
            numbers.extend(next.iter().map(|&next| next as u64));
            Line::new(b'R', &numbers)
        };
        let lines: Vec<_> = self.next.iter().enumerate().map(line).collect();
        spell(&lines)
    }

    /// A table with a row for each state and a column for each symbol, and below it what it says. Where so many
    /// columns of a terminal are too few, the symbols come in several tables.
    pub fn table(&self, names: &Names, room: Option<usize>) -> String {
        let symbols: Vec<_> = (0..self.symbols()).collect();
        let part = |symbols: &[usize]| {
            let mut sides = vec![names.state_side(), Side::Left];
            sides.resize(2 + symbols.len(), names.next_side());
            (sides, self.rows(symbols, names))
        };
        let parts = |most: usize| symbols.chunks(most).map(part);
        let fits =
            |&most: &usize| parts(most).all(|(sides, rows)| table::has_room(sides, &rows, room));
        let mut sizes = (1..=symbols.len()).map(|parts| symbols.len().div_ceil(parts));
        let most = sizes.find(fits).unwrap_or(1);
        let parts: Vec<_> = parts(most).collect();
        table::fitted_alike(&parts, room).join("\n") + &self.words()
    }

    /// How many symbols there are.
    fn symbols(&self) -> usize {
        self.next.first().map_or(0, Vec::len)
    }

    /// The rows of a table of these symbols.
    fn rows(&self, symbols: &[usize], names: &Names) -> Vec<Vec<String>> {
        let mut headings = vec!["state".to_string(), "final".to_string()];
        headings.extend(symbols.iter().map(|&symbol| names.symbol(symbol)));
        let mut rows = vec![headings];
        for (state, next) in self.next.iter().enumerate() {
            let is_final = if self.is_final(state) { "yes" } else { "no" };
            let mut row = vec![names.state(state), is_final.to_string()];
            row.extend(symbols.iter().map(|&symbol| names.state(next[symbol])));
            rows.push(row);
        }
        rows
    }

    /// What a table says.
    fn words(&self) -> String {
        let alarms = match self.alarms() {
            true => "An event that leads to a final state raises an alarm.",
            false => "No state is final, so no event raises an alarm.",
        };
        format!("\nA row for each state, a column for each symbol: the state that its event leads to.\n{alarms}\n")
    }

    /// The numbers, as fields of a document.
    pub fn json(&self) -> Vec<(&'static str, Json)> {
        let list = |numbers: &Vec<usize>| {
            let numbers = numbers.iter().copied().map(Json::number);
            Json::List(numbers.collect())
        };
        vec![
            ("states", Json::number(self.next.len())),
            ("symbols", Json::number(self.symbols())),
            ("finals", list(&members(self.finals).collect())),
            ("next", Json::List(self.next.iter().map(list).collect())),
        ]
    }
}
