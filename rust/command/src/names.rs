//! Names for symbols, nodes and states, from a file.
use crate::args::Given;
use crate::encoding;
use crate::input::{self, Input};
use crate::json::Json;
use crate::shown;
use crate::table::{Side, LEAST};
use dapohiru_second::job::{members, Job};
use std::ffi::OsStr;

/// The bytes of a names file that are read.
const NAMES_FILE: usize = 262_144;

/// What a name is for.
#[derive(Clone, Copy)]
enum Kind {
    Symbol,
    Node,
    State,
}

/// The words for them in a line.
const KINDS: [(&str, Kind); 3] = [
    ("symbol", Kind::Symbol),
    ("node", Kind::Node),
    ("state", Kind::State),
];

/// For each symbol, node and state of a job or a rule its name, if it has one.
#[derive(Default)]
pub struct Names {
    /// What has those of each kind.
    owners: [&'static str; 3],
    /// The names of each kind.
    named: [Vec<Option<String>>; 3],
}

/// A file of names, if one is given, as it was read.
#[derive(Default)]
pub struct File(Option<Input>);

impl File {
    pub fn read(name: Option<&OsStr>) -> Result<Self, String> {
        let Some(name) = name else {
            return Ok(File(None));
        };
        let file = input::whole(name, NAMES_FILE)?;
        Ok(File(Some(file)))
    }
}

/// The file of the names that are asked for, which are shown with one of these options alone.
pub fn asked<'a>(
    given: &'a Given,
    command: &str,
    shown_with: &[&str],
) -> Result<Option<&'a OsStr>, String> {
    match given.value("--names") {
        Some(_) if !shown_with.iter().any(|option| given.has(option)) => {
            let options = shown_with.join(" or ");
            Err(format!("{command}: --names is only of use with {options}"))
        }
        names => Ok(names),
    }
}

impl Names {
    /// The names for a job in a file, or none: a line for each name.
    pub fn read(file: Option<&OsStr>, job: &Job) -> Result<Self, String> {
        let counts = [job.symbols as usize, job.nodes.len(), job.states()];
        Names::of(&File::read(file)?, ["the job"; 3], counts)
    }

    /// The same for a rule of so many states and symbols. Nodes of the job that the rule is for may be named too.
    pub fn of_rule(file: &File, states: usize, symbols: usize) -> Result<Self, String> {
        let owners = ["the rule", "a job", "the rule"];
        Names::of(file, owners, [symbols, dapohiru::PLAN_LEN, states])
    }

    /// The names in a file for so many of each kind.
    fn of(
        File(file): &File,
        owners: [&'static str; 3],
        counts: [usize; 3],
    ) -> Result<Self, String> {
        let named = counts.map(|count| vec![None; count]);
        let mut names = Names { owners, named };
        let Some(Input { shown, bytes }) = file else {
            return Ok(names);
        };
        for (place, line) in bytes.split_inclusive(|&byte| byte == b'\n').enumerate() {
            let line = line.strip_suffix(b"\n").unwrap_or(line);
            let named = entry(line).ok_or_else(|| {
                let line = shown::bytes(line);
                format!("`{line}` gives no name; lines are such as `symbol 0 seal`, `node 2 write` and `state 1 sealed`")
            });
            named
                .and_then(|(kind, number, name)| names.add(kind, number, name))
                .map_err(|why| {
                    let hint = encoding::told(bytes);
                    format!("{shown}: line {}: {why}{hint}", place + 1)
                })?;
        }
        Ok(names)
    }

    /// Gives a name to what has none yet.
    fn add(&mut self, kind: Kind, number: usize, name: String) -> Result<(), String> {
        let (word, owner) = (KINDS[kind as usize].0, self.owners[kind as usize]);
        let names = &mut self.named[kind as usize];
        let last = names.len().saturating_sub(1);
        match names.get_mut(number) {
            None => Err(format!(
                "the {word}s of {owner} are 0 to {last}, and the line names {number}"
            )),
            Some(Some(_)) => Err(format!("{word} {number} has a name already")),
            Some(free) => {
                *free = Some(name);
                Ok(())
            }
        }
    }

    /// The name of a number, if it has one.
    fn name(&self, kind: Kind, number: usize) -> Option<&str> {
        self.named[kind as usize].get(number)?.as_deref()
    }

    /// A number, with its name if it has one.
    fn numbered(&self, kind: Kind, number: usize) -> String {
        match self.name(kind, number) {
            Some(name) => format!("{number} {}", shown::text(name)),
            None => number.to_string(),
        }
    }

    /// A symbol's number, with its name if it has one.
    pub fn symbol(&self, symbol: usize) -> String {
        self.numbered(Kind::Symbol, symbol)
    }

    /// A node's number, with its name if it has one.
    pub fn node(&self, node: usize) -> String {
        self.numbered(Kind::Node, node)
    }

    /// A state's number, with its name if it has one.
    pub fn state(&self, state: usize) -> String {
        self.numbered(Kind::State, state)
    }

    /// A set of symbols in braces, by its members.
    pub fn symbols(&self, set: u64) -> String {
        self.set(Kind::Symbol, set)
    }

    /// A set of states in braces, by its members.
    pub fn states(&self, set: u64) -> String {
        self.set(Kind::State, set)
    }

    fn set(&self, kind: Kind, set: u64) -> String {
        let members: Vec<_> = members(set)
            .map(|member| self.numbered(kind, member))
            .collect();
        format!("{{{}}}", members.join(","))
    }

    /// The side of a column of nodes: the left where nodes have names.
    pub fn node_side(&self) -> Side {
        self.side(&[Kind::Node])
    }

    /// The side of a column of states: the left where states have names.
    pub fn state_side(&self) -> Side {
        self.side(&[Kind::State])
    }

    /// The side of a column of states under a symbol: the left where either have names.
    pub fn next_side(&self) -> Side {
        self.side(&[Kind::Symbol, Kind::State])
    }

    fn side(&self, kinds: &[Kind]) -> Side {
        match kinds.iter().any(|&kind| self.has(kind)) {
            true => Side::Name(LEAST),
            false => Side::Right,
        }
    }

    /// The name of a symbol, if it has one.
    pub fn name_of_symbol(&self, symbol: usize) -> Option<&str> {
        self.name(Kind::Symbol, symbol)
    }

    /// Whether some state has a name.
    pub fn has_states(&self) -> bool {
        self.has(Kind::State)
    }

    /// Whether something of a kind has a name.
    fn has(&self, kind: Kind) -> bool {
        self.named[kind as usize].iter().any(Option::is_some)
    }

    /// The names as they stand in the file: for symbols, nodes and states a list.
    pub fn json(&self) -> Json {
        let [symbols, nodes, states] = self.lists();
        Json::Object(vec![
            ("symbols", symbols),
            ("nodes", nodes),
            ("states", states),
        ])
    }

    /// The same without nodes, which a rule has not.
    pub fn json_of_rule(&self) -> Json {
        let [symbols, _, states] = self.lists();
        Json::Object(vec![("symbols", symbols), ("states", states)])
    }

    /// The names of each kind.
    fn lists(&self) -> [Json; 3] {
        let named = |(number, name): (usize, &Option<String>)| {
            let name = Json::text(name.as_ref()?);
            Some(Json::Object(vec![
                ("number", Json::number(number)),
                ("name", name),
            ]))
        };
        let list =
            |names: &Vec<_>| Json::List(names.iter().enumerate().filter_map(named).collect());
        self.named.each_ref().map(list)
    }
}

/// What a line names, its number and the name.
fn entry(line: &[u8]) -> Option<(Kind, usize, String)> {
    let line = std::str::from_utf8(line).ok()?;
    let (first, rest) = line.split_once(' ')?;
    let (kind, (number, name)) = match KINDS.iter().find(|(word, _)| *word == first) {
        Some((_, kind)) => (*kind, rest.split_once(' ')?),
        None => (Kind::Symbol, (first, rest)),
    };
    let digits = number.bytes().all(|byte| byte.is_ascii_digit());
    let name = name.trim_matches(' ');
    let shows = !name.is_empty() && !name.contains(char::is_control);
    (digits && shows).then(|| Some((kind, number.parse().ok()?, name.to_string())))?
}
