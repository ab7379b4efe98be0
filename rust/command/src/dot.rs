//! Pictures by Graphviz's program `dot`, and the options by which commands ask for them.
use crate::args::Given;
use crate::child::{self, End};
use crate::{drawing, output, progress, shown};
use std::ffi::OsStr;
use std::io::{self, ErrorKind, IsTerminal};
use std::process::{Command, Output};
use std::time::Duration;

/// The arrows up to which `dot` takes a second or two with its own layout; with three times as many
/// it can take minutes.
const MOST_ARROWS: usize = 250;
/// The layout of larger graphs, in which no node covers another.
const LARGE: [&str; 2] = ["-Ksfdp", "-Goverlap=prism"];

/// A command that draws.
#[derive(Clone, Copy)]
pub struct Drawer {
    pub command: &'static str,
    /// How it prints a graph as text where it would print it in this format.
    pub as_text: fn(&str) -> String,
}

/// What is asked of a picture.
pub struct Picture {
    drawer: Drawer,
    /// A format of `dot`.
    format: &'static str,
    /// How long it may take.
    most: Duration,
}

impl Drawer {
    /// The picture that `--svg`, `--png` and `--seconds` ask for, if they do; it goes to this file or to standard
    /// output.
    pub fn asked(self, given: &Given, to: Option<&OsStr>) -> Result<Option<Picture>, String> {
        let Drawer { command, .. } = self;
        let format = match (given.has("--svg"), given.has("--png")) {
            (true, true) => {
                return Err(format!(
                    "{command}: --svg and --png are two pictures, take one"
                ))
            }
            (true, false) => "svg",
            (false, true) => "png",
            (false, false) if given.value("--seconds").is_some() => {
                return Err(format!(
                    "{command}: --seconds is only of use with --svg or --png"
                ))
            }
            (false, false) => return Ok(None),
        };
        if format == "png" && to.is_none() && io::stdout().is_terminal() {
            return Err(format!(
                "{command}: a PNG picture is not for a terminal, take -o FILE"
            ));
        }
        let most = self.seconds(given.value("--seconds"))?;
        Ok(Some(Picture {
            drawer: self,
            format,
            most,
        }))
    }

    /// How long a picture may take.
    fn seconds(self, asked: Option<&OsStr>) -> Result<Duration, String> {
        let Some(asked) = asked else {
            return Ok(Duration::from_secs(60));
        };
        match asked.to_str().and_then(|asked| asked.parse().ok()) {
            Some(seconds @ 1..=3600) => Ok(Duration::from_secs(seconds)),
            _ => Err(format!(
                "{}: --seconds is `{}`, and a picture may take 1 to 3600",
                self.command,
                shown::name(asked)
            )),
        }
    }
}

impl Picture {
    /// The picture of a graph.
    pub fn of(&self, graph: String) -> Result<Vec<u8>, String> {
        let mut command = Command::new("dot");
        command.arg(format!("-T{}", self.format));
        let arrows = drawing::arrows(&graph);
        if arrows > MOST_ARROWS {
            command.args(LARGE);
            output::note(&format!(
                "note: with {arrows} arrows the picture is laid out by sfdp; its nodes are not ordered by the flow\n"
            ))?;
        }
        let run = || child::run(&mut command, graph.into_bytes(), self.most);
        let ended = progress::during("drawing", run);
        match ended.map_err(|why| self.unstarted(why.kind(), &why.to_string()))? {
            End::Itself(done, true) if done.status.success() => Ok(done.stdout),
            End::Itself(done, _) => Err(failed(&done)),
            End::Stopped => {
                let command = self.drawer.command;
                Err(format!(
                    "{command}: stopped; dot is ended too, and nothing is written"
                ))
            }
            End::Late => Err(self.late()),
        }
    }

    /// What is said where the program has taken too long.
    fn late(&self) -> String {
        let Drawer { command, as_text } = self.drawer;
        let seconds = self.most.as_secs();
        let noun = if seconds == 1 { "second" } else { "seconds" };
        format!(
            "{command}: dot has not drawn it in {seconds} {noun}, and is ended; --seconds gives it longer, and {}",
            as_text(self.format)
        )
    }

    /// What is said where the program cannot be run.
    fn unstarted(&self, kind: ErrorKind, why: &str) -> String {
        let (Drawer { command, as_text }, format) = (self.drawer, self.format);
        match kind {
            ErrorKind::NotFound => format!(
                "{command}: --{format} needs the program dot, which is not installed (Debian's package graphviz); {}",
                as_text(format)
            ),
            _ => format!("dot: {why}"),
        }
    }
}

/// What is said of a program that failed.
fn failed(done: &Output) -> String {
    let said = done.stderr.trim_ascii().split(|&byte| byte == b'\n');
    let said: Vec<_> = said.map(shown::bytes).collect();
    format!("dot failed with {}: {}", done.status, said.join("\n  "))
}
