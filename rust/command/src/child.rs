//! A program that is run, and never outlives this one.
use crate::stop;
use std::ffi::{c_int, c_ulong};
use std::io::{self, Read, Write};
use std::os::unix::process::{parent_id, CommandExt};
use std::process::{self, Child, ChildStdin, Command, Output, Stdio};
use std::thread::{self, sleep, JoinHandle};
use std::time::{Duration, Instant};

/// The C library's calls.
mod ffi {
    use std::ffi::c_int;

    extern "C" {
        /// `int prctl(int option, unsigned long argument)`
        pub fn prctl(option: c_int, ...) -> c_int;
        /// `int kill(pid_t group, int signal)`, where a group is a negative number
        pub fn kill(group: c_int, signal: c_int) -> c_int;
    }
}

/// Linux's option for the signal at the parent's death.
const DEATH_SIGNAL: c_int = 1;
/// The signal that no program can put off.
const KILL: c_int = 9;
/// What the system says of a process that there is not.
const NO_PROCESS: i32 = 3;

/// How often it is seen whether the program has ended.
const STEP: Duration = Duration::from_millis(10);

/// How a program ended.
pub enum End {
    /// By itself; whether it read all its input stands beside what it gave.
    Itself(Output, bool),
    /// By a stop that was asked for.
    Stopped,
    /// At its time's end.
    Late,
}

/// Runs a program on this input for so long at most; a stop ends it too, and so does the end of this program.
pub fn run(command: &mut Command, input: Vec<u8>, most: Duration) -> io::Result<End> {
    stop::listen();
    let parent = process::id();
    command.stdin(Stdio::piped()).stdout(Stdio::piped());
    command.stderr(Stdio::piped()).process_group(0);
    // SAFETY: between the fork and the program only two system calls are made, and nothing is allocated.
    unsafe { command.pre_exec(move || end_with(parent)) };
    let mut child = command.spawn()?;
    let writer = writer(child.stdin.take(), input);
    let (stdout, stderr) = (reader(child.stdout.take()), reader(child.stderr.take()));
    let begin = Instant::now();
    let status = loop {
        // what the program has started may hold the pipes after its end
        if writer.is_finished() && stdout.is_finished() && stderr.is_finished() {
            if let Some(status) = child.try_wait()? {
                break status;
            }
        }
        if stop::asked() || begin.elapsed() >= most {
            end_group(&mut child)?;
            return Ok(if stop::asked() {
                End::Stopped
            } else {
                End::Late
            });
        }
        sleep(STEP);
    };
    let read_all = joined(writer).is_ok();
    let (stdout, stderr) = (joined(stdout)?, joined(stderr)?);
    let output = Output {
        status,
        stdout,
        stderr,
    };
    match stop::asked() {
        true => Ok(End::Stopped),
        false => Ok(End::Itself(output, read_all)),
    }
}

/// Asks that the process that calls it ends with its parent, which may have ended already.
fn end_with(parent: u32) -> io::Result<()> {
    // SAFETY: the option takes a signal's number and touches no memory.
    if unsafe { ffi::prctl(DEATH_SIGNAL, KILL as c_ulong) } != 0 {
        return Err(io::Error::last_os_error());
    }
    match parent_id() == parent {
        true => Ok(()),
        false => Err(io::Error::from_raw_os_error(NO_PROCESS)),
    }
}

/// Ends a program and all that it has started.
fn end_group(child: &mut Child) -> io::Result<()> {
    // SAFETY: the group is the child's own, and stays so until it is waited for.
    unsafe { ffi::kill(-(child.id() as c_int), KILL) };
    child.wait().map(|_| ())
}

/// What a thread does with a pipe.
type Piping<T> = JoinHandle<io::Result<T>>;

/// Writes all bytes to a pipe, beside other work.
fn writer(to: Option<ChildStdin>, bytes: Vec<u8>) -> Piping<()> {
    thread::spawn(move || to.map_or(Ok(()), |mut to| to.write_all(&bytes)))
}

/// Reads all that a pipe gives, beside other work.
fn reader(from: Option<impl Read + Send + 'static>) -> Piping<Vec<u8>> {
    thread::spawn(move || {
        let mut bytes = Vec::new();
        let read = from.map(|mut from| from.read_to_end(&mut bytes));
        read.transpose().map(|_| bytes)
    })
}

/// What a thread did.
fn joined<T>(thread: Piping<T>) -> io::Result<T> {
    let ended = thread.join();
    ended.unwrap_or_else(|_| Err(io::ErrorKind::Other.into()))
}
