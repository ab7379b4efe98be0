//! What is written: standard output and error, and files that are written whole or not at all.
use crate::shown;
use std::ffi::OsStr;
use std::fs::{self, File, Metadata, OpenOptions, Permissions};
use std::io::{self, ErrorKind, Write};
use std::os::fd::{AsFd, BorrowedFd};
use std::os::unix::fs::MetadataExt;
use std::path::{Path, PathBuf};
use std::process;
use std::sync::atomic::{AtomicU64, Ordering};

/// Writes to standard output, at once.
pub fn print(bytes: &[u8]) -> Result<(), String> {
    written(io::stdout().lock(), bytes, "standard output")
}

/// Writes to standard error what belongs to the command's answer.
pub fn note(text: &str) -> Result<(), String> {
    written(io::stderr().lock(), text.as_bytes(), "standard error")
}

/// Says on standard error what is wrong. Where that cannot be written only the exit status tells.
pub fn complain(why: &str) {
    let _ = note(&format!("dapohiru: {}\n", why.trim_end()));
}

/// Prints what an answer has of a refusal, and gives what is said of it, and of output that cannot be written.
pub fn refused(printed: &str, told: String) -> String {
    match print(printed.as_bytes()) {
        Ok(()) => told,
        Err(why) => format!("{told}\n{why}"),
    }
}

/// Writes all bytes.
fn written(mut out: impl Write, bytes: &[u8], shown: &str) -> Result<(), String> {
    let done = out.write_all(bytes).and_then(|()| out.flush());
    done.map_err(|why| match why.kind() {
        ErrorKind::BrokenPipe => format!("{shown} was closed before all was written"),
        _ => format!("{shown}: {why}"),
    })
}

/// The file that `-o` names; `-` is standard output, and so is no name.
pub fn named(file: Option<&OsStr>) -> Option<&OsStr> {
    file.filter(|&file| file != "-")
}

/// Refuses a file for `-o` in which something would be lost: the one that standard output or standard
/// error goes to, or one of those that are read, where `-` is standard input.
pub fn loses_nothing(file: Option<&OsStr>, read: &[&OsStr]) -> Result<(), String> {
    let Some(file) = file else { return Ok(()) };
    let Ok(found) = fs::metadata(file) else {
        return Ok(());
    };
    let shown = shown::name(file);
    if let Some(stream) = stream(&found) {
        return Err(format!("{shown}: it is {stream}; leave out -o"));
    }
    let is_read = |name: &&OsStr| match *name == "-" {
        true => is_open(&found, io::stdin().as_fd()),
        false => fs::metadata(name).is_ok_and(|read| is_same(&found, &read)),
    };
    match read.iter().any(is_read) {
        true => Err(format!("{shown}: -o names the file that is read")),
        false => Ok(()),
    }
}

/// The stream that goes to a file, if one does.
fn stream(found: &Metadata) -> Option<&'static str> {
    if is_open(found, io::stdout().as_fd()) {
        Some("standard output")
    } else if is_open(found, io::stderr().as_fd()) {
        Some("standard error")
    } else {
        None
    }
}

/// Whether a file is the one that is open here.
fn is_open(found: &Metadata, open: BorrowedFd) -> bool {
    let open = open.try_clone_to_owned().map(File::from);
    let open = open.and_then(|open| open.metadata());
    open.is_ok_and(|open| is_same(found, &open))
}

/// Whether two files are one.
pub fn is_same(one: &Metadata, other: &Metadata) -> bool {
    (one.dev(), one.ino()) == (other.dev(), other.ino())
}

/// Writes to a file where one is named, else to standard output.
pub fn deliver(file: Option<&OsStr>, bytes: &[u8]) -> Result<(), String> {
    match file {
        Some(file) => write_file(Path::new(file), bytes),
        None => print(bytes),
    }
}

/// Writes a file whole or not at all: a temporary file beside it, then rename.
pub fn write_file(path: &Path, bytes: &[u8]) -> Result<(), String> {
    let shown = shown::name(path.as_os_str());
    let (place, permissions) = target(path).map_err(|why| format!("{shown}: {why}"))?;
    let (name, file) = temporary(&place)
        .map_err(|why| format!("{shown}: no file can be made beside it: {why}"))?;
    let done = fill(file, bytes, permissions).and_then(|()| fs::rename(&name, &place));
    done.map_err(|why| {
        let left = match fs::remove_file(&name) {
            Ok(()) => String::new(),
            Err(_) => format!(", and {} is left", shown::name(name.as_os_str())),
        };
        format!("{shown} is not written: {why}{left}")
    })
}

/// Makes a folder where it is missing, and makes sure that files can be written in it.
pub fn make_folder(folder: &Path) -> Result<(), String> {
    let shown = shown::name(folder.as_os_str());
    fs::create_dir_all(folder).map_err(|why| format!("{shown}: {why}"))?;
    let (name, file) = temporary(&folder.join("plan"))
        .map_err(|why| format!("{shown}: no file can be made in it: {why}"))?;
    let done = fill(file, b"\n", None);
    let gone = fs::remove_file(name);
    done.and(gone)
        .map_err(|why| format!("{shown}: no file can be written in it: {why}"))
}

/// The file that a name stands for, and the permissions of the one that is there.
pub fn target(path: &Path) -> Result<(PathBuf, Option<Permissions>), String> {
    match fs::metadata(path) {
        Ok(found) if found.is_file() => {
            // what is printed would go to the file that is replaced
            if let Some(stream) = stream(&found) {
                return Err(format!("it is {stream}"));
            }
            let place = fs::canonicalize(path).map_err(|why| why.to_string())?;
            Ok((place, Some(found.permissions())))
        }
        Ok(found) if found.is_dir() => Err("it is a folder".to_string()),
        Ok(_) => Err("it is no regular file, and only such a file is written whole".to_string()),
        Err(why) if why.kind() == ErrorKind::NotFound && path.is_symlink() => {
            Err("it is a link to nothing".to_string())
        }
        Err(why) if why.kind() == ErrorKind::NotFound => Ok((path.to_path_buf(), None)),
        Err(why) => Err(why.to_string()),
    }
}

/// Makes something beside a file under a hidden name that no other has; the name has this word.
pub fn beside<T>(
    place: &Path,
    word: &str,
    make: impl Fn(&Path) -> io::Result<T>,
) -> io::Result<(PathBuf, T)> {
    static COUNT: AtomicU64 = AtomicU64::new(0);
    loop {
        let count = COUNT.fetch_add(1, Ordering::Relaxed);
        let name = place.with_file_name(format!("{word}-{}-{count}.tmp", process::id()));
        match make(&name) {
            // another program's, or left by one that was killed
            Err(why) if why.kind() == ErrorKind::AlreadyExists => {}
            made => return made.map(|made| (name, made)),
        }
    }
}

/// A file that is not there yet.
pub fn new_file(name: &Path) -> io::Result<File> {
    OpenOptions::new().write(true).create_new(true).open(name)
}

/// A new file beside a file.
fn temporary(place: &Path) -> io::Result<(PathBuf, File)> {
    beside(place, ".dapohiru", new_file)
}

/// Writes all bytes of a new file, down to the disk.
fn fill(mut file: File, bytes: &[u8], permissions: Option<Permissions>) -> io::Result<()> {
    file.write_all(bytes)?;
    if let Some(permissions) = permissions {
        file.set_permissions(permissions)?;
    }
    file.sync_all()
}
