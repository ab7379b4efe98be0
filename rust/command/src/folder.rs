//! A folder of jobs, and the work that is done for each.
use crate::progress::Progress;
use crate::{output, shown, stop};
use std::ffi::{OsStr, OsString};
use std::fmt::Display;
use std::fs;
use std::os::unix::ffi::OsStrExt;
use std::path::{Path, PathBuf};
use std::sync::atomic::{AtomicUsize, Ordering};
use std::thread;

/// The endings of the names of job files and plan files.
const JOB: &str = "job";
pub const PLAN: &str = "plan";

/// The job files of a folder.
pub struct Folder {
    /// By name.
    pub jobs: Vec<PathBuf>,
    /// The names that are almost those of job files, in order.
    pub skipped: Vec<OsString>,
}

impl Folder {
    /// The job files of a folder, which has one or more.
    pub fn read(folder: &Path) -> Result<Self, String> {
        let (jobs, skipped) = files(folder, JOB)?;
        match jobs.is_empty() {
            true => Err(said(folder, "there is no file NAME.job in it") + &skips(&skipped, JOB)),
            false => Ok(Folder { jobs, skipped }),
        }
    }

    /// Says which names are skipped.
    pub fn note_skipped(&self) -> Result<(), String> {
        note_skipped(&self.skipped, JOB)
    }

    /// Does the work for each job, on all cores; those that a stop left out have no outcome.
    pub fn each<T: Send>(&self, work: impl Fn(&Path) -> T + Sync) -> Vec<(&Path, T)> {
        let jobs = &self.jobs;
        let cores = thread::available_parallelism().map_or(1, usize::from);
        let next = AtomicUsize::new(0);
        let progress = Progress::begin(jobs.len());
        let worker = || {
            let mut outcomes = Vec::new();
            while !stop::asked() {
                let Some(job) = jobs.get(next.fetch_add(1, Ordering::Relaxed)) else {
                    break;
                };
                outcomes.push((job.as_path(), work(job)));
                progress.step();
            }
            outcomes
        };
        let mut outcomes: Vec<_> = thread::scope(|scope| {
            let workers: Vec<_> = (0..cores.min(jobs.len()))
                .map(|_| scope.spawn(worker))
                .collect();
            let ended = workers.into_iter().map(|worker| worker.join());
            ended
                .flat_map(|ended| ended.expect("no job ends its thread"))
                .collect()
        });
        progress.end();
        outcomes.sort_by_key(|(job, _)| *job);
        outcomes
    }
}

/// The files of a folder with this ending, and the names that almost have it, each in order. Hidden files are
/// passed over.
pub fn files(folder: &Path, ending: &str) -> Result<(Vec<PathBuf>, Vec<OsString>), String> {
    let (mut files, mut skipped) = (Vec::new(), Vec::new());
    for path in entries(folder)? {
        let name = name_of(&path);
        let hidden = name.as_bytes().starts_with(b".");
        let alone = format!(".{ending}");
        match path.extension() {
            None if name.eq_ignore_ascii_case(alone) => skipped.push(name.to_os_string()),
            Some(found) if hidden || !found.eq_ignore_ascii_case(ending) => {}
            Some(found) if found == ending => files.push(path),
            Some(_) => skipped.push(name.to_os_string()),
            None => {}
        }
    }
    files.sort();
    skipped.sort();
    Ok((files, skipped))
}

/// What is said of names that are skipped.
fn skips(skipped: &[OsString], ending: &str) -> String {
    let skip = |name: &OsString| {
        let name = shown::name(name);
        format!("\nnote: {name} is skipped: {ending} files are named NAME.{ending}")
    };
    skipped.iter().map(skip).collect()
}

/// Says which names are skipped.
pub fn note_skipped(skipped: &[OsString], ending: &str) -> Result<(), String> {
    match skips(skipped, ending).strip_prefix('\n') {
        Some(notes) => output::note(&format!("{notes}\n")),
        None => Ok(()),
    }
}

/// What a folder has in it.
fn entries(folder: &Path) -> Result<Vec<PathBuf>, String> {
    let entries = fs::read_dir(folder).map_err(|why| said(folder, why))?;
    let paths = entries.map(|entry| Ok(entry?.path()));
    let paths: Result<_, std::io::Error> = paths.collect();
    paths.map_err(|why| said(folder, why))
}

/// What is said of a file or a folder.
pub fn said(path: &Path, why: impl Display) -> String {
    format!("{}: {why}", shown(path))
}

/// A file or a folder, as it is shown.
pub fn shown(path: &Path) -> String {
    shown::name(path.as_os_str())
}

/// The plan file of a job in a folder.
pub fn plan_of(job: &Path, folder: &Path) -> PathBuf {
    folder.join(name_of(job)).with_extension(PLAN)
}

/// The name of a file in its folder.
pub fn name_of(path: &Path) -> &OsStr {
    path.file_name().unwrap_or_default()
}

/// Refuses what is no regular file before it is opened: a pipe that nobody writes to would hold up all.
pub fn is_regular(path: &Path) -> Result<(), String> {
    match fs::metadata(path) {
        Ok(found) if found.is_file() => Ok(()),
        Ok(_) => Err(said(path, "it is no regular file")),
        Err(why) => Err(said(path, why)),
    }
}
