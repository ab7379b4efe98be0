//! The file of a record: whole after each line, and locked, so that one program alone goes on with it.
//! Two hidden files beside it are written in turn, and the one that was written takes the record's name. So no
//! space is claimed after the first lines. One that somebody else has open, has linked or has removed is not written
//! again: another takes its turn.
use crate::digest::sha256;
use crate::output::{beside, is_same, new_file, target};
use crate::{lease, shown};
use std::ffi::OsStr;
use std::fs::{self, File, Permissions, TryLockError};
use std::io::{self, ErrorKind, Read};
use std::os::unix::fs::{FileExt, MetadataExt};
use std::path::{Path, PathBuf};
use std::time::{Duration, Instant};

/// The bytes of a record that are read; none is as long.
const RECORD_FILE: u64 = 1 << 20;
/// How long a record may stand in memory alone.
const UNSYNCED: Duration = Duration::from_secs(1);

/// A record's file.
pub struct RecordFile {
    shown: String,
    place: PathBuf,
    /// What the names of its hidden files begin with.
    hidden: String,
    permissions: Option<Permissions>,
    /// The record that was there, which holds its lock until another is written.
    found: Option<File>,
    /// The hidden file that is the record too.
    current: Option<Side>,
    /// The hidden file that was the record before, and is written next.
    spare: Option<Side>,
    /// When the first line was written that is not on the disk yet.
    unsynced: Option<Instant>,
}

/// A hidden file, locked. It goes with its owner.
struct Side {
    name: PathBuf,
    file: File,
}

impl Side {
    /// Writes a text in the place of the one before, and says whether it did: not where somebody else holds that, or
    /// has removed the file.
    fn rewrite(&self, text: &str) -> io::Result<bool> {
        let held = self.file.metadata()?;
        let is_own = fs::symlink_metadata(&self.name).is_ok_and(|there| is_same(&there, &held));
        if !is_own || held.nlink() > 1 {
            return Ok(false);
        }
        let written = lease::alone(&self.file, || self.fill(text));
        written.transpose().map(|written| written.is_some())
    }

    /// Writes a text, and nothing after it.
    fn fill(&self, text: &str) -> io::Result<()> {
        self.file.write_all_at(text.as_bytes(), 0)?;
        self.file.set_len(text.len() as u64)
    }
}

impl Drop for Side {
    fn drop(&mut self) {
        let _ = fs::remove_file(&self.name);
    }
}

impl RecordFile {
    /// The file of this name, and what stands in it, if it is there.
    pub fn open(name: &OsStr) -> Result<(Self, Option<Vec<u8>>), String> {
        let shown = shown::name(name);
        let wrong = |why: String| format!("{shown}: {why}");
        let (place, permissions) = target(Path::new(name)).map_err(wrong)?;
        let found = locked(&place).map_err(wrong)?;
        let mut text = None;
        if let Some(file) = &found {
            let mut bytes = Vec::new();
            let read = file.take(RECORD_FILE).read_to_end(&mut bytes);
            read.map_err(|why| wrong(why.to_string()))?;
            text = Some(bytes);
        }
        let record = RecordFile {
            shown,
            hidden: hidden(&place),
            place,
            permissions,
            found,
            current: None,
            spare: None,
            unsynced: None,
        };
        Ok((record, text))
    }

    /// Puts a text in the record's place, whole.
    pub fn write(&mut self, text: &str) -> Result<(), String> {
        let not_written = |why: io::Error| format!("{} is not written: {why}", self.shown);
        let mut side = self.spare.take();
        if let Some(spare) = &side {
            if !spare.rewrite(text).map_err(not_written)? {
                side = None;
            }
        }
        let side = match side {
            Some(side) => side,
            None => {
                let made = self.side();
                let side = made.map_err(|why| {
                    format!("{}: no file can be made beside it: {why}", self.shown)
                })?;
                side.fill(text).map_err(not_written)?;
                side
            }
        };
        self.put(&side).map_err(not_written)?;
        self.spare = self.current.replace(side);
        if self.found.take().is_some() {
            self.clear();
        }
        self.unsynced.get_or_insert_with(Instant::now);
        Ok(())
    }

    /// A new hidden file.
    fn side(&self) -> io::Result<Side> {
        let (name, file) = beside(&self.place, &self.hidden, new_file)?;
        let side = Side { name, file };
        if let Some(permissions) = &self.permissions {
            side.file.set_permissions(permissions.clone())?;
        }
        side.file.try_lock()?;
        Ok(side)
    }

    /// Gives a hidden file the record's name.
    fn put(&self, side: &Side) -> io::Result<()> {
        if self.found.is_none() && self.current.is_none() {
            // a record that another program has made meanwhile stays
            return fs::hard_link(&side.name, &self.place);
        }
        let link = |link: &Path| fs::hard_link(&side.name, link);
        let (link, ()) = beside(&self.place, &self.hidden, link)?;
        fs::rename(&link, &self.place).inspect_err(|_| {
            let _ = fs::remove_file(&link);
        })
    }

    /// Removes the hidden files of this record that a program has left which was killed: nobody has them locked.
    fn clear(&self) {
        let is_left = |name: &OsStr| {
            let rest = name.as_encoded_bytes().strip_prefix(self.hidden.as_bytes());
            rest.is_some_and(|rest| rest.starts_with(b"-") && rest.ends_with(b".tmp"))
        };
        let entries = fs::read_dir(folder(&self.place));
        for entry in entries.into_iter().flatten().flatten() {
            let name = entry.path();
            let is_file = entry.file_type().is_ok_and(|kind| kind.is_file());
            if is_file && is_left(&entry.file_name()) {
                let file = File::open(&name);
                if file.is_ok_and(|file| file.try_lock().is_ok()) {
                    let _ = fs::remove_file(&name);
                }
            }
        }
    }

    /// How long the record may still stand in memory alone, if it is not on the disk.
    pub fn time_left(&self) -> Option<Duration> {
        let unsynced = self.unsynced?;
        Some(UNSYNCED.saturating_sub(unsynced.elapsed()))
    }

    /// Waits until the record is on the disk.
    pub fn sync(&mut self) -> Result<(), String> {
        if self.unsynced.take().is_none() {
            return Ok(());
        }
        // both, since the name can come to the disk before what is written later
        for side in self.spare.iter().chain(&self.current) {
            let synced = side.file.sync_all();
            synced.map_err(|why| format!("{}: {why}", self.shown))?;
        }
        // the name too, where the folder's file system can
        let folder = File::open(folder(&self.place));
        let _ = folder.and_then(|folder| folder.sync_all());
        Ok(())
    }
}

/// The folder of a file.
fn folder(place: &Path) -> &Path {
    let folder = place.parent().filter(|folder| *folder != Path::new(""));
    folder.unwrap_or(Path::new("."))
}

/// What the names of a record's hidden files begin with: no other record's in the folder do, and any name fits.
fn hidden(place: &Path) -> String {
    let name = place.file_name().unwrap_or_default();
    let digest = sha256(name.as_encoded_bytes());
    format!(".dapohiru-{}", &digest[..16])
}

/// The file of this name with its lock, if it is there.
fn locked(place: &Path) -> Result<Option<File>, String> {
    loop {
        let file = match File::open(place) {
            Err(why) if why.kind() == ErrorKind::NotFound => return Ok(None),
            file => file.map_err(|why| why.to_string())?,
        };
        match file.try_lock() {
            Ok(()) => {}
            Err(TryLockError::WouldBlock) => {
                return Err("another `watch` is running on this record".to_string())
            }
            Err(TryLockError::Error(why)) => return Err(format!("it cannot be locked: {why}")),
        }
        // the other program may have put another file there before it ended
        let held = file.metadata().map_err(|why| why.to_string())?;
        if fs::metadata(place).is_ok_and(|there| is_same(&there, &held)) {
            return Ok(Some(file));
        }
    }
}

#[cfg(test)]
mod tests {
    use super::*;

    #[test]
    fn hidden_files_that_are_removed_meanwhile_are_made_anew() {
        let folder = std::env::temp_dir().join(format!("dapohiru-hidden-{}", std::process::id()));
        fs::create_dir(&folder).unwrap();
        let place = folder.join("record");
        let (mut record, _) = RecordFile::open(place.as_os_str()).unwrap();
        for text in ["first", "second", "third", "fourth"] {
            record.write(text).unwrap();
            assert_eq!(fs::read_to_string(&place).unwrap(), text);
            let entries = fs::read_dir(&folder).unwrap().flatten();
            for hidden in entries
                .map(|entry| entry.path())
                .filter(|path| *path != place)
            {
                fs::remove_file(hidden).unwrap();
            }
        }
        drop(record);
        fs::remove_dir_all(&folder).unwrap();
    }
}
