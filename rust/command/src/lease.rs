//! Whether somebody else has a file open, by a lease of it.
use std::ffi::c_int;
use std::fs::File;
use std::os::fd::AsRawFd;

extern "C" {
    /// `int fcntl(int file, int command, ...)`
    fn fcntl(file: c_int, command: c_int, ...) -> c_int;
}

/// Says which signal comes when a file under a lease is opened.
const SET_SIGNAL: c_int = 10;
/// Takes a lease, or gives it back.
const SET_LEASE: c_int = 1_024;
/// A lease that is given only where nobody else has the file open.
const WHOLE: c_int = 1;
/// No lease.
const NONE: c_int = 2;
/// A signal that is passed over.
const URGENT: c_int = 23;

/// Does something with a file, if nobody else has it open and the file system can tell. Who opens it meanwhile waits.
pub fn alone<T>(file: &File, work: impl FnOnce() -> T) -> Option<T> {
    let is_alone = call(file, SET_SIGNAL, URGENT) && call(file, SET_LEASE, WHOLE);
    let done = is_alone.then(work);
    if is_alone {
        call(file, SET_LEASE, NONE);
    }
    done
}

/// Calls `fcntl` with a number, and says whether that was done.
fn call(file: &File, command: c_int, value: c_int) -> bool {
    // SAFETY: the file is open, and both commands take a number.
    unsafe { fcntl(file.as_raw_fd(), command, value) == 0 }
}

#[cfg(test)]
mod tests {
    use super::*;
    use std::fs;

    #[test]
    fn file_that_is_open_elsewhere_is_left_alone() {
        let name = std::env::temp_dir().join(format!("dapohiru-lease-{}", std::process::id()));
        let file = File::create_new(&name).unwrap();
        assert_eq!(alone(&file, || 1), Some(1));
        let other = File::open(&name).unwrap();
        assert_eq!(alone(&file, || 2), None);
        drop(other);
        assert_eq!(alone(&file, || 3), Some(3));
        fs::remove_file(&name).unwrap();
    }
}
