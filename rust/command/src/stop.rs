//! A stop that a signal asks for: what is under way is finished, and nothing more is begun.
use std::io::{self, PipeReader};
use std::os::fd::{AsFd, AsRawFd, BorrowedFd, IntoRawFd};
use std::sync::atomic::{AtomicI32, AtomicU64, Ordering};
use std::time::{Duration, SystemTime};

/// The C library's calls.
mod ffi {
    /// `struct pollfd`: an open file, what is waited for, and what was found.
    #[repr(C)]
    pub struct Polled {
        pub file: i32,
        pub wanted: i16,
        pub found: i16,
    }

    extern "C" {
        /// `void (*signal(int number, void (*handler)(int)))(int)`
        pub fn signal(number: i32, handler: usize) -> usize;
        /// `int raise(int number)`
        pub fn raise(number: i32) -> i32;
        /// `ssize_t write(int file, const void *bytes, size_t count)`
        pub fn write(file: i32, bytes: *const u8, count: usize) -> isize;
        /// `int poll(struct pollfd *files, nfds_t count, int milliseconds)`
        pub fn poll(files: *mut Polled, count: std::ffi::c_ulong, milliseconds: i32) -> i32;
    }
}

/// The handler that ends the program, and the one that ignores the signal.
const DEFAULT: usize = 0;
const IGNORE: usize = 1;

/// Hang up, interrupt and terminate.
const SIGNALS: [i32; 3] = [1, 2, 15];

/// That there is something to read.
const READABLE: i16 = 1;

/// For so many milliseconds after a stop further signals are taken for the same one: some programs send it twice.
const SAME: u64 = 1_000;

/// When the stop was asked for, in milliseconds since 1970; 0 before that.
static ASKED: AtomicU64 = AtomicU64::new(0);

/// The pipe that a stop writes a byte to, if there is one.
static PIPE: AtomicI32 = AtomicI32::new(-1);

/// Notes the stop; another one, a second or more after it, ends the program at once.
extern "C" fn noted(number: i32) {
    let now = SystemTime::now().duration_since(SystemTime::UNIX_EPOCH);
    let now = now.map_or(1, |now| now.as_millis() as u64);
    let (set, order) = (Ordering::SeqCst, Ordering::SeqCst);
    match ASKED.compare_exchange(0, now, set, order) {
        Ok(_) => tell(PIPE.load(order)),
        Err(first) if now.abs_diff(first) >= SAME => {
            handle(number, DEFAULT);
            // SAFETY: the signal is held back until the handler returns, and then ends the program.
            unsafe { ffi::raise(number) };
        }
        Err(_) => {}
    }
}

/// Writes a byte to a pipe, if there is one.
fn tell(pipe: i32) {
    if pipe >= 0 {
        // SAFETY: one byte of a constant, which an empty pipe takes at once.
        unsafe { ffi::write(pipe, b"!".as_ptr(), 1) };
    }
}

/// Sets the handler of a signal, and gives the one before it.
fn handle(number: i32, handler: usize) -> usize {
    // SAFETY: the handler is one of the two constants or `noted`, which reads the clock, stores a number and calls
    // `write`, `signal` and `raise`; all are allowed in a handler.
    unsafe { ffi::signal(number, handler) }
}

/// Notes stops from here on, except those that the caller ignores.
pub fn listen() {
    for number in SIGNALS {
        if handle(number, noted as extern "C" fn(i32) as usize) == IGNORE {
            handle(number, IGNORE);
        }
    }
}

/// Whether a stop was asked for.
pub fn asked() -> bool {
    ASKED.load(Ordering::SeqCst) > 0
}

/// A wait for input that a stop ends too.
pub struct Wait(PipeReader);

impl Wait {
    /// Notes stops from here on, also those that come while input is waited for.
    pub fn listen() -> io::Result<Self> {
        let (reader, writer) = io::pipe()?;
        PIPE.store(writer.into_raw_fd(), Ordering::SeqCst);
        listen();
        Ok(Wait(reader))
    }

    /// Waits for something to read or a stop, and says whether no stop was asked for.
    pub fn for_input(&self, input: BorrowedFd) -> io::Result<bool> {
        while !asked() {
            if polled([input, self.0.as_fd()], -1)? {
                return Ok(!asked());
            }
        }
        Ok(false)
    }

    /// Whether there is something to read or a stop within this time, which is some seconds at most.
    pub fn ends_within(&self, input: BorrowedFd, time: Duration) -> io::Result<bool> {
        polled([input, self.0.as_fd()], time.as_millis() as i32 + 1)
    }
}

/// Waits for so many milliseconds, or without an end, until one of the files can be read; a signal ends the wait.
fn polled(files: [BorrowedFd; 2], milliseconds: i32) -> io::Result<bool> {
    let mut files = files.map(|file| ffi::Polled {
        file: file.as_raw_fd(),
        wanted: READABLE,
        found: 0,
    });
    // SAFETY: the pointer and the count are of one array, which nothing else holds during the call.
    match unsafe { ffi::poll(files.as_mut_ptr(), 2, milliseconds) } {
        -1 => match io::Error::last_os_error() {
            why if why.kind() == io::ErrorKind::Interrupted => Ok(false),
            why => Err(why),
        },
        count => Ok(count > 0),
    }
}
