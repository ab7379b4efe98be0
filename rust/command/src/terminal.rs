//! The terminal that a stream goes to.
use std::env;
use std::io::IsTerminal;
use std::os::fd::{AsFd, AsRawFd};

/// The C library's call.
mod ffi {
    use std::ffi::{c_int, c_ulong};

    /// `struct winsize`
    #[repr(C)]
    #[derive(Default)]
    pub struct Size {
        pub rows: u16,
        pub columns: u16,
        pub width: u16,
        pub height: u16,
    }

    extern "C" {
        /// `int ioctl(int file, unsigned long request, struct winsize *size)`
        pub fn ioctl(file: c_int, request: c_ulong, ...) -> c_int;
    }
}

/// Linux's request for a terminal's size.
const SIZE: std::ffi::c_ulong = 0x5413;

/// The columns of the terminal that a stream goes to: those that `COLUMNS` asks for, or those that the terminal
/// has. Nothing where the stream goes elsewhere or neither says.
pub fn columns(stream: &(impl AsFd + IsTerminal)) -> Option<usize> {
    if !stream.is_terminal() {
        return None;
    }
    let asked = env::var("COLUMNS")
        .ok()
        .and_then(|asked| asked.parse().ok());
    let columns = asked.filter(|&columns: &usize| columns > 0);
    columns
        .or_else(|| usize::from(size(stream)?.columns).into())
        .filter(|&columns| columns > 0)
}

/// The size that a terminal has.
fn size(stream: &impl AsFd) -> Option<ffi::Size> {
    let mut size = ffi::Size::default();
    let file = stream.as_fd().as_raw_fd();
    // SAFETY: the file is open while it is borrowed, and this request writes one `struct winsize` and no more.
    let done = unsafe { ffi::ioctl(file, SIZE, &mut size as *mut ffi::Size) };
    (done == 0).then_some(size)
}
