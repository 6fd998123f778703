//! What Rust's library does not tell of the system.

use std::ffi::{c_int, c_ulong};
use std::os::fd::{AsFd, AsRawFd};
use std::sync::atomic::{AtomicBool, Ordering};

extern "C" {
    fn ioctl(fd: c_int, request: c_ulong, ...) -> c_int;
    fn fcntl(fd: c_int, command: c_int, ...) -> c_int;
}

/// Linux's number for the question how large a terminal is.
const TIOCGWINSZ: c_ulong = 0x5413;

/// The number for the question which flags a descriptor has.
const F_GETFD: c_int = 1;

/// Its answer: rows, columns, and two numbers that are not used.
#[repr(C)]
#[derive(Default)]
struct Size {
    rows: u16,
    columns: u16,
    unused: [u16; 2],
}

/// The columns of the terminal that a stream goes to, if it says.
pub fn columns(stream: &impl AsFd) -> Option<usize> {
    let mut size = Size::default();
    // SAFETY: the request writes four numbers of 16 bits, which is what it is lent.
    let answer = unsafe { ioctl(stream.as_fd().as_raw_fd(), TIOCGWINSZ, &mut size) };
    (answer == 0 && size.columns > 0).then_some(usize::from(size.columns))
}

static IS_STDIN_CLOSED: AtomicBool = AtomicBool::new(false);
static IS_STDOUT_CLOSED: AtomicBool = AtomicBool::new(false);

/// Looks at standard input and output before Rust's library does, which opens one that is closed as an
/// empty file.
extern "C" fn look_at_streams() {
    for (stream, is_closed) in [(0, &IS_STDIN_CLOSED), (1, &IS_STDOUT_CLOSED)] {
        // SAFETY: the question takes nothing and changes nothing.
        let answer = unsafe { fcntl(stream, F_GETFD) };
        is_closed.store(answer < 0, Ordering::Relaxed);
    }
}

/// The system calls what this section names before the program begins.
#[used]
#[link_section = ".init_array"]
static LOOK_AT_STREAMS: extern "C" fn() = look_at_streams;

/// Whether the command was started with its standard input closed.
pub fn is_stdin_closed() -> bool {
    IS_STDIN_CLOSED.load(Ordering::Relaxed)
}

/// Whether the command was started with its standard output closed.
pub fn is_stdout_closed() -> bool {
    IS_STDOUT_CLOSED.load(Ordering::Relaxed)
}
