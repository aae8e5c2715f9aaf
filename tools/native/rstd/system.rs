//! What a program is given: its words and its standard streams, each call as the system answers it.

use crate::alloc::{AllocError, Global};
use std::os::raw::c_char;

/// What the system gives to a program: its words, and the streams below.
pub struct HostRuntime {
    words: &'static [*const c_char],
}

impl HostRuntime {
    pub fn alloc(&self) -> Global {
        Global
    }
    pub fn stdin(&self) -> io::Stream {
        io::Stream(0)
    }
    pub fn stdout(&self) -> io::Stream {
        io::Stream(1)
    }
    pub fn stderr(&self) -> io::Stream {
        io::Stream(2)
    }
}

extern "C" {
    fn signal(number: i32, action: usize) -> usize;
}
const SIGPIPE: i32 = 13;
const IGNORE: usize = 1;

/// Starts a program on what the C library gives to `main`. Rust's own start isn't used, since it opens streams that are
/// closed, and a fault of such a stream is told here. A write that nobody reads fails, and ends no program.
///
/// # Safety
///
/// `words` has as many texts as `count` says, each with a zero behind it.
pub unsafe fn start(
    count: i32,
    words: *const *const c_char,
    program: fn(HostRuntime) -> process::ExitCode,
) -> i32 {
    signal(SIGPIPE, IGNORE);
    // They stay where they are as long as the process does.
    let words = std::slice::from_raw_parts(words, usize::try_from(count).unwrap_or(0));
    program(HostRuntime { words }).0
}

pub mod process {
    /// The number that a process exits with.
    pub struct ExitCode(pub(super) i32);
    impl From<u8> for ExitCode {
        fn from(code: u8) -> Self {
            ExitCode(i32::from(code))
        }
    }
}

pub mod env {
    use super::{c_char, io, Global, HostRuntime};
    use crate::vec::Vec;
    /// The text of a word.
    fn text_of(word: *const c_char) -> io::Result<String> {
        let bytes = unsafe { std::ffi::CStr::from_ptr(word) }.to_bytes();
        String::from_utf8(Vec::from_slice(Global, bytes)?.0)
            .map_err(|_| io::Error::from(io::ErrorKind::InvalidData))
    }
    /// The program's name and its words. One that isn't text is an error.
    pub fn args(rt: &HostRuntime) -> io::Result<std::vec::IntoIter<String>> {
        let mut words = Vec::with_capacity(Global, rt.words.len())?;
        for word in rt.words {
            words.push(text_of(*word)?)?;
        }
        Ok(words.into_iter())
    }
}

pub mod io {
    pub use std::io::{Error, ErrorKind, Read, Result, Write};

    extern "C" {
        fn read(stream: i32, bytes: *mut u8, count: usize) -> isize;
        fn write(stream: i32, bytes: *const u8, count: usize) -> isize;
        fn isatty(stream: i32) -> i32;
    }

    /// A standard stream, by its number. Each call is one of the system, and nothing is kept between two.
    #[derive(Clone, Copy)]
    pub struct Stream(pub(super) i32);

    fn answer(count: isize) -> Result<usize> {
        usize::try_from(count).map_err(|_| Error::last_os_error())
    }

    impl Read for Stream {
        fn read(&mut self, bytes: &mut [u8]) -> Result<usize> {
            answer(unsafe { read(self.0, bytes.as_mut_ptr(), bytes.len()) })
        }
    }

    impl Write for Stream {
        fn write(&mut self, bytes: &[u8]) -> Result<usize> {
            answer(unsafe { write(self.0, bytes.as_ptr(), bytes.len()) })
        }
        fn flush(&mut self) -> Result<()> {
            Ok(())
        }
    }

    pub trait IsTerminal {
        fn is_terminal(&self) -> bool;
    }

    impl IsTerminal for Stream {
        fn is_terminal(&self) -> bool {
            unsafe { isatty(self.0) == 1 }
        }
    }
}

impl From<AllocError> for io::Error {
    fn from(_: AllocError) -> Self {
        io::Error::from(io::ErrorKind::OutOfMemory)
    }
}
