//! The runtime that `main` gets: words, files and the three streams, which have no buffer.

use crate::alloc::Global;
use crate::heap::needing;
use ::std::ffi::{CStr, c_char};
use ::std::io::{self, Read, Write};
use ::std::mem::ManuallyDrop;
use ::std::os::fd::FromRawFd;
use ::std::ptr::null_mut;
use ::std::sync::atomic::{AtomicPtr, AtomicUsize, Ordering::Relaxed};

#[derive(Clone, Copy, Debug)]
pub struct HostRuntime(());

impl HostRuntime {
    /// The runtime of a test.
    pub fn new() -> HostRuntime {
        HostRuntime(())
    }

    pub fn alloc(&self) -> Global {
        Global
    }

    pub fn stdin(&self) -> Stdin {
        Stdin(())
    }

    pub fn stdout(&self) -> Stdout {
        Stdout(())
    }

    pub fn stderr(&self) -> Stderr {
        Stderr(())
    }
}

/// The number of words on the command line, and where they are.
static COUNT: AtomicUsize = AtomicUsize::new(0);
static WORDS: AtomicPtr<*const c_char> = AtomicPtr::new(null_mut());

/// Begins the program. A write to a pipe without a reader then fails, and doesn't end it.
///
/// # Safety
///
/// `count` and `words` are what C hands to `main`.
pub unsafe fn begin(count: i32, words: *const *const c_char) -> HostRuntime {
    unsafe extern "C" {
        fn signal(number: i32, how: usize) -> usize;
    }
    const SIGPIPE: i32 = 13;
    const SIG_IGN: usize = 1;
    // SAFETY: the call only ignores a signal.
    unsafe { signal(SIGPIPE, SIG_IGN) };
    COUNT.store(usize::try_from(count).unwrap_or(0), Relaxed);
    WORDS.store(words.cast_mut(), Relaxed);
    HostRuntime(())
}

pub enum FillError {
    NotPresent,
    TooLong,
}

pub trait Env {
    fn arg(&self, number: usize, into: &mut [u8]) -> Result<usize, FillError>;
}

impl Env for HostRuntime {
    fn arg(&self, number: usize, into: &mut [u8]) -> Result<usize, FillError> {
        if number >= COUNT.load(Relaxed) {
            return Err(FillError::NotPresent);
        }
        // SAFETY: `begin` was given more words than `number`.
        let word = unsafe { CStr::from_ptr(*WORDS.load(Relaxed).add(number)) }.to_bytes();
        into.get_mut(..word.len()).ok_or(FillError::TooLong)?.copy_from_slice(word);
        Ok(word.len())
    }
}

/// The status with which the program ends.
pub struct ExitCode(u8);

impl From<u8> for ExitCode {
    fn from(status: u8) -> ExitCode {
        ExitCode(status)
    }
}

impl ExitCode {
    pub fn status(self) -> i32 {
        i32::from(self.0)
    }
}

pub struct File(::std::fs::File);

impl File {
    pub fn open(_rt: &HostRuntime, name: &str) -> io::Result<File> {
        // a long name is copied
        needing(|| ::std::fs::File::open(name)).map(File)
    }
}

impl Read for File {
    fn read(&mut self, into: &mut [u8]) -> io::Result<usize> {
        self.0.read(into)
    }
}

pub struct Stdin(());
pub struct Stdout(());
pub struct Stderr(());

/// A stream as a file without a buffer, which stays open.
fn stream(number: i32) -> ManuallyDrop<::std::fs::File> {
    // SAFETY: no call here closes a stream, and a call over a closed stream fails.
    ManuallyDrop::new(unsafe { ::std::fs::File::from_raw_fd(number) })
}

impl Read for Stdin {
    fn read(&mut self, into: &mut [u8]) -> io::Result<usize> {
        stream(0).read(into)
    }
}

impl Write for Stdout {
    fn write(&mut self, bytes: &[u8]) -> io::Result<usize> {
        stream(1).write(bytes)
    }

    fn flush(&mut self) -> io::Result<()> {
        Ok(())
    }
}

impl Write for Stderr {
    fn write(&mut self, bytes: &[u8]) -> io::Result<usize> {
        stream(2).write(bytes)
    }

    fn flush(&mut self) -> io::Result<()> {
        Ok(())
    }
}
