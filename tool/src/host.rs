//! The few calls of the host's C library that the standard library does not offer.
use std::ffi::{c_int, c_void};
use std::fs::File;
use std::io;
use std::os::fd::AsRawFd;

#[cfg(not(all(target_os = "linux", target_pointer_width = "64")))]
compile_error!("the numbers and widths below are those of 64-bit Linux");

extern "C" {
    fn flock(fd: c_int, operation: c_int) -> c_int;
    fn signal(number: c_int, handler: usize) -> usize;
    fn lseek(fd: c_int, offset: i64, whence: c_int) -> i64;
    fn mmap(at: *mut c_void, len: usize, protection: c_int, flags: c_int, fd: c_int, offset: i64) -> *mut c_void;
    fn munmap(at: *mut c_void, len: usize) -> c_int;
}

const LOCK_SH: c_int = 1;
const LOCK_EX: c_int = 2;
const LOCK_NB: c_int = 4;
const SIGPIPE: c_int = 13;
const SEEK_DATA: c_int = 3;
const PROT_READ: c_int = 1;
const PROT_WRITE: c_int = 2;
const MAP_PRIVATE: c_int = 2;
/// The host sets no memory aside for pages that may never be written: a 4 GiB card is mapped where 4 GiB are not to be had.
const MAP_NORESERVE: c_int = 0x4000;

/// `mfs ls ... | head` ends quietly, as other tools do. A change that dies so is rolled back by the next run.
pub fn die_of_closed_pipes() {
    // SAFETY: 0 is the host's own handler, and no other thread runs yet.
    unsafe { signal(SIGPIPE, 0) };
}

#[derive(Clone, Copy, PartialEq, Eq)]
pub enum Hold {
    /// With other readers.
    Shared,
    /// Alone.
    Alone,
}

/// Locks a file, which lasts until it is closed. Answers false where another holds it and `wait` is false.
pub fn lock(file: &File, hold: Hold, wait: bool) -> io::Result<bool> {
    let kind = if hold == Hold::Alone { LOCK_EX } else { LOCK_SH };
    loop {
        // SAFETY: the descriptor is open as long as the file is borrowed.
        if unsafe { flock(file.as_raw_fd(), if wait { kind } else { kind | LOCK_NB }) } == 0 {
            return Ok(true);
        }
        let error = io::Error::last_os_error();
        match error.kind() {
            io::ErrorKind::Interrupted => {}
            io::ErrorKind::WouldBlock => return Ok(false),
            _ => return Err(error),
        }
    }
}

/// Where the next bytes stand that the host has stored, at or after `offset`: holes of a sparse file are passed over. None after
/// the last of them. A host that knows no holes answers `offset` itself.
pub fn next_data(file: &File, offset: u64) -> Option<u64> {
    // SAFETY: the descriptor is open as long as the file is borrowed.
    let found = unsafe { lseek(file.as_raw_fd(), offset as i64, SEEK_DATA) };
    if let Ok(found) = u64::try_from(found) {
        return Some(found);
    }
    let no_more_data = io::Error::last_os_error().raw_os_error() == Some(6); // ENXIO
    (!no_more_data).then_some(offset)
}

/// Maps the first `len` bytes of a file, of which there must be one, for reading or for private writing.
pub fn map(file: &File, len: usize, writable: bool) -> io::Result<*mut u8> {
    let protection = if writable { PROT_READ | PROT_WRITE } else { PROT_READ };
    // SAFETY: the host chooses the place, so nothing that exists is mapped over.
    let at = unsafe { mmap(std::ptr::null_mut(), len, protection, MAP_PRIVATE | MAP_NORESERVE, file.as_raw_fd(), 0) };
    if at as isize == -1 {
        return Err(io::Error::last_os_error());
    }
    Ok(at.cast())
}

/// Undoes `map`.
///
/// # Safety
/// `at` and `len` are those of one `map`, and nothing borrows from it.
pub unsafe fn unmap(at: *mut u8, len: usize) {
    // SAFETY: what the caller says.
    unsafe { munmap(at.cast(), len) };
}
