//! An image's file as a slice of bytes: pages are read when they are looked at, so that a large card needs little memory.
use crate::host;
use std::fs::File;
use std::io;
use std::ops::{Deref, DerefMut};

/// A mapping of a file that is only read.
pub struct ReadOnly(Pages);

/// A private mapping: what is written into it is a copy, page by page, and never reaches the file.
pub struct Private(Pages);

struct Pages {
    /// None for an empty file, of which the host maps nothing.
    at: Option<*mut u8>,
    len: usize,
}

impl Pages {
    fn of(file: &File, len: usize, writable: bool) -> io::Result<Pages> {
        let at = if len == 0 { None } else { Some(host::map(file, len, writable)?) };
        Ok(Pages { at, len })
    }

    fn bytes(&self) -> &[u8] {
        match self.at {
            // SAFETY: the mapping is as long as that, readable, and lasts until the drop. The lock keeps other runs of this tool
            // from changing the file below it.
            Some(at) => unsafe { std::slice::from_raw_parts(at, self.len) },
            None => &[],
        }
    }
}

impl Drop for Pages {
    fn drop(&mut self) {
        if let Some(at) = self.at {
            // SAFETY: made by `of`, and every borrow ends before the drop.
            unsafe { host::unmap(at, self.len) };
        }
    }
}

impl ReadOnly {
    pub fn of(file: &File, len: usize) -> io::Result<ReadOnly> {
        Pages::of(file, len, false).map(ReadOnly)
    }
}

impl Private {
    pub fn of(file: &File, len: usize) -> io::Result<Private> {
        Pages::of(file, len, true).map(Private)
    }
}

impl Deref for ReadOnly {
    type Target = [u8];

    fn deref(&self) -> &[u8] {
        self.0.bytes()
    }
}

impl Deref for Private {
    type Target = [u8];

    fn deref(&self) -> &[u8] {
        self.0.bytes()
    }
}

impl DerefMut for Private {
    fn deref_mut(&mut self) -> &mut [u8] {
        match self.0.at {
            // SAFETY: as for reading; the mapping is writable, private to this process, and borrowed mutably.
            Some(at) => unsafe { std::slice::from_raw_parts_mut(at, self.0.len) },
            None => &mut [],
        }
    }
}
