//! Open files.
use crate::{Refusal, NAME_LEN};

/// An open file. It keeps no borrow of the image and holds nothing open: it may be copied, kept for long and dropped.
///
/// A call looks for the handle's file anew: in the handle's directory, a file of the handle's name, first address and
/// size. Where there is none the call is refused ([`Refusal::Stale`]): the file was deleted, or another handle's write
/// gave it another size. Where there is one the handle is current. So it stays current when another handle rewrites the
/// file's bytes and leaves its size, and it becomes current again when name, first address and size have all come back.
#[derive(Clone, Debug, PartialEq, Eq)]
pub struct Handle {
    /// Directory's first address, file's first address, size, position.
    pub(crate) number: [u32; 4],
    pub(crate) name: [u8; NAME_LEN],
    pub(crate) len: usize,
}

/// Where a seek goes.
#[derive(Clone, Copy, Debug, PartialEq, Eq)]
pub enum SeekFrom {
    /// To that byte.
    Start(u32),
    /// By that many bytes from the position.
    Current(i32),
    /// By that many bytes from the file's end: 0 or below.
    End(i32),
}

impl Handle {
    /// A handle from its parts, any of which may be wrong: a call with it is then refused. `len` counts the name's bytes.
    #[must_use]
    pub fn from_parts(dir: u32, addr: u32, size: u32, position: u32, name: [u8; NAME_LEN], len: usize) -> Handle {
        Handle { number: [dir, addr, size, position], name, len }
    }

    /// What a call that opens a file fills in.
    pub(crate) fn empty() -> Handle {
        Handle { number: [0; 4], name: [0; NAME_LEN], len: 0 }
    }

    /// The first address of the directory that holds the file.
    #[must_use]
    pub fn dir(&self) -> u32 {
        self.number[0]
    }

    /// The file's first address.
    #[must_use]
    pub fn addr(&self) -> u32 {
        self.number[1]
    }

    /// The file's size in bytes.
    #[must_use]
    pub fn size(&self) -> u32 {
        self.number[2]
    }

    /// Where the next read or write begins.
    #[must_use]
    pub fn position(&self) -> u32 {
        self.number[3]
    }

    /// The file's name.
    #[must_use]
    pub fn name(&self) -> &[u8] {
        // from_parts takes any length.
        &self.name[..self.len.min(NAME_LEN)]
    }

    /// Moves the position, within 0 to the size: [`seek`](crate::seek) as a method.
    ///
    #[doc = errors!(seek)]
    pub fn seek(&mut self, from: SeekFrom) -> Result<(), Refusal> {
        crate::seek(self, from)
    }
}
