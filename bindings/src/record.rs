//! The records of a listing.
use core::iter::FusedIterator;

/// What an entry is.
#[derive(Clone, Copy, Debug, PartialEq, Eq, Hash)]
pub enum Kind {
    /// A directory.
    Dir,
    /// A file.
    File,
    /// A device: it can be listed and deleted, and neither opened nor created.
    Device,
}

impl Kind {
    /// The kind that a byte of a record or an answer stands for.
    pub(crate) fn from_byte(byte: u8) -> Option<Kind> {
        match byte {
            0 => Some(Kind::Dir),
            1 => Some(Kind::File),
            2 => Some(Kind::Device),
            _ => None,
        }
    }
}

/// A record of a listing, with its name in the listing's buffer.
#[derive(Clone, Copy, Debug, PartialEq, Eq)]
pub struct Record<'a> {
    /// What the entry is.
    pub kind: Kind,
    /// A file's bytes; a directory's sum of 18 + name length over its entries.
    pub size: u32,
    /// The time of the last change, as the caller gave it.
    pub time: u64,
    /// 1 to 255 bytes; on a well-formed volume UTF-8 without `/` and control bytes, so that [`name_str`](Record::name_str)
    /// has it.
    pub name: &'a [u8],
}

impl<'a> Record<'a> {
    /// The name as text; none where it is not UTF-8, which a volume that passes the check never has.
    #[must_use]
    pub fn name_str(&self) -> Option<&'a str> {
        core::str::from_utf8(self.name).ok()
    }

    /// The record at the start of the bytes, and the bytes after it.
    fn split_from(bytes: &'a [u8]) -> Option<(Record<'a>, &'a [u8])> {
        let (&[kind], rest) = bytes.split_first_chunk()?;
        let (&size, rest) = rest.split_first_chunk()?;
        let (&time, rest) = rest.split_first_chunk()?;
        let (&[len], rest) = rest.split_first_chunk()?;
        let (name, rest) = rest.split_at_checked(usize::from(len))?;
        if name.is_empty() {
            return None;
        }
        let record =
            Record { kind: Kind::from_byte(kind)?, size: u32::from_be_bytes(size), time: u64::from_be_bytes(time), name };
        Some((record, rest))
    }
}

/// The records in the bytes that a listing put into its buffer, one after the other.
#[derive(Clone, Debug)]
#[must_use = "the records are read as it is walked"]
pub struct Records<'a> {
    rest: &'a [u8],
}

/// Walks the records that [`list`](crate::list) put into a buffer: give it the first [`bytes`](crate::Listed::bytes) of
/// that buffer. On bytes that no listing made, it ends where no record stands.
pub fn records(bytes: &[u8]) -> Records<'_> {
    Records { rest: bytes }
}

impl<'a> Iterator for Records<'a> {
    type Item = Record<'a>;

    fn next(&mut self) -> Option<Record<'a>> {
        let (record, rest) = Record::split_from(self.rest)?;
        self.rest = rest;
        Some(record)
    }
}

impl FusedIterator for Records<'_> {}
