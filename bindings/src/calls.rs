//! The calls: one safe function over each export.
//!
//! Why each `unsafe` block is sound, in the terms of [`raw`](crate::raw): a pointer with a length is that of a slice
//! with that length, and any other pointer that of a reference to the type that the export names. So none is null, also
//! where a slice is empty, and what an export writes is borrowed mutably and overlaps nothing. An export keeps no
//! pointer, never unwinds, and takes any values. That the library has exports of these parameters at all is what
//! [`same_version`] asks first.
use crate::version::same_version;
use crate::{raw, Handle, Kind, Record, Refusal, SeekFrom, BLOCK_SIZE, NAME_LEN};
use alloc::vec::Vec;

/// Bytes of the volume, of its used blocks, and the rest.
#[derive(Clone, Copy, Debug, PartialEq, Eq)]
pub struct Usage {
    /// Bytes of the volume.
    pub size: u64,
    /// Bytes of its used blocks, those before the data area among them.
    pub used: u64,
    /// The difference.
    pub free: u64,
}

/// Whether there is room for so many blocks, and what it took to tell.
#[derive(Clone, Copy, Debug, PartialEq, Eq)]
pub struct Room {
    /// Whether as many blocks are free within reach of allocation.
    pub enough: bool,
    /// Bytes of the bitmap that were read: up to the one that has the last block asked for, or all in reach.
    pub bytes: u32,
}

/// What is known of an entry.
#[derive(Clone, Debug, PartialEq, Eq)]
pub struct Info {
    /// What the entry is.
    pub kind: Kind,
    /// A file's bytes; a directory's sum of 18 + name length over its entries.
    pub size: u32,
    /// The time of the last change, as the caller gave it.
    pub time: u64,
    /// The entry's name; the root has none.
    pub name: Vec<u8>,
}

impl Info {
    /// The name as text; none where it is not UTF-8, which a volume that passes the check never has.
    #[must_use]
    pub fn name_str(&self) -> Option<&str> {
        core::str::from_utf8(&self.name).ok()
    }
}

impl From<Record<'_>> for Info {
    fn from(record: Record<'_>) -> Info {
        Info { kind: record.kind, size: record.size, time: record.time, name: record.name.to_vec() }
    }
}

/// The bytes of the records that a listing put into its buffer, and the number of the entry after them.
#[derive(Clone, Copy, Debug, PartialEq, Eq)]
pub struct Listed {
    /// Bytes of the records.
    pub bytes: usize,
    /// The number of the first entry that is not among them.
    pub next: u32,
}

/// Bytes of work buffer that are enough for any volume in an image of that many bytes.
#[must_use]
pub fn work_len(image_len: usize) -> usize {
    (image_len / BLOCK_SIZE).div_ceil(8)
}

/// What an export's number means.
fn answer<T>(number: u32, value: T) -> Result<T, Refusal> {
    match Refusal::from_number(number) {
        None => Ok(value),
        Some(refusal) => Err(refusal),
    }
}

/// Makes the whole image a volume with an empty root directory.
///
#[doc = errors!(format)]
pub fn format(image: &mut [u8], k: u32, code: u32) -> Result<(), Refusal> {
    same_version()?;
    // SAFETY: as the top of this file says.
    let number = unsafe { raw::mfs_c_format(image.as_mut_ptr(), image.len(), k, code) };
    answer(number, ())
}

/// How much of the volume is used, by the counts of its superblock.
///
#[doc = errors!(usage)]
pub fn usage(image: &[u8], k: u32, code: u32) -> Result<Usage, Refusal> {
    same_version()?;
    let mut u = Usage { size: 0, used: 0, free: 0 };
    // SAFETY: as the top of this file says.
    let number = unsafe { raw::mfs_c_usage(image.as_ptr(), image.len(), k, code, &mut u.size, &mut u.used, &mut u.free) };
    answer(number, u)
}

/// Whether so many blocks are free within reach of allocation. The bitmap is read no further than it takes to tell.
///
#[doc = errors!(room)]
pub fn room(image: &[u8], k: u32, code: u32, count: u32) -> Result<Room, Refusal> {
    same_version()?;
    let (mut enough, mut bytes) = (0, 0);
    // SAFETY: as the top of this file says.
    let number = unsafe { raw::mfs_c_room(image.as_ptr(), image.len(), k, code, count, &mut enough, &mut bytes) };
    answer(number, Room { enough: enough == 1, bytes })
}

/// Whether the image is a well-formed volume.
///
#[doc = errors!(check)]
pub fn check(image: &[u8], k: u32, code: u32, work: &mut [u8]) -> Result<(), Refusal> {
    same_version()?;
    // SAFETY: as the top of this file says.
    let number = unsafe { raw::mfs_c_check(image.as_ptr(), image.len(), k, code, work.as_mut_ptr(), work.len()) };
    answer(number, ())
}

/// Opens the file at a path, at position 0.
///
#[doc = errors!(open)]
pub fn open(image: &[u8], k: u32, code: u32, cwd: &[u8], path: &[u8]) -> Result<Handle, Refusal> {
    same_version()?;
    let mut h = Handle::empty();
    // SAFETY: as the top of this file says.
    let number = unsafe {
        raw::mfs_c_open(
            image.as_ptr(),
            image.len(),
            k,
            code,
            cwd.as_ptr(),
            cwd.len(),
            path.as_ptr(),
            path.len(),
            &mut h.number,
            &mut h.name,
            &mut h.len,
        )
    };
    answer(number, h)
}

/// Kind, size, time and name of what stands at a path; `/` itself is the root, with time 0 and no name.
///
#[doc = errors!(info)]
pub fn info(image: &[u8], k: u32, code: u32, cwd: &[u8], path: &[u8]) -> Result<Info, Refusal> {
    same_version()?;
    let (mut kind, mut size, mut time) = (0u8, 0u32, 0u64);
    let (mut name, mut len) = ([0u8; NAME_LEN], 0usize);
    // SAFETY: as the top of this file says.
    let number = unsafe {
        raw::mfs_c_info(
            image.as_ptr(),
            image.len(),
            k,
            code,
            cwd.as_ptr(),
            cwd.len(),
            path.as_ptr(),
            path.len(),
            &mut kind,
            &mut size,
            &mut time,
            &mut name,
            &mut len,
        )
    };
    answer(number, ())?;
    // The export answers 0, 1 or 2.
    let kind = Kind::from_byte(kind).ok_or(Refusal::Damaged)?;
    Ok(Info { kind, size, time, name: name[..len].to_vec() })
}

/// Lists the directory at a path from entry number `from` on, counted from 0.
///
/// Records are put into the buffer as long as all of them together are shorter than it; the rest of it stays.
/// [`records`](crate::records) walks them. A record is kind (1 byte), size (4), time (8), name length (1) and name,
/// with numbers big-endian.
///
/// With no entry left, the answer has 0 bytes and `from`. A buffer that is too short for the next record gets that same
/// answer: with fewer than [`LIST_LEN_MIN`](crate::LIST_LEN_MIN) bytes, 0 bytes are the end or a longer name. With as
/// many or more, any record fits, and 0 bytes are the end.
///
#[doc = errors!(list)]
pub fn list(image: &[u8], k: u32, code: u32, cwd: &[u8], path: &[u8], from: u32, buf: &mut [u8]) -> Result<Listed, Refusal> {
    same_version()?;
    let mut l = Listed { bytes: 0, next: 0 };
    // SAFETY: as the top of this file says.
    let number = unsafe {
        raw::mfs_c_list(
            image.as_ptr(),
            image.len(),
            k,
            code,
            cwd.as_ptr(),
            cwd.len(),
            path.as_ptr(),
            path.len(),
            from,
            buf.as_mut_ptr(),
            buf.len(),
            &mut l.bytes,
            &mut l.next,
        )
    };
    answer(number, l)
}

/// Reads from the handle's position on, as many bytes as the buffer has room for and the file has; the rest of the
/// buffer stays. The answer counts the bytes, and is 0 at the file's end.
///
#[doc = errors!(read)]
pub fn read(image: &[u8], k: u32, code: u32, handle: &mut Handle, buf: &mut [u8]) -> Result<usize, Refusal> {
    same_version()?;
    let mut bytes = 0usize;
    // SAFETY: as the top of this file says.
    let number = unsafe {
        raw::mfs_c_read(
            image.as_ptr(),
            image.len(),
            k,
            code,
            &mut handle.number,
            &handle.name,
            handle.len,
            buf.as_mut_ptr(),
            buf.len(),
            &mut bytes,
        )
    };
    answer(number, bytes)
}

/// Moves the handle's position, within 0 to its size. The image is not looked at.
///
#[doc = errors!(seek)]
pub fn seek(handle: &mut Handle, from: SeekFrom) -> Result<(), Refusal> {
    same_version()?;
    let Handle { number, name, len } = handle;
    // SAFETY: as the top of this file says.
    let number = unsafe {
        match from {
            SeekFrom::Start(to) => raw::mfs_c_seek_start(number, name, *len, to),
            SeekFrom::Current(by) => raw::mfs_c_seek_current(number, name, *len, by),
            SeekFrom::End(by) => raw::mfs_c_seek_end(number, name, *len, by),
        }
    };
    answer(number, ())
}

/// Creates a file of 0 bytes at a path, and opens it. The holding directory's own entry gets its new size and the time.
///
#[doc = errors!(create_file)]
pub fn create_file(
    image: &mut [u8],
    k: u32,
    code: u32,
    cwd: &[u8],
    path: &[u8],
    time: u64,
    work: &mut [u8],
) -> Result<Handle, Refusal> {
    same_version()?;
    let mut h = Handle::empty();
    // SAFETY: as the top of this file says.
    let number = unsafe {
        raw::mfs_c_create_file(
            image.as_mut_ptr(),
            image.len(),
            k,
            code,
            cwd.as_ptr(),
            cwd.len(),
            path.as_ptr(),
            path.len(),
            time,
            work.as_mut_ptr(),
            work.len(),
            &mut h.number,
            &mut h.name,
            &mut h.len,
        )
    };
    answer(number, h)
}

/// Creates an empty directory at a path. The holding directory's own entry gets its new size and the time.
///
#[doc = errors!(create_dir)]
pub fn create_dir(
    image: &mut [u8],
    k: u32,
    code: u32,
    cwd: &[u8],
    path: &[u8],
    time: u64,
    work: &mut [u8],
) -> Result<(), Refusal> {
    same_version()?;
    // SAFETY: as the top of this file says.
    let number = unsafe {
        raw::mfs_c_create_dir(
            image.as_mut_ptr(),
            image.len(),
            k,
            code,
            cwd.as_ptr(),
            cwd.len(),
            path.as_ptr(),
            path.len(),
            time,
            work.as_mut_ptr(),
            work.len(),
        )
    };
    answer(number, ())
}

/// Deletes the file, the device or the empty directory at a path. The holding directory's own entry gets its new size
/// and the time.
///
#[doc = errors!(delete)]
pub fn delete(image: &mut [u8], k: u32, code: u32, cwd: &[u8], path: &[u8], time: u64, work: &mut [u8]) -> Result<(), Refusal> {
    same_version()?;
    // SAFETY: as the top of this file says.
    let number = unsafe {
        raw::mfs_c_delete(
            image.as_mut_ptr(),
            image.len(),
            k,
            code,
            cwd.as_ptr(),
            cwd.len(),
            path.as_ptr(),
            path.len(),
            time,
            work.as_mut_ptr(),
            work.len(),
        )
    };
    answer(number, ())
}

/// Writes all of the buffer at the handle's position, or nothing. The file ends behind it: bytes that followed are
/// gone. The answer counts the bytes. Other handles on the file are stale from then on if its size has changed; if it
/// has not, they stay current.
///
#[doc = errors!(write)]
pub fn write(
    image: &mut [u8],
    k: u32,
    code: u32,
    handle: &mut Handle,
    buf: &[u8],
    time: u64,
    work: &mut [u8],
) -> Result<usize, Refusal> {
    same_version()?;
    let mut bytes = 0usize;
    // SAFETY: as the top of this file says.
    let number = unsafe {
        raw::mfs_c_write(
            image.as_mut_ptr(),
            image.len(),
            k,
            code,
            &mut handle.number,
            &handle.name,
            handle.len,
            buf.as_ptr(),
            buf.len(),
            time,
            work.as_mut_ptr(),
            work.len(),
            &mut bytes,
        )
    };
    answer(number, bytes)
}

/// Puts all of the buffer over bytes that the file has already, from the handle's position on, or nothing. Its size, its
/// blocks and its other bytes stay; the position moves behind the buffer, and the entry gets the time. The answer counts
/// the bytes. Every other handle on the file that was current stays current.
///
#[doc = errors!(patch)]
pub fn patch(
    image: &mut [u8],
    k: u32,
    code: u32,
    handle: &mut Handle,
    buf: &[u8],
    time: u64,
    work: &mut [u8],
) -> Result<usize, Refusal> {
    same_version()?;
    let mut bytes = 0usize;
    // SAFETY: as the top of this file says.
    let number = unsafe {
        raw::mfs_c_patch(
            image.as_mut_ptr(),
            image.len(),
            k,
            code,
            &mut handle.number,
            &handle.name,
            handle.len,
            buf.as_ptr(),
            buf.len(),
            time,
            work.as_mut_ptr(),
            work.len(),
            &mut bytes,
        )
    };
    answer(number, bytes)
}
