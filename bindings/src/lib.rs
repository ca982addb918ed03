//! A proved MFS file system on a lent image of blocks of 512 or 1,024 bytes: safe Rust over the exports of `libmfs_c.a`.
//!
//! ```
//! use mfs::{Refusal, SeekFrom, Volume};
//!
//! fn main() -> Result<(), Refusal> {
//!     let mut image = vec![0; 4200 * mfs::BLOCK_SIZE];
//!     let mut volume = Volume::format(&mut image, 8, mfs::CODE_512)?;
//!
//!     let mut water = volume.create_file("/water", 1_700_000_000)?;
//!     volume.write(&mut water, b"00000041", 1_700_000_060)?;
//!     water.seek(SeekFrom::Start(0))?;
//!     let mut text = [0; 8];
//!     let bytes = volume.read(&mut water, &mut text)?;
//!     assert_eq!(&text[..bytes], b"00000041");
//!
//!     assert_eq!(volume.open("/gas"), Err(Refusal::NotFound));
//!     volume.check()
//! }
//! ```
//!
//! [`Volume`] makes its own work buffer and takes paths as strings or bytes; [`VolumeRef`] is the same for an image
//! that is only read, and
#![cfg_attr(feature = "std", doc = "[`File`] is a file with `Read`, `Seek` and `Write`.")]
#![cfg_attr(not(feature = "std"), doc = "with the feature `std` there is a file with `Read`, `Seek` and `Write`.")]
//! The functions of the crate, one for each call, take all they need as slices and allocate nothing but a name in [`info`].
//!
//! # What holds for every call
//!
//! - Every image, path, handle and buffer gets an answer; no call panics on what it is given, and nothing has to be
//!   tested beforehand. Where several refusals apply, the first in the order of the call's list is given.
//! - A refusal changes neither image nor handle nor buffer, but for the work buffer.
//! - The check and the calls that change a volume look at the whole of it first, and mark blocks in a lent work buffer,
//!   one bit a block: [`work_len`] says how many bytes are always enough. With n blocks in the volume and D the first
//!   of its data area, ceil((n - D) / 8) bytes are used. They are zero after a call that reached the check, and
//!   untouched after one that was refused before (1, 2, 3, 16). The bytes behind them are never touched.
//! - A path that starts with `/` is a full path; another one is taken from the working directory, which must start with
//!   `/` then. Which bytes it may have, [`Refusal::BadPath`] says. `.` and `..` are plain names. Slashes at the end are
//!   dropped, but not in a listing.
//! - `k` is the number of the superblock's block (8,192 in MOROS itself). Blocks below it and the one after it are never touched.
//! - `code` is the code of the block size, in which `k` and every address count: [`CODE_512`] or [`CODE_1024`]. The superblock
//!   cannot be found without it, so any other is refused before all else ([`Refusal::NotMfs`]).
//! - A time is the caller's number; it is stored and never looked at.
//! - On a volume of fewer than 4,096 blocks, or 8,192 of 1,024 bytes, nothing can be created ([`Refusal::NoRoom`]).
//! - The limits are [`IMAGE_BLOCKS`], [`NAME_LEN`], [`PATH_LEN`], [`FILE_LEN`] and [`DEPTH`].
//! - At the first call the version of the library's exports is compared with the one that these bindings call,
//!   [`EXPORTS_VERSION`]. Where it is another, every call answers [`Refusal::OtherVersion`], and no other export is
//!   called.
//!
//! # Where the image is kept
//!
//! The whole image is one slice: a buffer, or a mapping of the file or the device. A call changes the slice and stores
//! nothing elsewhere; to bring the changed blocks to a device is the caller's part. **A power cut in the middle of
//! that** can leave some of them stored and others not. After a create, a delete, or a write that adds or frees blocks,
//! the volume may then be one that [`check`] refuses, and so every changing call ([`Refusal::Damaged`]); the bytes of
//! the other files stand. Where that must not happen, keep what the changed blocks held (a copy of the image, or a log
//! of them beside it) until all are stored, and put it back after a cut. [`patch`] needs none of that: with any of its
//! blocks stored and the others not, the volume is well formed, and nothing but the patched bytes and the time in the
//! entry may be either the old or the new ones.
//!
//! # Features
//!
//! `std`, on by default: `std::io`'s traits for files, and [`Refusal`] as a `std::io::Error`. Without it the crate is
//! `no_std` and wants `alloc`.
#![no_std]
#![warn(missing_docs)]

extern crate alloc;
#[cfg(feature = "std")]
extern crate std;

// So that the program in README.md is compiled and run with the tests.
#[cfg(all(doctest, feature = "std"))]
#[doc = include_str!("../README.md")]
mod readme {}

#[macro_use]
mod errors;
mod calls;
mod entries;
#[cfg(feature = "std")]
mod file;
mod handle;
pub mod raw;
mod record;
mod refusal;
mod version;
mod view;
mod volume;

pub use calls::{
    check, create_dir, create_file, delete, format, info, list, open, patch, read, room, seek, usage, work_len, write, Info,
    Listed, Room, Usage,
};
pub use entries::{Entries, Walk, Walked};
#[cfg(feature = "std")]
pub use file::{File, Source};
pub use handle::{Handle, SeekFrom};
pub use record::{records, Kind, Record, Records};
pub use refusal::Refusal;
pub use version::EXPORTS_VERSION;
pub use view::VolumeRef;
pub use volume::Volume;

/// The size code of blocks of 512 bytes.
pub const CODE_512: u32 = 0;
/// The size code of blocks of 1,024 bytes.
///
/// ```
/// # fn main() -> Result<(), mfs::Refusal> {
/// let mut image = vec![0; 8300 * 1024];
/// let mut volume = mfs::Volume::format(&mut image, 8, mfs::CODE_1024)?;
/// volume.write_file("/water", &[0; 1021], 1_700_000_000)?;
/// // 12 blocks before the data area, the root's, and two for the file: a block has room for 1,020 of its bytes.
/// assert_eq!(volume.usage()?.used, 15 * 1024);
/// // Without its size code the card is none.
/// let other = mfs::VolumeRef::new(&image, 8, mfs::CODE_512);
/// assert_eq!(other.check(), Err(mfs::Refusal::NotMfs));
/// # Ok(())
/// # }
/// ```
pub const CODE_1024: u32 = 1;
/// Bytes of a block of code 0.
pub const BLOCK_SIZE: usize = 512;
/// Such blocks of the largest image: 4 GiB, with any code.
pub const IMAGE_BLOCKS: usize = 8_388_608;
/// Bytes of the longest name.
pub const NAME_LEN: usize = 255;
/// Bytes of the longest full path, working directory included.
pub const PATH_LEN: usize = 1024;
/// Bytes of the largest file.
pub const FILE_LEN: u32 = 2_147_483_647;
/// Depth of the deepest directory; the root is at 0.
pub const DEPTH: usize = 16;
/// Bytes of a buffer for [`list`](list()) that has room for any one record: 14, the longest name, and one that stays free.
pub const LIST_LEN_MIN: usize = 14 + NAME_LEN + 1;
