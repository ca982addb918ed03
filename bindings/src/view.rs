//! A volume that is only read.
use crate::{work_len, Entries, Handle, Info, Refusal, Room, Usage, Walk};
use alloc::vec;
use alloc::vec::Vec;
use core::fmt;

/// A volume in an image that is only read: a slice of a mapped file, of a flash, of a buffer. It is a few words long,
/// is copied at will, and has every call that changes nothing. Paths are strings or bytes; those that do not start with
/// `/` are taken from its working directory.
///
/// ```
/// # fn main() -> Result<(), mfs::Refusal> {
/// # let mut image = vec![0; 4200 * mfs::BLOCK_SIZE];
/// # mfs::Volume::format(&mut image, 8, mfs::CODE_512)?.write_file("/water", b"00000041", 0)?;
/// let volume = mfs::VolumeRef::new(&image, 8, mfs::CODE_512);
/// assert_eq!(volume.read_file("/water")?, b"00000041");
/// assert!(!volume.exists("/gas")?);
/// # Ok(())
/// # }
/// ```
#[derive(Clone, Copy)]
pub struct VolumeRef<'a> {
    image: &'a [u8],
    k: u32,
    code: u32,
    cwd: &'a str,
}

impl<'a> VolumeRef<'a> {
    /// The volume in an image whose superblock is in block `k`, with blocks of size code `code` and the working directory
    /// `/`. The image is not looked at: each call does that, and [`check`](VolumeRef::check) looks at all of it.
    #[must_use]
    pub fn new(image: &'a [u8], k: u32, code: u32) -> VolumeRef<'a> {
        VolumeRef { image, k, code, cwd: "/" }
    }

    /// The same volume with another working directory, which is not looked at before a call needs it.
    #[must_use]
    pub fn with_cwd(self, cwd: &'a str) -> VolumeRef<'a> {
        VolumeRef { cwd, ..self }
    }

    /// The image.
    #[must_use]
    pub fn image(&self) -> &'a [u8] {
        self.image
    }

    /// The number of the superblock's block.
    #[must_use]
    pub fn k(&self) -> u32 {
        self.k
    }

    /// The code of the block size.
    #[must_use]
    pub fn code(&self) -> u32 {
        self.code
    }

    /// The working directory.
    #[must_use]
    pub fn cwd(&self) -> &'a str {
        self.cwd
    }

    /// Whether the image is a well-formed volume. It makes a work buffer of [`work_len`] bytes for that.
    ///
    #[doc = errors!(check)]
    pub fn check(&self) -> Result<(), Refusal> {
        crate::check(self.image, self.k, self.code, &mut vec![0; work_len(self.image.len())])
    }

    /// How much of the volume is used, by the counts of its superblock.
    ///
    #[doc = errors!(usage)]
    pub fn usage(&self) -> Result<Usage, Refusal> {
        crate::usage(self.image, self.k, self.code)
    }

    /// Whether so many blocks are free within reach of allocation. The bitmap is read no further than it takes to tell.
    ///
    #[doc = errors!(room)]
    pub fn room(&self, count: u32) -> Result<Room, Refusal> {
        crate::room(self.image, self.k, self.code, count)
    }

    /// Opens the file at a path, at position 0.
    ///
    #[doc = errors!(open)]
    pub fn open(&self, path: impl AsRef<[u8]>) -> Result<Handle, Refusal> {
        crate::open(self.image, self.k, self.code, self.cwd.as_bytes(), path.as_ref())
    }

    /// Kind, size, time and name of what stands at a path; `/` itself is the root, with time 0 and no name.
    ///
    #[doc = errors!(info)]
    pub fn info(&self, path: impl AsRef<[u8]>) -> Result<Info, Refusal> {
        crate::info(self.image, self.k, self.code, self.cwd.as_bytes(), path.as_ref())
    }

    /// Whether something stands at a path. Where a part of the path is no directory, nothing does.
    ///
    /// # Errors
    ///
    /// Those of [`info`](crate::info), but for [`NotFound`](Refusal::NotFound) and [`WrongKind`](Refusal::WrongKind),
    /// which are the answer `false`.
    pub fn exists(&self, path: impl AsRef<[u8]>) -> Result<bool, Refusal> {
        match self.info(path) {
            Ok(_) => Ok(true),
            Err(Refusal::NotFound | Refusal::WrongKind) => Ok(false),
            Err(refusal) => Err(refusal),
        }
    }

    /// All entries of the directory at a path, in their order: [`entries`](VolumeRef::entries) in a vector.
    ///
    #[doc = errors!(list)]
    pub fn list(&self, path: impl AsRef<[u8]>) -> Result<Vec<Info>, Refusal> {
        self.entries(path)?.collect()
    }

    /// The entries of the directory at a path, in their order, page by page. The first page is read at once, so a path
    /// that leads to no directory is refused here; damage behind it is an item.
    ///
    #[doc = errors!(list)]
    pub fn entries(&self, path: impl AsRef<[u8]>) -> Result<Entries<'a>, Refusal> {
        Entries::new(*self, path.as_ref())
    }

    /// All that stands below the directory at a path, each directory before what it holds.
    ///
    #[doc = errors!(list)]
    pub fn walk(&self, path: impl AsRef<[u8]>) -> Result<Walk<'a>, Refusal> {
        Walk::new(*self, path.as_ref())
    }

    /// Reads from the handle's position on; the answer counts the bytes, and is 0 at the file's end.
    ///
    #[doc = errors!(read)]
    pub fn read(&self, handle: &mut Handle, buf: &mut [u8]) -> Result<usize, Refusal> {
        crate::read(self.image, self.k, self.code, handle, buf)
    }

    /// All bytes of the file at a path.
    ///
    #[doc = errors!(read_file)]
    pub fn read_file(&self, path: impl AsRef<[u8]>) -> Result<Vec<u8>, Refusal> {
        let mut handle = self.open(path)?;
        let size = handle.size() as usize;
        // Such a file's blocks would be more than there are, as the read finds out; its size is not to be allocated before.
        if size > self.image.len() {
            return Err(Refusal::Damaged);
        }
        let mut bytes = vec![0; size];
        let count = self.read(&mut handle, &mut bytes)?;
        bytes.truncate(count);
        Ok(bytes)
    }

    /// The file at a path with `Read` and `Seek`, at position 0.
    ///
    #[doc = errors!(open)]
    #[cfg(feature = "std")]
    pub fn file(&self, path: impl AsRef<[u8]>) -> Result<crate::File<VolumeRef<'a>>, Refusal> {
        Ok(crate::File::new(*self, self.open(path)?, 0))
    }
}

impl fmt::Debug for VolumeRef<'_> {
    fn fmt(&self, f: &mut fmt::Formatter<'_>) -> fmt::Result {
        // The image would be megabytes of numbers.
        f.debug_struct("VolumeRef").field("k", &self.k).field("code", &self.code).field("cwd", &self.cwd).finish_non_exhaustive()
    }
}
