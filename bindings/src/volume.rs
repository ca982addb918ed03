//! A volume with its work buffer and working directory.
use crate::{work_len, Entries, Handle, Info, Refusal, Room, Usage, VolumeRef, Walk};
use alloc::borrow::ToOwned;
use alloc::string::String;
use alloc::vec;
use alloc::vec::Vec;
use core::fmt;

/// A volume in a borrowed image that may change. It makes its own work buffer, takes paths as strings or bytes, and
/// remembers a working directory for those that do not start with `/`. A method that a function of the crate has the
/// name of makes that call.
pub struct Volume<'a> {
    image: &'a mut [u8],
    k: u32,
    code: u32,
    work: Vec<u8>,
    cwd: String,
}

impl<'a> Volume<'a> {
    /// The volume in an image whose superblock is in block `k`, with blocks of size code `code`. The image is not looked
    /// at: each call does that, and [`check`](Volume::check) looks at all of it.
    #[must_use]
    pub fn new(image: &'a mut [u8], k: u32, code: u32) -> Volume<'a> {
        let work = vec![0; work_len(image.len())];
        Volume { image, k, code, work, cwd: String::from("/") }
    }

    /// Formats the whole image: a volume with an empty root directory.
    ///
    #[doc = errors!(format)]
    pub fn format(image: &'a mut [u8], k: u32, code: u32) -> Result<Volume<'a>, Refusal> {
        crate::format(image, k, code)?;
        Ok(Volume::new(image, k, code))
    }

    /// The volume for calls that change nothing.
    #[must_use]
    pub fn view(&self) -> VolumeRef<'_> {
        VolumeRef::new(self.image, self.k, self.code).with_cwd(&self.cwd)
    }

    /// The image as it is now.
    #[must_use]
    pub fn image(&self) -> &[u8] {
        self.image
    }

    /// The number of the superblock's block.
    #[must_use]
    pub fn k(&self) -> u32 {
        self.k
    }

    /// The code of the block size.
    #[must_use]
    pub fn code(&self) -> u32 {
        self.code
    }

    /// The working directory; `/` at first.
    #[must_use]
    pub fn cwd(&self) -> &str {
        &self.cwd
    }

    /// Sets the working directory. It is not looked at before a call needs it.
    pub fn set_cwd(&mut self, cwd: &str) {
        self.cwd = cwd.to_owned();
    }

    /// Whether the image is a well-formed volume.
    ///
    #[doc = errors!(check)]
    pub fn check(&mut self) -> Result<(), Refusal> {
        crate::check(self.image, self.k, self.code, &mut self.work)
    }

    /// How much of the volume is used, by the counts of its superblock.
    ///
    #[doc = errors!(usage)]
    pub fn usage(&self) -> Result<Usage, Refusal> {
        self.view().usage()
    }

    /// Whether so many blocks are free within reach of allocation. The bitmap is read no further than it takes to tell.
    ///
    #[doc = errors!(room)]
    pub fn room(&self, count: u32) -> Result<Room, Refusal> {
        self.view().room(count)
    }

    /// Opens the file at a path, at position 0.
    ///
    #[doc = errors!(open)]
    pub fn open(&self, path: impl AsRef<[u8]>) -> Result<Handle, Refusal> {
        self.view().open(path)
    }

    /// Kind, size, time and name of what stands at a path; `/` itself is the root, with time 0 and no name.
    ///
    #[doc = errors!(info)]
    pub fn info(&self, path: impl AsRef<[u8]>) -> Result<Info, Refusal> {
        self.view().info(path)
    }

    /// Whether something stands at a path: [`VolumeRef::exists`].
    ///
    /// # Errors
    ///
    /// Those of [`VolumeRef::exists`].
    pub fn exists(&self, path: impl AsRef<[u8]>) -> Result<bool, Refusal> {
        self.view().exists(path)
    }

    /// All entries of the directory at a path, in their order.
    ///
    #[doc = errors!(list)]
    pub fn list(&self, path: impl AsRef<[u8]>) -> Result<Vec<Info>, Refusal> {
        self.view().list(path)
    }

    /// The entries of the directory at a path, one after the other: [`VolumeRef::entries`].
    ///
    #[doc = errors!(list)]
    pub fn entries(&self, path: impl AsRef<[u8]>) -> Result<Entries<'_>, Refusal> {
        self.view().entries(path)
    }

    /// All that stands below the directory at a path: [`VolumeRef::walk`].
    ///
    #[doc = errors!(list)]
    pub fn walk(&self, path: impl AsRef<[u8]>) -> Result<Walk<'_>, Refusal> {
        self.view().walk(path)
    }

    /// Reads from the handle's position on; the answer counts the bytes, and is 0 at the file's end.
    ///
    #[doc = errors!(read)]
    pub fn read(&self, handle: &mut Handle, buf: &mut [u8]) -> Result<usize, Refusal> {
        self.view().read(handle, buf)
    }

    /// All bytes of the file at a path.
    ///
    #[doc = errors!(read_file)]
    pub fn read_file(&self, path: impl AsRef<[u8]>) -> Result<Vec<u8>, Refusal> {
        self.view().read_file(path)
    }

    /// The file at a path with `Read` and `Seek`, at position 0.
    ///
    #[doc = errors!(open)]
    #[cfg(feature = "std")]
    pub fn file(&self, path: impl AsRef<[u8]>) -> Result<crate::File<VolumeRef<'_>>, Refusal> {
        self.view().file(path)
    }

    /// The file at a path with `Read`, `Seek` and `Write`, at position 0. `time` is the time of its writes.
    ///
    #[doc = errors!(open)]
    #[cfg(feature = "std")]
    pub fn file_mut(&mut self, path: impl AsRef<[u8]>, time: u64) -> Result<crate::File<&mut Volume<'a>>, Refusal> {
        let handle = self.open(path)?;
        Ok(crate::File::new(self, handle, time))
    }

    /// Creates a file of 0 bytes at a path, and opens it. The holding directory's own entry gets its new size and the time.
    ///
    #[doc = errors!(create_file)]
    pub fn create_file(&mut self, path: impl AsRef<[u8]>, time: u64) -> Result<Handle, Refusal> {
        crate::create_file(self.image, self.k, self.code, self.cwd.as_bytes(), path.as_ref(), time, &mut self.work)
    }

    /// Creates an empty directory at a path. The holding directory's own entry gets its new size and the time.
    ///
    #[doc = errors!(create_dir)]
    pub fn create_dir(&mut self, path: impl AsRef<[u8]>, time: u64) -> Result<(), Refusal> {
        crate::create_dir(self.image, self.k, self.code, self.cwd.as_bytes(), path.as_ref(), time, &mut self.work)
    }

    /// Deletes the file, the device or the empty directory at a path. The holding directory's own entry gets its new
    /// size and the time.
    ///
    #[doc = errors!(delete)]
    pub fn delete(&mut self, path: impl AsRef<[u8]>, time: u64) -> Result<(), Refusal> {
        crate::delete(self.image, self.k, self.code, self.cwd.as_bytes(), path.as_ref(), time, &mut self.work)
    }

    /// Writes all of the buffer at the handle's position, or nothing; the file ends behind it. The answer counts the bytes.
    ///
    #[doc = errors!(write)]
    pub fn write(&mut self, handle: &mut Handle, buf: &[u8], time: u64) -> Result<usize, Refusal> {
        crate::write(self.image, self.k, self.code, handle, buf, time, &mut self.work)
    }

    /// Puts all of the buffer over bytes that the file has at the handle's position, or nothing; what follows them stays. The
    /// answer counts the bytes.
    ///
    #[doc = errors!(patch)]
    pub fn patch(&mut self, handle: &mut Handle, buf: &[u8], time: u64) -> Result<usize, Refusal> {
        crate::patch(self.image, self.k, self.code, handle, buf, time, &mut self.work)
    }

    /// Makes these bytes, and no others, what the file at a path holds. A file that is not there is created; one that
    /// is there is written from its start, all or nothing. Where a file was created and the bytes do not fit, it is
    /// deleted again; the holding directory keeps the time then.
    ///
    /// No bytes make a new file of 0 bytes. Over a file that holds some they are refused, as any write of none is:
    /// delete it first.
    ///
    /// # Errors
    ///
    /// Those of [`open`](crate::open) but for a file that is not there, then those of
    /// [`create_file`](crate::create_file), then those of [`write`](crate::write).
    pub fn write_file(&mut self, path: impl AsRef<[u8]>, bytes: &[u8], time: u64) -> Result<(), Refusal> {
        let path = path.as_ref();
        match self.open(path) {
            Ok(handle) => self.write_from_start(handle, bytes, time),
            Err(Refusal::NotFound) => {
                let handle = self.create_file(path, time)?;
                self.write_from_start(handle, bytes, time).inspect_err(|_| {
                    // On a volume where the create was accepted, so is this: what stands at the path is the file just created.
                    let _ = self.delete(path, time);
                })
            }
            Err(refusal) => Err(refusal),
        }
    }

    fn write_from_start(&mut self, mut handle: Handle, bytes: &[u8], time: u64) -> Result<(), Refusal> {
        if handle.size() == 0 && bytes.is_empty() {
            return Ok(());
        }
        self.write(&mut handle, bytes, time).map(|_| ())
    }
}

impl fmt::Debug for Volume<'_> {
    fn fmt(&self, f: &mut fmt::Formatter<'_>) -> fmt::Result {
        // The image and the work buffer would be megabytes of numbers.
        f.debug_struct("Volume").field("k", &self.k).field("code", &self.code).field("cwd", &self.cwd).finish_non_exhaustive()
    }
}
