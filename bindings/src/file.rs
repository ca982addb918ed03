//! Files as std::io knows them.
use crate::{Handle, Refusal, Volume, VolumeRef};
use std::io::{self, Read, Seek, Write};

/// An open file together with its volume: `Read` and `Seek`, and `Write` where the volume may change.
///
/// - [`VolumeRef::file`] and [`Volume::file`] make one to read, [`Volume::file_mut`] one to write.
/// - A write is the library's: it goes to the position, all of it or nothing, and **the file ends behind it**. To
///   append, seek to the end. To change bytes and keep what follows them, there is [`patch`](File::patch).
/// - Each write checks the whole volume first. Write a file's bytes at once, or through a `BufWriter` with a buffer of
///   many blocks.
/// - A seek goes to 0 up to the file's size; another target is an error, and the position stays.
/// - An error's `get_ref` is the [`Refusal`].
///
/// ```
/// use std::io::{Read, Seek, SeekFrom, Write};
///
/// # fn main() -> std::io::Result<()> {
/// # let mut image = vec![0; 4200 * mfs::BLOCK_SIZE];
/// let mut volume = mfs::Volume::format(&mut image, 8, mfs::CODE_512)?;
/// volume.create_file("/log", 1_700_000_000)?;
///
/// let mut log = volume.file_mut("/log", 1_700_000_060)?;
/// log.write_all(b"start;")?;
/// log.write_all(b"stop;")?;
/// log.seek(SeekFrom::Start(6))?;
/// let mut text = String::new();
/// log.read_to_string(&mut text)?;
/// assert_eq!(text, "stop;");
/// # Ok(())
/// # }
/// ```
#[derive(Debug)]
pub struct File<V> {
    volume: V,
    handle: Handle,
    time: u64,
}

impl<V> File<V> {
    pub(crate) fn new(volume: V, handle: Handle, time: u64) -> File<V> {
        File { volume, handle, time }
    }

    /// The handle: size, position, name.
    #[must_use]
    pub fn handle(&self) -> &Handle {
        &self.handle
    }

    /// The handle alone, so that the volume is free for other calls.
    #[must_use]
    pub fn into_handle(self) -> Handle {
        self.handle
    }
}

impl File<&mut Volume<'_>> {
    /// Sets the time of the writes that follow.
    pub fn set_time(&mut self, time: u64) {
        self.time = time;
    }

    /// Puts all of the buffer over bytes that the file has at the position, or nothing; what follows them stays.
    ///
    #[doc = errors!(patch)]
    pub fn patch(&mut self, buf: &[u8]) -> Result<usize, Refusal> {
        self.volume.patch(&mut self.handle, buf, self.time)
    }
}

/// What a file reads from. No other type can be one.
pub trait Source: sealed::Source {}

mod sealed {
    pub trait Source {
        fn view(&self) -> crate::VolumeRef<'_>;
    }
}

impl Source for VolumeRef<'_> {}

impl sealed::Source for VolumeRef<'_> {
    fn view(&self) -> VolumeRef<'_> {
        *self
    }
}

impl Source for &mut Volume<'_> {}

impl sealed::Source for &mut Volume<'_> {
    fn view(&self) -> VolumeRef<'_> {
        Volume::view(self)
    }
}

impl<V: Source> Read for File<V> {
    fn read(&mut self, buf: &mut [u8]) -> io::Result<usize> {
        Ok(self.volume.view().read(&mut self.handle, buf)?)
    }
}

impl<V> Seek for File<V> {
    fn seek(&mut self, from: io::SeekFrom) -> io::Result<u64> {
        let from = crate::SeekFrom::try_from(from)?;
        self.handle.seek(from)?;
        Ok(u64::from(self.handle.position()))
    }
}

impl Write for File<&mut Volume<'_>> {
    /// Writes all of the buffer; an empty one is 0 bytes, and nothing is done.
    fn write(&mut self, buf: &[u8]) -> io::Result<usize> {
        if buf.is_empty() {
            return Ok(0);
        }
        Ok(self.volume.write(&mut self.handle, buf, self.time)?)
    }

    /// There is nothing to flush: a write is in the image when it has returned.
    fn flush(&mut self) -> io::Result<()> {
        Ok(())
    }
}

/// A target that no file reaches is refused as one outside the file is.
impl TryFrom<io::SeekFrom> for crate::SeekFrom {
    type Error = Refusal;

    fn try_from(from: io::SeekFrom) -> Result<crate::SeekFrom, Refusal> {
        let by = |offset: i64| i32::try_from(offset).map_err(|_| Refusal::BadSeek);
        Ok(match from {
            io::SeekFrom::Start(to) => crate::SeekFrom::Start(u32::try_from(to).map_err(|_| Refusal::BadSeek)?),
            io::SeekFrom::Current(offset) => crate::SeekFrom::Current(by(offset)?),
            io::SeekFrom::End(offset) => crate::SeekFrom::End(by(offset)?),
        })
    }
}
