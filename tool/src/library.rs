//! The one door to the proved library: every answer on what a card holds comes through here.
//!
//! Calls that only read take a shared slice, so that a read-only mapping is enough; calls that change take a [`Volume`] over a
//! private mapping. Refusals pass as numbers and words, so that new ones need no change here.
use crate::layout::Mount;
use mfs::{Handle, SeekFrom};

/// Paths of the command line are full paths, with or without the first slash.
const CWD: &[u8] = b"/";
/// Bytes of one page of a listing: many, since each page walks the directory anew.
const PAGE: usize = 1 << 17;

/// A call was refused.
#[derive(Clone, Debug, PartialEq, Eq)]
pub struct Refusal {
    pub number: u32,
    pub reason: String,
}

impl From<mfs::Refusal> for Refusal {
    #[allow(clippy::useless_conversion)] // whatever width the bindings give the number
    fn from(refusal: mfs::Refusal) -> Refusal {
        Refusal { number: u32::from(refusal.number()), reason: refusal.to_string() }
    }
}

#[derive(Clone, Copy, Debug, PartialEq, Eq)]
pub enum Kind {
    Dir,
    File,
    Device,
}

impl Kind {
    /// The word for `--json` and `info`.
    pub fn word(self) -> &'static str {
        match self {
            Kind::Dir => "directory",
            Kind::File => "file",
            Kind::Device => "device",
        }
    }

    /// The letter of a long listing.
    pub fn letter(self) -> char {
        match self {
            Kind::Dir => 'd',
            Kind::File => 'f',
            Kind::Device => 'v',
        }
    }

    fn of(kind: mfs::Kind) -> Kind {
        match kind {
            mfs::Kind::Dir => Kind::Dir,
            mfs::Kind::File => Kind::File,
            _ => Kind::Device,
        }
    }
}

/// An entry of a directory.
#[derive(Clone, Debug, PartialEq, Eq)]
pub struct Entry {
    pub kind: Kind,
    pub size: u32,
    pub time: u64,
    pub name: Vec<u8>,
}

/// Bytes of the volume, used, and free by the superblock's counts.
#[derive(Clone, Copy, Debug, PartialEq, Eq)]
pub struct Usage {
    pub size: u64,
    pub used: u64,
    pub free: u64,
}

/// Whether so many blocks are free in reach, and the bytes of the bitmap that it took to tell.
#[derive(Clone, Copy, Debug, PartialEq, Eq)]
pub struct Room {
    pub enough: bool,
    pub bytes: u32,
}

/// A volume that is only read.
#[derive(Clone, Copy)]
pub struct View<'a> {
    pub image: &'a [u8],
    pub mount: Mount,
}

impl View<'_> {
    /// The proved verdict.
    pub fn check(self) -> Result<(), Refusal> {
        Ok(mfs::check(self.image, self.mount.k, self.mount.code.into(), &mut vec![0; mfs::work_len(self.image.len())])?)
    }

    pub fn usage(self) -> Result<Usage, Refusal> {
        let mfs::Usage { size, used, free, .. } = mfs::usage(self.image, self.mount.k, self.mount.code.into())?;
        Ok(Usage { size, used, free })
    }

    pub fn room(self, count: u32) -> Result<Room, Refusal> {
        let mfs::Room { enough, bytes, .. } = mfs::room(self.image, self.mount.k, self.mount.code.into(), count)?;
        Ok(Room { enough, bytes })
    }

    pub fn info(self, path: &[u8]) -> Result<Entry, Refusal> {
        let mfs::Info { kind, size, time, name, .. } = mfs::info(self.image, self.mount.k, self.mount.code.into(), CWD, path)?;
        Ok(Entry { kind: Kind::of(kind), size, time, name })
    }

    /// All entries of a directory, in their order.
    pub fn list(self, path: &[u8]) -> Result<Vec<Entry>, Refusal> {
        let (mut entries, mut page, mut from) = (Vec::new(), vec![0; PAGE], 0);
        loop {
            let listed = mfs::list(self.image, self.mount.k, self.mount.code.into(), CWD, path, from, &mut page)?;
            if listed.bytes == 0 {
                return Ok(entries);
            }
            let records = mfs::records(&page[..listed.bytes]);
            entries.extend(records.map(|r| Entry { kind: Kind::of(r.kind), size: r.size, time: r.time, name: r.name.to_vec() }));
            from = listed.next;
        }
    }

    pub fn open(self, path: &[u8]) -> Result<OpenFile, Refusal> {
        Ok(OpenFile(mfs::open(self.image, self.mount.k, self.mount.code.into(), CWD, path)?))
    }

    /// The file's next bytes; 0 of them at its end.
    pub fn read(self, file: &mut OpenFile, buffer: &mut [u8]) -> Result<usize, Refusal> {
        Ok(mfs::read(self.image, self.mount.k, self.mount.code.into(), &mut file.0, buffer)?)
    }
}

/// A file that was opened or created, at a position.
pub struct OpenFile(Handle);

impl OpenFile {
    pub fn size(&self) -> u32 {
        self.0.size()
    }

    pub fn first_block(&self) -> u32 {
        self.0.addr()
    }

    pub fn go_to(&mut self, position: u32) -> Result<(), Refusal> {
        Ok(mfs::seek(&mut self.0, SeekFrom::Start(position))?)
    }

    pub fn go_to_end(&mut self) -> Result<(), Refusal> {
        Ok(mfs::seek(&mut self.0, SeekFrom::End(0))?)
    }
}

/// A volume that is changed. Every change runs the whole proved check first, and leaves a well-formed volume.
pub struct Volume<'a> {
    image: &'a mut [u8],
    mount: Mount,
    time: u64,
    work: Vec<u8>,
}

impl<'a> Volume<'a> {
    pub fn new(image: &'a mut [u8], mount: Mount, time: u64) -> Volume<'a> {
        let work = vec![0; mfs::work_len(image.len())];
        Volume { image, mount, time, work }
    }

    pub fn create_file(&mut self, path: &[u8]) -> Result<OpenFile, Refusal> {
        Ok(OpenFile(mfs::create_file(self.image, self.mount.k, self.mount.code.into(), CWD, path, self.time, &mut self.work)?))
    }

    pub fn create_dir(&mut self, path: &[u8]) -> Result<(), Refusal> {
        Ok(mfs::create_dir(self.image, self.mount.k, self.mount.code.into(), CWD, path, self.time, &mut self.work)?)
    }

    pub fn delete(&mut self, path: &[u8]) -> Result<(), Refusal> {
        Ok(mfs::delete(self.image, self.mount.k, self.mount.code.into(), CWD, path, self.time, &mut self.work)?)
    }

    /// Writes all of the bytes at the file's position, where it ends then.
    pub fn write(&mut self, file: &mut OpenFile, bytes: &[u8]) -> Result<usize, Refusal> {
        Ok(mfs::write(self.image, self.mount.k, self.mount.code.into(), &mut file.0, bytes, self.time, &mut self.work)?)
    }

    /// Puts all of the bytes over those that the file has at its position; what follows them stays.
    pub fn patch(&mut self, file: &mut OpenFile, bytes: &[u8]) -> Result<usize, Refusal> {
        Ok(mfs::patch(self.image, self.mount.k, self.mount.code.into(), &mut file.0, bytes, self.time, &mut self.work)?)
    }
}

/// Makes the whole image a volume with an empty root.
pub fn format(image: &mut [u8], mount: Mount) -> Result<(), Refusal> {
    Ok(mfs::format(image, mount.k, mount.code.into())?)
}
