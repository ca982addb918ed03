//! Our side: the proved library, or the model in its place.
use crate::call::{written_bytes, Answer, Call, FileState, Place, Seek, SLOTS, UNTOUCHED};
use crate::party::Party;
use mfs::{Handle, Refusal};

/// An image with its open files, and the directory of each listing that was begun.
pub struct Ours {
    pub by: &'static dyn Party,
    pub image: Vec<u8>,
    k: u32,
    work: Vec<u8>,
    files: [Option<Handle>; SLOTS],
    pages: [Option<(Place, u32)>; SLOTS],
}

impl Ours {
    pub fn new(by: &'static dyn Party, image: Vec<u8>, k: u32) -> Ours {
        let work = vec![0; mfs::work_len(image.len())];
        Ours { by, image, k, work, files: [const { None }; SLOTS], pages: [const { None }; SLOTS] }
    }

    /// The whole check.
    pub fn check(&mut self) -> Result<(), Refusal> {
        self.by.check(&self.image, self.k, &mut self.work)
    }

    /// The handle of a slot.
    pub fn handle(&self, slot: usize) -> Option<&Handle> {
        self.files[slot].as_ref()
    }

    /// What can be seen of the handle of a slot.
    pub fn file(&self, slot: usize) -> Option<FileState> {
        self.files[slot].as_ref().map(state_of)
    }

    /// Puts another handle, or none, into a slot.
    pub fn set_handle(&mut self, slot: usize, handle: Option<Handle>) {
        self.files[slot] = handle;
    }

    /// The place of a page's directory, and the number of its next entry.
    pub fn page(&self, page: usize) -> Option<&(Place, u32)> {
        self.pages[page].as_ref()
    }

    /// Makes a call, whose slot or page must be in use if the call wants it so.
    pub fn make(&mut self, call: &Call) -> Result<Answer, Refusal> {
        let Ours { by, image, k, work, files, .. } = self;
        match call {
            Call::Format => by.format(image, *k).map(|()| Answer::Done),
            Call::Usage => by.usage(image, *k).map(|u| Answer::Usage([u.size, u.used, u.free])),
            Call::Open { slot, place } => {
                let handle = by.open(image, *k, &place.cwd, &place.path)?;
                Ok(keep(&mut files[*slot], handle))
            }
            Call::Info { place } => {
                let info = by.info(image, *k, &place.cwd, &place.path)?;
                Ok(Answer::Info { kind: kind_number(info.kind), size: info.size, time: info.time, name: info.name })
            }
            Call::List { page, place, from, len } => self.list(*page, place.clone(), *from, *len),
            Call::ListOn { page, len } => {
                let (place, from) = self.pages[*page].clone().expect("a listing was begun on this page");
                self.list(*page, place, from, *len)
            }
            Call::Read { slot, len } => {
                let handle = opened(files, *slot);
                let mut buf = vec![UNTOUCHED; *len];
                let count = by.read(image, *k, handle, &mut buf)?;
                Ok(Answer::Read { count, file: state_of(handle), buf })
            }
            Call::Seek { slot, to } => {
                let handle = opened(files, *slot);
                by.seek(handle, seek_from(*to))?;
                Ok(Answer::Sought(state_of(handle)))
            }
            Call::CreateFile { slot, place, time } => {
                let handle = by.create_file(image, *k, &place.cwd, &place.path, *time, work)?;
                Ok(keep(&mut files[*slot], handle))
            }
            Call::CreateDir { place, time } => {
                by.create_dir(image, *k, &place.cwd, &place.path, *time, work).map(|()| Answer::Done)
            }
            Call::Delete { place, time } => by.delete(image, *k, &place.cwd, &place.path, *time, work).map(|()| Answer::Done),
            Call::Write { slot, len, seed, time } => {
                let handle = opened(files, *slot);
                let count = by.write(image, *k, handle, &written_bytes(*len, *seed), *time, work)?;
                Ok(Answer::Written { count, file: state_of(handle) })
            }
            Call::Patch { slot, len, seed, time } => {
                let handle = opened(files, *slot);
                let count = by.patch(image, *k, handle, &written_bytes(*len, *seed), *time, work)?;
                Ok(Answer::Written { count, file: state_of(handle) })
            }
        }
    }

    fn list(&mut self, page: usize, place: Place, from: u32, len: usize) -> Result<Answer, Refusal> {
        let mut buf = vec![UNTOUCHED; len];
        let listed = self.by.list(&self.image, self.k, &place.cwd, &place.path, from, &mut buf)?;
        self.pages[page] = Some((place, listed.next));
        Ok(Answer::Listed { bytes: listed.bytes, next: listed.next, buf })
    }
}

fn opened(files: &mut [Option<Handle>; SLOTS], slot: usize) -> &mut Handle {
    files[slot].as_mut().expect("a file is open in this slot")
}

fn keep(slot: &mut Option<Handle>, handle: Handle) -> Answer {
    let state = state_of(&handle);
    *slot = Some(handle);
    Answer::Opened(state)
}

fn kind_number(kind: mfs::Kind) -> u8 {
    match kind {
        mfs::Kind::Dir => 0,
        mfs::Kind::File => 1,
        mfs::Kind::Device => 2,
    }
}

fn seek_from(to: Seek) -> mfs::SeekFrom {
    match to {
        Seek::Start(to) => mfs::SeekFrom::Start(to),
        Seek::Current(by) => mfs::SeekFrom::Current(by),
        Seek::End(by) => mfs::SeekFrom::End(by),
    }
}

fn state_of(handle: &Handle) -> FileState {
    FileState { addr: handle.addr(), size: handle.size(), position: handle.position() }
}
