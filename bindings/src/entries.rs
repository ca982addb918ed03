//! The entries of a directory, and of all directories below one.
use crate::{records, Info, Kind, Refusal, VolumeRef, BLOCK_SIZE, DEPTH};
use alloc::collections::VecDeque;
use alloc::vec;
use alloc::vec::Vec;
use core::fmt;
use core::iter::FusedIterator;

/// Bytes of a page of a listing: above 269, so that any record fits, and many, since each page walks the directory anew.
const PAGE_LEN: usize = 128 * BLOCK_SIZE;

/// The entries of a directory, in their order. It ends after the first refusal.
///
/// [`VolumeRef::entries`] makes it.
#[must_use = "the entries after the first page are read as it is walked"]
pub struct Entries<'a> {
    volume: VolumeRef<'a>,
    path: Vec<u8>,
    page: Vec<u8>,
    ready: VecDeque<Info>,
    from: u32,
    over: bool,
}

impl<'a> Entries<'a> {
    pub(crate) fn new(volume: VolumeRef<'a>, path: &[u8]) -> Result<Entries<'a>, Refusal> {
        let page = vec![0; PAGE_LEN];
        let mut entries = Entries { volume, path: path.to_vec(), page, ready: VecDeque::new(), from: 0, over: false };
        entries.turn()?;
        Ok(entries)
    }

    /// Reads the next page. The buffer has room for any record, so one without records is the end.
    fn turn(&mut self) -> Result<(), Refusal> {
        let (image, cwd) = (self.volume.image(), self.volume.cwd().as_bytes());
        let (k, code) = (self.volume.k(), self.volume.code());
        let listed = crate::list(image, k, code, cwd, &self.path, self.from, &mut self.page)?;
        self.over = listed.bytes == 0;
        self.ready.extend(records(&self.page[..listed.bytes]).map(Info::from));
        self.from = listed.next;
        Ok(())
    }
}

impl Iterator for Entries<'_> {
    type Item = Result<Info, Refusal>;

    fn next(&mut self) -> Option<Result<Info, Refusal>> {
        if self.ready.is_empty() && !self.over {
            if let Err(refusal) = self.turn() {
                self.over = true;
                return Some(Err(refusal));
            }
        }
        self.ready.pop_front().map(Ok)
    }
}

impl FusedIterator for Entries<'_> {}

impl fmt::Debug for Entries<'_> {
    fn fmt(&self, f: &mut fmt::Formatter<'_>) -> fmt::Result {
        f.debug_struct("Entries").field("volume", &self.volume).field("from", &self.from).finish_non_exhaustive()
    }
}

/// What a walk comes to.
#[derive(Clone, Debug, PartialEq, Eq)]
pub struct Walked {
    /// The path that the walk was given, a `/` where it has none at its end, and the names that lead here: a path for any call.
    pub path: Vec<u8>,
    /// Directories between the one that is walked and this: 0 for its own entries.
    pub depth: usize,
    /// What stands here.
    pub info: Info,
}

/// All that stands below a directory: its entries in their order, and right behind each directory what it holds. It
/// ends after the first refusal. On a damaged volume whose directories lead in a circle that is [`Refusal::Damaged`],
/// where it is deeper than directories go, or has entered more of them than the image has blocks.
///
/// [`VolumeRef::walk`] makes it.
#[must_use = "the directories below are read as it is walked"]
pub struct Walk<'a> {
    volume: VolumeRef<'a>,
    /// The directories on the way down, each with its path and the entries that are still to come.
    way: Vec<(Vec<u8>, Entries<'a>)>,
    /// The directory that was come to last, and is to be entered next.
    below: Option<Vec<u8>>,
    entered: usize,
}

impl<'a> Walk<'a> {
    pub(crate) fn new(volume: VolumeRef<'a>, path: &[u8]) -> Result<Walk<'a>, Refusal> {
        let mut walk = Walk { volume, way: Vec::new(), below: None, entered: 0 };
        walk.enter(path.to_vec())?;
        Ok(walk)
    }

    fn enter(&mut self, path: Vec<u8>) -> Result<(), Refusal> {
        // Each directory has a block of its own.
        if self.way.len() > DEPTH || self.entered > self.volume.image().len() / BLOCK_SIZE {
            return Err(Refusal::Damaged);
        }
        let entries = self.volume.entries(&path)?;
        self.way.push((path, entries));
        self.entered += 1;
        Ok(())
    }

    /// The next entry of the lowest directory that has one left.
    fn step(&mut self) -> Result<Option<Walked>, Refusal> {
        if let Some(path) = self.below.take() {
            self.enter(path)?;
        }
        while let Some((above, entries)) = self.way.last_mut() {
            if let Some(info) = entries.next().transpose()? {
                let path = join(above, &info.name);
                self.below = (info.kind == Kind::Dir).then(|| path.clone());
                return Ok(Some(Walked { path, depth: self.way.len() - 1, info }));
            }
            self.way.pop();
        }
        Ok(None)
    }
}

/// A path and a name below it.
fn join(above: &[u8], name: &[u8]) -> Vec<u8> {
    let mut path = above.to_vec();
    if !path.ends_with(b"/") {
        path.push(b'/');
    }
    path.extend_from_slice(name);
    path
}

impl Iterator for Walk<'_> {
    type Item = Result<Walked, Refusal>;

    fn next(&mut self) -> Option<Result<Walked, Refusal>> {
        let stepped = self.step();
        if stepped.is_err() {
            self.way.clear();
        }
        stepped.transpose()
    }
}

impl FusedIterator for Walk<'_> {}

impl fmt::Debug for Walk<'_> {
    fn fmt(&self, f: &mut fmt::Formatter<'_>) -> fmt::Result {
        f.debug_struct("Walk").field("volume", &self.volume).field("depth", &self.way.len()).finish_non_exhaustive()
    }
}
