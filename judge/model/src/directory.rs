//! Directories: the entries of a block, and walks along a directory's chain.
use crate::geometry::Geometry;
use crate::volume;
use crate::{Answer, Refusal};

/// F9: the bytes of an entry before its name
pub const HEADER: usize = 18;

#[derive(Clone, Copy, Debug, PartialEq, Eq)]
pub enum Kind {
    Dir = 0,
    File = 1,
    Device = 2,
}

/// F9: an entry, and where it stands.
#[derive(Clone, Debug, PartialEq, Eq)]
pub struct Entry {
    pub kind: Kind,
    pub address: usize,
    pub size: usize,
    pub time: u64,
    pub name: Vec<u8>,
    /// The directory block that holds it.
    pub block: usize,
    /// Its offset in the block's data bytes.
    pub offset: usize,
}

impl Entry {
    pub fn len(&self) -> usize {
        HEADER + self.name.len()
    }

    pub fn end(&self) -> usize {
        self.offset + self.len()
    }
}

/// F10: the four reasons for which a block's entries
/// stop.
fn entry_at(image: &[u8], geo: Geometry, block: usize, offset: usize) -> Option<Entry> {
    if offset >= geo.size().stop {
        return None;
    }
    let bytes = &volume::data(image, geo, block)[offset..];
    let kind = match bytes[0] {
        0 => Kind::Dir,
        1 => Kind::File,
        2 => Kind::Device,
        _ => return None,
    };
    let length = bytes[17] as usize;
    if length == 0 || offset + HEADER + length > geo.size().last_end {
        return None;
    }
    Some(Entry {
        kind,
        address: volume::number(&bytes[1..5]) as usize,
        size: volume::number(&bytes[5..9]) as usize,
        time: volume::number(&bytes[9..17]),
        name: bytes[HEADER..HEADER + length].to_vec(),
        block,
        offset,
    })
}

/// All entries of a block, those with address 0 among them.
pub fn entries_of_block(image: &[u8], geo: Geometry, block: usize) -> Vec<Entry> {
    let mut found: Vec<Entry> = Vec::new();
    while let Some(entry) = entry_at(image, geo, block, found.last().map_or(0, Entry::end)) {
        found.push(entry);
    }
    found
}

/// The bytes of a block that its entries take.
pub fn used_of_block(image: &[u8], geo: Geometry, block: usize) -> usize {
    entries_of_block(image, geo, block).last().map_or(0, Entry::end)
}

/// The entries that a walk along a directory meets.
pub struct Walk {
    pub entries: Vec<Entry>,
    /// Whether the walk came to the end of the directory; else going on past the last entry gives 17.
    pub whole: bool,
}

/// F11: all entries of the chain but those with address 0.
pub fn walk(image: &[u8], geo: Geometry, first: usize) -> Walk {
    let chain = volume::chain(image, geo, first);
    let all = chain.blocks.iter().flat_map(|&block| entries_of_block(image, geo, block));
    Walk { entries: all.filter(|entry| entry.address != 0).collect(), whole: chain.whole }
}

impl Walk {
    /// O12: a lookup ends at its entry: the first entry that will do, nothing, or 17 where the walk
    /// finds none before the damage.
    pub fn find(self, will_do: impl Fn(&Entry) -> bool) -> Answer<Option<Entry>> {
        match self.entries.into_iter().find(will_do) {
            Some(entry) => Ok(Some(entry)),
            None if self.whole => Ok(None),
            None => Err(Refusal::Damaged),
        }
    }

    /// W4: the directory's size, its sum.
    pub fn sum(&self) -> Answer<usize> {
        if !self.whole {
            return Err(Refusal::Damaged);
        }
        Ok(self.entries.iter().map(Entry::len).sum())
    }
}

/// The entry of that name, or 5, or 17.
pub fn lookup(image: &[u8], geo: Geometry, first: usize, name: &[u8]) -> Answer<Entry> {
    walk(image, geo, first).find(|entry| entry.name == name)?.ok_or(Refusal::NotFound)
}

/// A directory that a path leads to.
pub struct Opened {
    pub first: usize,
    /// The root is at depth 0.
    pub depth: usize,
    /// The directory's own entry, if it has one: the root has none.
    pub own: Option<Entry>,
}

/// P4, R5: an empty piece when its turn comes, and without a walk for it (reading 3). R6.
pub fn open_directory(image: &[u8], geo: Geometry, pieces: &[&[u8]]) -> Answer<Opened> {
    let mut at = Opened { first: geo.d(), depth: 0, own: None };
    for piece in pieces {
        if piece.is_empty() {
            return Err(Refusal::NotFound);
        }
        let entry = lookup(image, geo, at.first, piece)?;
        if entry.kind != Kind::Dir {
            return Err(Refusal::WrongKind);
        }
        at = Opened { first: entry.address, depth: at.depth + 1, own: Some(entry) };
    }
    Ok(at)
}

/// The first addresses of all directories at and under one, in a volume that passed the check.
pub fn directories_under(image: &[u8], geo: Geometry, first: usize) -> Vec<usize> {
    let mut found = vec![first];
    for entry in walk(image, geo, first).entries {
        if entry.kind == Kind::Dir {
            found.extend(directories_under(image, geo, entry.address));
        }
    }
    found
}
