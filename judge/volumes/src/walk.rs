//! A plain reader of well-formed volumes.
use crate::geometry::{be32, Geometry};

/// Bytes of a directory entry before its name.
pub const HEADER: usize = 18;

/// What stands in an entry.
#[derive(Clone, Copy, Debug, PartialEq, Eq, Hash)]
pub enum Kind {
    Dir = 0,
    File = 1,
    Device = 2,
}

/// An entry of a volume, with its path from the root.
#[derive(Clone, Debug, PartialEq, Eq)]
pub struct Entry {
    pub path: Vec<u8>,
    pub kind: Kind,
    pub size: u32,
    pub time: u64,
    /// The first address of the directory that holds it.
    pub dir: u32,
    /// The addresses of its blocks, in the chain's order.
    pub chain: Vec<u32>,
    /// 1 for an entry of the root.
    pub depth: u32,
}

/// An entry as one directory block holds it.
pub(crate) struct Slot<'a> {
    pub kind: Kind,
    pub addr: u32,
    pub size: u32,
    pub time: u64,
    pub name: &'a [u8],
}

impl Entry {
    /// The last name of the path.
    pub fn name(&self) -> &[u8] {
        let start = self.path.iter().rposition(|&b| b == b'/').map_or(0, |i| i + 1);
        &self.path[start..]
    }

    /// The path of the directory that holds it, `/` for the root.
    pub fn dir_path(&self) -> &[u8] {
        let end = self.path.len() - self.name().len() - 1;
        &self.path[..end.max(1)]
    }
}

/// All entries of a well-formed volume of 512-byte blocks: a directory's own entry stands before those in it. Of a volume that
/// is not well formed some reading is given.
pub fn entries(image: &[u8], k: u32) -> Vec<Entry> {
    entries_of(image, Geometry::of(image, k).expect("the superblock is not that of a volume"))
}

/// The same of a volume whose places are known.
pub fn entries_of(image: &[u8], geometry: Geometry) -> Vec<Entry> {
    let mut found = Vec::new();
    read_dir(image, geometry, geometry.data(), b"", 1, &mut found);
    found
}

/// The addresses of the blocks of the chain that begins at `first`: until it leaves the data area, and no more than this has.
pub fn chain(image: &[u8], geometry: Geometry, first: u32) -> Vec<u32> {
    let area = geometry.data()..geometry.blocks();
    let mut blocks = Vec::new();
    let mut addr = first;
    while area.contains(&addr) && blocks.len() < area.len() {
        blocks.push(addr);
        addr = be32(block(image, geometry, addr));
    }
    blocks
}

/// The names in a directory, block by block.
pub fn names_by_block(image: &[u8], geometry: Geometry, dir: u32) -> Vec<Vec<&[u8]>> {
    let names = |addr| slots(&block(image, geometry, addr)[4..]).iter().map(|slot| slot.name).collect();
    chain(image, geometry, dir).into_iter().map(names).collect()
}

/// How many bytes of each block of a directory its entries take.
pub fn fill_of(image: &[u8], geometry: Geometry, dir: u32) -> Vec<usize> {
    let used = |names: &Vec<&[u8]>| names.iter().map(|name| HEADER + name.len()).sum();
    names_by_block(image, geometry, dir).iter().map(used).collect()
}

fn read_dir(image: &[u8], geometry: Geometry, dir: u32, path: &[u8], depth: u32, found: &mut Vec<Entry>) {
    for addr in chain(image, geometry, dir) {
        for slot in slots(&block(image, geometry, addr)[4..]) {
            let entry = Entry {
                path: [path, b"/", slot.name].concat(),
                kind: slot.kind,
                size: slot.size,
                time: slot.time,
                dir,
                chain: chain(image, geometry, slot.addr),
                depth,
            };
            let inner = entry.path.clone();
            found.push(entry);
            if slot.kind == Kind::Dir && depth <= 16 {
                read_dir(image, geometry, slot.addr, &inner, depth + 1, found);
            }
        }
    }
}

/// The entries in the data of one directory block.
pub(crate) fn slots(data: &[u8]) -> Vec<Slot<'_>> {
    let capacity = data.len();
    let mut found = Vec::new();
    let mut offset = 0;
    while offset < capacity - HEADER {
        let kind = match data[offset] {
            0 => Kind::Dir,
            1 => Kind::File,
            2 => Kind::Device,
            _ => break,
        };
        let len = data[offset + 17] as usize;
        let end = offset + HEADER + len;
        if len == 0 || end >= capacity {
            break;
        }
        found.push(Slot {
            kind,
            addr: be32(&data[offset + 1..]),
            size: be32(&data[offset + 5..]),
            time: (u64::from(be32(&data[offset + 9..])) << 32) | u64::from(be32(&data[offset + 13..])),
            name: &data[offset + HEADER..end],
        });
        offset = end;
    }
    found
}

fn block(image: &[u8], geometry: Geometry, addr: u32) -> &[u8] {
    let start = geometry.place(addr);
    &image[start..start + geometry.form().block_size()]
}
