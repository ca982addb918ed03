//! The volumes that the calls are timed on: blocks in rising order, names of six bytes, so that a directory block holds 21 entries.
use original_k8::K;
use volumes::{Geometry, NodeId, Order, Rng, Style, Tree, Volume, CAPACITY, ROOT};

/// Blocks of a MiB.
const BLOCKS_PER_MIB: u32 = 2048;
/// The usual size of the volumes that calls are timed on, and the other one.
pub const SMALL: u32 = 64;
pub const LARGE: u32 = 1024;
/// The time of every entry, another than the one that the timed calls store.
const TIME: u64 = 1_600_000_000;
/// The size of a file of one block.
pub const SHORT: u32 = 16;
/// The size of a file of 2,065 blocks.
pub const LONG: u32 = 1 << 20;
/// Entries of a full volume's directories, of which the last may have fewer.
const DIR_ENTRIES: u32 = 1000;
/// Entries that fill a directory block.
const BLOCK_ENTRIES: u32 = 21;

/// The size of a meter's file: its counter.
pub const COUNTER: u32 = 8;

/// What a full volume holds.
#[derive(Clone, Copy)]
pub enum Fill {
    /// Files of 1 MiB.
    Long,
    /// The same, each block anywhere.
    Scattered,
    /// Files of one block.
    Short,
}

/// `/d` with so many short files, `m00000` and so on.
pub fn directory(mib: u32, entries: u32) -> Vec<u8> {
    let mut tree = Tree::new();
    let dir = tree.dir(ROOT, b"d", TIME);
    add_short(&mut tree, dir, entries);
    lay(tree, mib, Order::Rising).image
}

/// Eight directories, one in the other, `/a` to `/a/b/c/d/e/f/g/h`; each has nine short files before the next directory.
pub fn deep() -> Vec<u8> {
    let mut tree = Tree::new();
    let mut dir = ROOT;
    for name in b'a'..=b'h' {
        add_short(&mut tree, dir, 9);
        dir = tree.dir(dir, &[name], TIME);
    }
    add_short(&mut tree, dir, 10);
    lay(tree, SMALL, Order::Rising).image
}

/// `/d` with nine short files and `big` of 1 MiB.
pub fn long_file() -> Vec<u8> {
    let mut tree = Tree::new();
    let dir = tree.dir(ROOT, b"d", TIME);
    add_short(&mut tree, dir, 9);
    tree.file(dir, b"big", TIME, LONG);
    lay(tree, SMALL, Order::Rising).image
}

/// An image with bytes other than zero, to be formatted.
pub fn blank() -> Vec<u8> {
    vec![0xa5; SMALL as usize * BLOCKS_PER_MIB as usize * volumes::BLOCK_SIZE]
}

/// A volume without a free block, in directories of 1,000 files.
pub fn full(mib: u32, fill: Fill) -> Volume {
    let (size, order) = match fill {
        Fill::Long => (LONG, Order::Rising),
        Fill::Scattered => (LONG, Order::Scattered),
        Fill::Short => (SHORT, Order::Rising),
    };
    let mut filler = Filler::new(geometry(mib).data_blocks());
    while filler.has_room_for_two(size) {
        filler.add(size);
    }
    filler.add_last();
    let volume = lay(filler.tree, mib, order);
    assert_eq!(volume.geometry.free_in_reach(&volume.image).count(), 0, "the volume is not full");
    volume
}

/// So many meters in directories of 1,000, at the paths of `meter`; where `full` is set, files of 1 MiB take all other blocks.
pub fn meters(mib: u32, count: u32, full: bool) -> Vec<u8> {
    let mut filler = Filler::new(geometry(mib).data_blocks());
    for _ in 0..count {
        filler.add(COUNTER);
    }
    if full {
        while filler.has_room_for_two(LONG) {
            filler.add(LONG);
        }
        filler.add_last();
    }
    lay(filler.tree, mib, Order::Rising).image
}

/// The path of a meter's file.
pub fn meter(i: u32) -> String {
    format!("/d{:05}/m{:05}", i / DIR_ENTRIES, i % DIR_ENTRIES)
}

fn geometry(mib: u32) -> Geometry {
    Geometry::new(K, mib * BLOCKS_PER_MIB).expect("a size that a volume can have")
}

fn lay(tree: Tree, mib: u32, order: Order) -> Volume {
    tree.lay(geometry(mib), Style { order, ..Style::PLAIN }, &mut Rng::new(1)).expect("the tree fits")
}

fn add_short(tree: &mut Tree, dir: NodeId, count: u32) {
    for i in 0..count {
        tree.file(dir, &numbered('m', i), TIME, SHORT);
    }
}

fn numbered(letter: char, i: u32) -> Vec<u8> {
    format!("{letter}{i:05}").into_bytes()
}

/// Fills a volume, and counts the blocks that are left.
struct Filler {
    tree: Tree,
    left: u32,
    dirs: u32,
    dir: NodeId,
    files: u32,
}

impl Filler {
    fn new(data_blocks: u32) -> Filler {
        let root_block = 1;
        // No directory is open yet, as if the last one had its entries.
        Filler { tree: Tree::new(), left: data_blocks - root_block, dirs: 0, dir: ROOT, files: DIR_ENTRIES }
    }

    /// Whether two files of that size fit, each with all the directory blocks that it may need.
    fn has_room_for_two(&self, size: u32) -> bool {
        self.left >= 2 * (size.div_ceil(CAPACITY as u32) + 3)
    }

    fn add(&mut self, size: u32) {
        self.make_place();
        self.put(size);
    }

    /// Adds a file that takes all blocks that are left.
    fn add_last(&mut self) {
        self.make_place();
        self.put(self.left * CAPACITY as u32);
    }

    fn put(&mut self, size: u32) {
        self.tree.file(self.dir, &numbered('m', self.files), TIME, size);
        self.left -= size.div_ceil(CAPACITY as u32);
        self.files += 1;
    }

    /// Takes the directory blocks that the next file needs.
    fn make_place(&mut self) {
        if self.files == DIR_ENTRIES {
            self.left -= 1 + block_for(self.dirs);
            self.dir = self.tree.dir(ROOT, &numbered('d', self.dirs), TIME);
            self.dirs += 1;
            self.files = 0;
        } else {
            self.left -= block_for(self.files);
        }
    }
}

/// One block where a directory's blocks are full and another entry comes, else none; its first block is counted with the directory.
fn block_for(entries: u32) -> u32 {
    u32::from(entries > 0 && entries.is_multiple_of(BLOCK_ENTRIES))
}

#[cfg(test)]
mod tests {
    use super::{full, meter, meters, Fill, COUNTER};
    use original_k8::K;

    /// That no block is free is asserted where the volume is made.
    #[test]
    fn full_volumes_are_well_formed() {
        for fill in [Fill::Long, Fill::Scattered, Fill::Short] {
            let volume = full(8, fill);
            let mut work = vec![0; mfs::work_len(volume.image.len())];
            assert_eq!(mfs::check(&volume.image, K, mfs::CODE_512, &mut work), Ok(()));
        }
    }

    #[test]
    fn meters_are_at_their_paths() {
        for is_full in [false, true] {
            let image = meters(8, 1010, is_full);
            for i in [0, 999, 1000, 1009] {
                let file = mfs::open(&image, K, mfs::CODE_512, b"/", meter(i).as_bytes()).expect("a meter's file");
                assert_eq!(file.size(), COUNTER);
            }
        }
    }

    #[test]
    fn short_files_have_one_block_but_for_the_last() {
        let volume = full(4, Fill::Short);
        let files: Vec<_> = volume.entries.iter().filter(|entry| entry.depth == 2).collect();
        assert!(files.len() > 7000);
        assert!(files[..files.len() - 1].iter().all(|file| file.chain.len() == 1));
    }
}
