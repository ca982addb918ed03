//! A well-formed volume, W1 to W5. None here stands for damage, whatever it is.
use std::collections::HashSet;

use crate::directory::{entries_of_block, used_of_block, Entry, Kind};
use crate::geometry::Geometry;
use crate::path::is_text;
use crate::volume;

/// F13: the longest file, the deepest directory.
pub const MAX_FILE: usize = 2_147_483_647;
pub const MAX_DEPTH: usize = 16;

/// For each index whether a chain has its block.
type Reached = Vec<bool>;

/// W1 (what refusals 1, 2 and 3 leave of it), W2 to W4 by walking the tree, and W5.
pub fn well_formed(image: &[u8], geo: Geometry) -> bool {
    let mut reached = vec![false; geo.data_blocks()];
    volume::superblock_rest_is_zero(image, geo)
        && directory_sum(image, geo, geo.d(), 0, &mut reached).is_some()
        && bits_are_true(image, geo, &reached)
}

/// W5: the bits are those of the blocks in some chain, and clear past the data; the used count is D plus the
/// number of set bits. Every block that is reached has a bit.
fn bits_are_true(image: &[u8], geo: Geometry, reached: &Reached) -> bool {
    let set = |x: &usize| volume::is_set(image, geo, *x);
    let is_true = |x: usize| if geo.has_bit(x) { set(&x) == reached[x] } else { !reached[x] };
    let data_bits_are_true = (0..geo.data_blocks()).all(is_true);
    let other_bits_are_clear = (geo.data_blocks()..geo.bitmap_bits()).all(|x| !set(&x));
    let set_bits = (0..geo.bitmap_bits()).filter(set).count();
    data_bits_are_true && other_bits_are_clear && volume::used(image, geo) == geo.d() + set_bits
}

/// W2: the chain lies in the data area and ends, and none of its blocks is in another. Answers the chain's blocks. That each of
/// them has a bit, which W2 asks too, is seen where the bits are.
fn claim(image: &[u8], geo: Geometry, first: usize, reached: &mut Reached) -> Option<Vec<usize>> {
    let chain = volume::chain(image, geo, first);
    for &block in &chain.blocks {
        if std::mem::replace(&mut reached[geo.index(block)], true) {
            return None;
        }
    }
    chain.whole.then_some(chain.blocks)
}

/// C3: a directory, and the directories in it in their turn. Answers the sum.
/// W4: no later block is empty; no directory is too deep.
fn directory_sum(image: &[u8], geo: Geometry, first: usize, depth: usize, reached: &mut Reached) -> Option<usize> {
    if depth > MAX_DEPTH {
        return None;
    }
    let blocks = claim(image, geo, first, reached)?;
    if !blocks.iter().all(|&block| rest_is_zero(image, geo, block)) {
        return None;
    }
    if blocks[1..].iter().any(|&block| entries_of_block(image, geo, block).is_empty()) {
        return None;
    }
    let entries: Vec<Entry> = blocks.iter().flat_map(|&block| entries_of_block(image, geo, block)).collect();
    if !names_are_good(&entries) {
        return None;
    }
    for entry in &entries {
        walk_entry(image, geo, entry, depth, reached)?;
    }
    Some(entries.iter().map(Entry::len).sum())
}

/// W3: an entry's address lies in the data area, which claiming its chain shows. W4: a file within the limit has
/// just the blocks of its size; a directory's size is its sum; a device's chain has any
/// length. A file above the limit is damage (reading 1).
fn walk_entry(image: &[u8], geo: Geometry, entry: &Entry, depth: usize, reached: &mut Reached) -> Option<()> {
    let is_good = match entry.kind {
        Kind::Dir => directory_sum(image, geo, entry.address, depth + 1, reached)? == entry.size,
        Kind::File => claim(image, geo, entry.address, reached)?.len() == geo.file_blocks(entry.size) && entry.size <= MAX_FILE,
        Kind::Device => claim(image, geo, entry.address, reached).is_some(),
    };
    is_good.then_some(())
}

/// W3: zeros behind a block's last entry.
fn rest_is_zero(image: &[u8], geo: Geometry, block: usize) -> bool {
    volume::data(image, geo, block)[used_of_block(image, geo, block)..].iter().all(|&byte| byte == 0)
}

/// W3: a name is 1 to 255 bytes of well-formed UTF-8, without `/` and without bytes below 0x20 or 0x7F; names are distinct in a
/// directory. A read entry's length is never 0.
fn names_are_good(entries: &[Entry]) -> bool {
    let bytes_are_good = |entry: &Entry| is_text(&entry.name) && !entry.name.contains(&b'/');
    let distinct: HashSet<&[u8]> = entries.iter().map(|entry| entry.name.as_slice()).collect();
    entries.iter().all(bytes_are_good) && distinct.len() == entries.len()
}
