//! Volumes at random.
use crate::geometry::{Form, Geometry};
use crate::rng::Rng;
use crate::tree::{NodeId, Order, Style, Tree, Volume, ROOT};

/// How many blocks a volume shall have.
#[derive(Clone, Copy, Debug, PartialEq, Eq)]
pub enum Size {
    /// From 2 blocks after the bitmap's start to some hundreds. With K below some 4,000 nothing is in reach of allocation.
    Small,
    /// 4,096 to 4,400 blocks, with K above these so many and K.
    Usual,
    /// Up to 20,500 blocks and K: several bitmap blocks, and often blocks out of reach.
    Large,
}

/// What is asked of a volume made at random.
#[derive(Clone, Copy, Debug)]
pub struct Wish {
    pub k: u32,
    pub size: Size,
    /// Entries at most.
    pub entries: u32,
    /// A line of directories to this depth, at most 16.
    pub depth: u32,
    /// Exactly so many blocks in reach stay free.
    pub free: Option<u32>,
}

/// Sizes at the edges of a block of 512 bytes, and some others.
const SIZES: [u32; 18] = [0, 1, 2, 490, 507, 508, 509, 600, 1000, 1015, 1016, 1017, 1523, 1524, 1525, 2032, 3000, 9000];
/// The same for a block of 1,024 bytes.
const LARGE_SIZES: [u32; 14] = [0, 1, 2, 508, 1002, 1019, 1020, 1021, 2039, 2040, 2041, 3060, 3061, 9000];
/// Lengths of long names: two of 235 and 236 bytes fill a block to its end, and to one byte too many.
const LONG: [usize; 9] = [60, 100, 144, 145, 200, 235, 236, 237, 255];
/// Letters, and the characters at the edges of the table of UTF-8; U+0080 to U+009F are allowed.
const CHARACTERS: [char; 20] = [
    'a',
    'e',
    ' ',
    '~',
    'é',
    'ø',
    'ü',
    '\u{80}',
    '\u{9f}',
    '\u{7ff}',
    '\u{800}',
    '\u{fff}',
    '€',
    '\u{d7ff}',
    '\u{e000}',
    '\u{ffff}',
    '\u{10000}',
    '😀',
    '\u{fffff}',
    '\u{10ffff}',
];
const SHORT: [&str; 14] = ["a", "b", ".", "..", "ab", "ba", "a.", "..b", "aa", "bb", "a b", "~", " ", "m1"];

/// Makes a volume of version 2 and size code 0; what a wish asks is left out where it doesn't fit.
pub fn random(wish: Wish, rng: &mut Rng) -> Volume {
    random_of(Form::V2, wish, rng)
}

/// Makes a volume of that form.
pub fn random_of(form: Form, wish: Wish, rng: &mut Rng) -> Volume {
    let geometry = draw_geometry(form, wish.k, wish.size, rng);
    let mut entries = u64::from(wish.entries);
    let mut free = wish.free.filter(|&free| free < geometry.reach());
    let mut depth = wish.depth;
    loop {
        let style = Style {
            order: if rng.one_in(4) { Order::Rising } else { Order::Scattered },
            loose: rng.one_in(2),
            stale: !rng.one_in(4),
            tail: if rng.one_in(3) { rng.between(1, 9) as u32 } else { 0 },
            free,
        };
        let tree = grow(form, entries, depth, rng);
        if let Some(volume) = tree.lay(geometry, style, rng) {
            return volume;
        }
        if entries == 0 {
            free = None;
            depth /= 2;
        }
        entries /= 2;
    }
}

fn draw_geometry(form: Form, k: u32, size: Size, rng: &mut Rng) -> Geometry {
    loop {
        let blocks = match form {
            Form::V1 => draw_old_blocks(k, size, rng),
            Form::V2 => draw_blocks(k, size, rng),
            Form::Large => draw_large_blocks(k, size, rng),
        };
        if let Some(geometry) = Geometry::of_form(form, k, blocks) {
            return geometry;
        }
    }
}

/// A bitmap block whose bits just do for the data area, or leave a block of it without one, a few, or nearly as many as they are.
fn draw_old_blocks(k: u32, size: Size, rng: &mut Rng) -> u32 {
    let bitmap_blocks = match size {
        Size::Small | Size::Usual => 1,
        Size::Large => rng.between(2, 5),
    };
    let after = match rng.below(4) {
        0 => rng.below(3),
        1 => rng.between(4094, 4096),
        _ if size == Size::Small => rng.below(40),
        _ => rng.below(4097),
    };
    k + 2 + (4097 * bitmap_blocks + after) as u32
}

/// As for blocks of 512 bytes, at the edges of the larger bitmap block.
fn draw_large_blocks(k: u32, size: Size, rng: &mut Rng) -> u32 {
    let first_bitmap = u64::from(k) + 2;
    let blocks = match size {
        Size::Small if rng.one_in(3) => first_bitmap + rng.between(2, 6),
        Size::Small => first_bitmap + rng.between(2, 600),
        Size::Usual if rng.one_in(4) => first_bitmap + rng.between(8192, 8196),
        Size::Usual => rng.between(8192, 8400).max(first_bitmap + 2),
        Size::Large => rng.between(2, 3) * 8192 + rng.below(24) - 12,
    };
    blocks as u32
}

fn draw_blocks(k: u32, size: Size, rng: &mut Rng) -> u32 {
    let first_bitmap = k + 2;
    let base = if k > 4000 { first_bitmap } else { 0 };
    let blocks = match size {
        Size::Small if rng.one_in(3) => u64::from(first_bitmap) + rng.between(2, 6),
        Size::Small => u64::from(first_bitmap) + rng.between(2, 600),
        // The last block of one bitmap block, and the first ones of the next.
        Size::Usual if rng.one_in(4) => u64::from(first_bitmap) + rng.between(4096, 4100),
        Size::Usual => u64::from(base) + rng.between(4096, 4400),
        // Around the places where one bitmap block more comes into reach.
        Size::Large if rng.one_in(2) => u64::from(base) + rng.between(2, 5) * 4096 + rng.below(24) - 12,
        Size::Large => u64::from(base) + rng.between(8200, 20_500),
    };
    blocks as u32
}

fn grow(form: Form, entries: u64, depth: u32, rng: &mut Rng) -> Tree {
    let mut tree = Tree::new();
    let mut dirs = vec![ROOT];
    for _ in 0..depth.min(16) {
        let deepest = dirs[dirs.len() - 1];
        let name = draw_new_name(&tree, deepest, rng);
        dirs.push(tree.dir(deepest, shortened(&name), rng.next_u64()));
    }
    for _ in 0..entries {
        add_entry(form, &mut tree, &mut dirs, rng);
    }
    tree
}

/// The first 40 bytes of a name, or fewer, so that it ends between two characters.
fn shortened(name: &[u8]) -> &[u8] {
    let mut end = name.len().min(40);
    while std::str::from_utf8(&name[..end]).is_err() {
        end -= 1;
    }
    &name[..end]
}

fn add_entry(form: Form, tree: &mut Tree, dirs: &mut Vec<NodeId>, rng: &mut Rng) {
    // The root and the first directories get the most, so that some have several blocks.
    let last = rng.below(dirs.len() as u64);
    let parent = dirs[rng.below(last + 1) as usize];
    let name = draw_new_name(tree, parent, rng);
    let time = draw_time(rng);
    match rng.below(6) {
        0 | 1 if tree.depth(parent) < 16 => dirs.push(tree.dir(parent, &name, time)),
        2 => {
            let size = rng.next_u64() as u32;
            let blocks = rng.between(1, 4) as u32;
            tree.device(parent, &name, time, size, blocks);
        }
        _ => {
            let edges = if form == Form::Large { &LARGE_SIZES[..] } else { &SIZES };
            let size = if rng.one_in(4) { rng.below(2600) as u32 } else { *rng.pick(edges) };
            tree.file(parent, &name, time, size);
        }
    }
}

fn draw_time(rng: &mut Rng) -> u64 {
    match rng.below(4) {
        0 => 0,
        1 => rng.next_u64(),
        _ => rng.between(1_500_000_000, 2_000_000_000),
    }
}

fn draw_new_name(tree: &Tree, dir: NodeId, rng: &mut Rng) -> Vec<u8> {
    loop {
        let name = draw_accented(rng);
        if !tree.has(dir, &name) {
            return name;
        }
    }
}

/// A legal name, and every other time one with characters of two to four bytes in it.
pub fn draw_accented(rng: &mut Rng) -> Vec<u8> {
    if rng.one_in(2) {
        return draw_name(rng);
    }
    let len = if rng.one_in(4) { *rng.pick(&LONG) } else { rng.between(2, 24) as usize };
    let mut name = Vec::new();
    while name.len() < len {
        let mut bytes = [0; 4];
        match rng.pick(&CHARACTERS).encode_utf8(&mut bytes).as_bytes() {
            character if name.len() + character.len() <= len => name.extend(character),
            _ => name.push(b'e'),
        }
    }
    name
}

/// A legal name of plain bytes: a short one of few letters, one of any bytes, or a long one.
pub fn draw_name(rng: &mut Rng) -> Vec<u8> {
    let any_byte = |rng: &mut Rng| match rng.between(0x20, 0x7e) as u8 {
        b'/' => b'x',
        byte => byte,
    };
    match rng.below(8) {
        0..=2 => rng.pick(&SHORT).as_bytes().to_vec(),
        3 => {
            let len = *rng.pick(&LONG);
            (0..len).map(|_| any_byte(rng)).collect()
        }
        _ => {
            let len = rng.between(1, 24);
            (0..len).map(|_| any_byte(rng)).collect()
        }
    }
}
