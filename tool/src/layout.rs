//! Where the parts of a volume lie and what stands in them, read plainly. The tool uses this to find a volume, to explain and to
//! draw; what a card holds is for the proved library to say.

/// A block of the smallest size, in which files are stored and marks are looked for.
pub const SECTOR: usize = 512;
/// Bytes of the largest image.
pub const IMAGE_BYTES: u64 = 1 << 32;
/// Bytes of a linked block before its data: the address of the next.
const LINK: usize = 4;
/// Bytes of an entry before its name.
pub const HEADER: usize = 18;
/// Where a format puts the superblock unless it is told otherwise.
pub const USUAL_K: u32 = 8;
pub const SIGNATURE: &[u8; 8] = b"MOROS FS";
/// The version that a format writes.
const NEWEST: u8 = 2;
/// The versions that the library takes.
pub const VERSIONS: &[u8] = &[1, NEWEST];

/// Where a superblock is: its block, and the size code in which blocks are counted.
#[derive(Clone, Copy, Debug, PartialEq, Eq)]
pub struct Mount {
    pub k: u32,
    pub code: u8,
}

impl Mount {
    /// Bytes of a block.
    pub fn block(self) -> usize {
        SECTOR << self.code
    }

    /// Bits of a bitmap block. Below so many blocks nothing is in reach of allocation.
    pub fn bits(self) -> u32 {
        8 * self.block() as u32
    }

    /// Blocks of the largest image.
    pub fn most_blocks(self) -> u64 {
        IMAGE_BYTES / self.block() as u64
    }

    /// Blocks of an image.
    pub fn blocks_of(self, image: &[u8]) -> u32 {
        (image.len() / self.block()) as u32
    }

    /// Blocks of a file of that size.
    pub fn file_blocks(self, size: u64) -> u64 {
        size.div_ceil((self.block() - LINK) as u64).max(1)
    }

    /// The block of that number; none past the image's end.
    pub fn block_at(self, image: &[u8], addr: u32) -> Option<&[u8]> {
        let start = addr as usize * self.block();
        image.get(start..start + self.block())
    }

    /// The block of a number that is known to be inside the image.
    pub fn block_in(self, image: &[u8], addr: u32) -> &[u8] {
        self.block_at(image, addr).expect("a block of the image")
    }

    /// The address that a linked block leads to; 0 ends a chain.
    pub fn next(self, image: &[u8], addr: u32) -> u32 {
        be32(self.block_in(image, addr))
    }

    /// What stands in a linked block after the address of the next.
    pub fn data(self, image: &[u8], addr: u32) -> &[u8] {
        &self.block_in(image, addr)[LINK..]
    }

    /// The sectors of a block.
    pub fn sectors(self, addr: u32) -> std::ops::Range<u32> {
        addr << self.code..(addr + 1) << self.code
    }
}

/// The fields of a superblock, whether or not they make sense.
#[derive(Clone, Copy, Debug, PartialEq, Eq)]
pub struct Superblock {
    pub signature: [u8; 8],
    pub version: u8,
    pub size_code: u8,
    pub blocks: u32,
    pub used: u32,
    /// The first byte behind the fields that is not zero.
    pub first_stray: Option<usize>,
}

impl Superblock {
    /// The block's fields, whatever stands in it.
    pub fn of_block(block: &[u8]) -> Superblock {
        let fields = 18;
        Superblock {
            signature: block[..8].try_into().expect("eight bytes"),
            version: block[8],
            size_code: block[9],
            blocks: be32(&block[10..]),
            used: be32(&block[14..]),
            first_stray: block[fields..].iter().position(|&byte| byte != 0).map(|at| fields + at),
        }
    }

    /// The block of an image that is named, where there is one.
    pub fn at(image: &[u8], mount: Mount) -> Option<Superblock> {
        mount.block_at(image, mount.k).map(Superblock::of_block)
    }

    pub fn is_marked(&self) -> bool {
        self.signature == *SIGNATURE
    }
}

/// Where the parts of a volume of `blocks` blocks with its superblock where the mount says lie.
#[derive(Clone, Copy, Debug, PartialEq, Eq)]
pub struct Geometry {
    pub version: u8,
    pub mount: Mount,
    pub blocks: u32,
}

impl Geometry {
    /// The volume that a format makes.
    pub fn new(mount: Mount, blocks: u32) -> Option<Geometry> {
        Geometry::of_version(NEWEST, mount, blocks)
    }

    /// None where no volume can be: fewer than two blocks from the bitmap on, or one over by a bitmap block and the blocks of its
    /// bits; of version 1 fewer than these.
    pub fn of_version(version: u8, mount: Mount, blocks: u32) -> Option<Geometry> {
        let from_bitmap = blocks.checked_sub(mount.k.checked_add(2)?)?;
        let fits = match version {
            1 => from_bitmap > mount.bits(),
            _ => from_bitmap >= 2 && from_bitmap % (mount.bits() + 1) != 1,
        };
        (fits && u64::from(blocks) <= mount.most_blocks()).then_some(Geometry { version, mount, blocks })
    }

    /// The volume that the superblock describes, if the image has all of it.
    pub fn of(image: &[u8], mount: Mount) -> Option<Geometry> {
        let superblock = Superblock::at(image, mount)?;
        let geometry = Geometry::of_version(superblock.version, mount, superblock.blocks)?;
        (geometry.blocks <= mount.blocks_of(image)).then_some(geometry)
    }

    pub fn bitmap(self) -> u32 {
        self.mount.k + 2
    }

    /// The first block of the data area, where the root directory begins.
    pub fn data(self) -> u32 {
        let from_bitmap = self.blocks - self.bitmap();
        self.bitmap()
            + match self.version {
                // Rounded down, so that the last data blocks may have no bit.
                1 => from_bitmap / (self.mount.bits() + 1),
                _ => from_bitmap.div_ceil(self.mount.bits() + 1),
            }
    }

    pub fn data_blocks(self) -> u32 {
        self.blocks - self.data()
    }

    /// So many blocks from the start of the data area can be allocated.
    pub fn reach(self) -> u32 {
        self.data_blocks().min(self.blocks / self.mount.bits() * self.mount.bits()).min(self.bits())
    }

    /// Bits of all bitmap blocks: as many as data blocks, or more, but on a card of version 1.
    pub fn bits(self) -> u32 {
        (self.data() - self.bitmap()) * self.mount.bits()
    }

    pub fn holds(self, addr: u32) -> bool {
        (self.data()..self.blocks).contains(&addr)
    }

    /// The bitmap's bytes, one bit a block of the data area from the lowest bit of the first byte on.
    pub fn bitmap_bytes(self, image: &[u8]) -> &[u8] {
        &image[self.bitmap() as usize * self.mount.block()..self.data() as usize * self.mount.block()]
    }

    /// Whether the bit of that index is set; an index may be past the data area's last, or past the last bit.
    pub fn bit(self, image: &[u8], index: u32) -> bool {
        index < self.bits() && self.bitmap_bytes(image)[index as usize / 8] >> (index % 8) & 1 == 1
    }

    /// Clear bits among the first `indexes`.
    fn clear(self, image: &[u8], indexes: u32) -> u32 {
        let bytes = &self.bitmap_bytes(image)[..indexes as usize / 8];
        let whole: u32 = bytes.iter().map(|byte| byte.count_zeros()).sum();
        whole + (indexes / 8 * 8..indexes).filter(|&index| !self.bit(image, index)).count() as u32
    }

    /// Clear bits of the whole bitmap, also those past the data area's last block.
    pub fn clear_bits(self, image: &[u8]) -> u32 {
        self.clear(image, self.bits())
    }

    /// Free blocks that can be allocated.
    pub fn free_in_reach(self, image: &[u8]) -> u32 {
        self.clear(image, self.reach())
    }
}

/// An entry as it stands in a directory block.
#[derive(Clone, Copy, Debug, PartialEq, Eq)]
pub struct Slot<'a> {
    /// Its offset in the block's data.
    pub offset: usize,
    pub kind: u8,
    pub addr: u32,
    pub size: u32,
    pub name: &'a [u8],
}

impl Slot<'_> {
    pub fn len(&self) -> usize {
        HEADER + self.name.len()
    }

    pub fn end(&self) -> usize {
        self.offset + self.len()
    }
}

/// The entries of a directory block's data, those with address 0 among them.
pub fn slots(data: &[u8]) -> Vec<Slot<'_>> {
    let mut found: Vec<Slot> = Vec::new();
    while let Some(slot) = slot_at(data, found.last().map_or(0, Slot::end)) {
        found.push(slot);
    }
    found
}

/// No entry stands at the block's last bytes, where the kind is unknown or the name is empty, or where it would pass the end.
fn slot_at(data: &[u8], offset: usize) -> Option<Slot<'_>> {
    if offset >= data.len() - HEADER {
        return None;
    }
    let (kind, len) = (data[offset], data[offset + HEADER - 1] as usize);
    let end = offset + HEADER + len;
    if kind > 2 || len == 0 || end > last_end(data) {
        return None;
    }
    let (addr, size) = (be32(&data[offset + 1..]), be32(&data[offset + 5..]));
    Some(Slot { offset, kind, addr, size, name: &data[offset + HEADER..end] })
}

/// Where the last entry of a block with that data ends at the latest.
fn last_end(data: &[u8]) -> usize {
    data.len() - 1
}

/// Whether an entry with a name of that length fits behind the entries of a directory block.
pub fn has_room(data: &[u8], name_len: usize) -> bool {
    slots(data).last().map_or(0, Slot::end) + HEADER + name_len <= last_end(data)
}

/// The blocks of a chain, until it leaves the data area or has passed as many as there are.
pub fn chain(image: &[u8], geometry: Geometry, first: u32) -> Vec<u32> {
    let mut blocks = Vec::new();
    let mut addr = first;
    while geometry.holds(addr) && blocks.len() < geometry.data_blocks() as usize {
        blocks.push(addr);
        addr = geometry.mount.next(image, addr);
    }
    blocks
}

/// The directory at a path, by its first block; none where there is no such directory.
pub fn find_dir(image: &[u8], geometry: Geometry, path: &[u8]) -> Option<u32> {
    let mut at = geometry.data();
    for piece in path.split(|&byte| byte == b'/').filter(|piece| !piece.is_empty()) {
        let blocks = chain(image, geometry, at);
        let mut all = blocks.iter().flat_map(|&addr| slots(geometry.mount.data(image, addr)));
        at = all.find(|slot| slot.kind == 0 && slot.name == piece)?.addr;
    }
    Some(at)
}

fn be32(bytes: &[u8]) -> u32 {
    u32::from_be_bytes([bytes[0], bytes[1], bytes[2], bytes[3]])
}

#[cfg(test)]
mod tests {
    use super::*;

    const NARROW: Mount = Mount { k: 8, code: 0 };
    const WIDE: Mount = Mount { k: 8, code: 1 };

    #[test]
    fn the_parts_lie_where_the_rules_put_them() {
        let at = |blocks| Geometry::new(NARROW, blocks).map(|g| (g.data(), g.reach()));
        assert_eq!([at(11), at(12), at(4107)], [None, Some((11, 0)), Some((11, 4096))]);
        assert_eq!([at(4108), at(4109)], [None, Some((12, 4096))]);
        assert_eq!([0, 508, 509, 1016].map(|size| NARROW.file_blocks(size)), [1, 1, 2, 2]);
    }

    #[test]
    fn the_parts_of_a_card_with_large_blocks() {
        let at = |blocks| Geometry::new(WIDE, blocks).map(|g| (g.data(), g.reach()));
        assert_eq!([at(11), at(12), at(8203)], [None, Some((11, 0)), Some((11, 8192))]);
        assert_eq!([at(8204), at(8205)], [None, Some((12, 8192))]);
        assert_eq!([0, 1020, 1021, 2040].map(|size| WIDE.file_blocks(size)), [1, 1, 2, 2]);
    }

    /// First data block, data blocks, bits and reach of a card of version 1.
    #[test]
    fn the_parts_of_an_old_card() {
        let at = |blocks| Geometry::of_version(1, NARROW, blocks).map(|g| [g.data(), g.data_blocks(), g.bits(), g.reach()]);
        assert_eq!([at(12), at(4106)], [None, None]);
        assert_eq!(at(10 + 4097), Some([11, 4096, 4096, 4096]));
        assert_eq!(at(10 + 4098), Some([11, 4097, 4096, 4096]));
        assert_eq!(at(10 + 8193), Some([11, 8192, 4096, 4096]));
        assert_eq!(at(10 + 8194), Some([12, 8192, 8192, 8192]));
    }

    #[test]
    fn clear_bits_are_counted_to_the_last() {
        let geometry = Geometry::new(Mount { k: 0, code: 0 }, 30).expect("a volume");
        let mut image = vec![0; 30 * SECTOR];
        image[2 * SECTOR] = 0b101;
        image[2 * SECTOR + 3] = 0b11;
        assert_eq!((geometry.data(), geometry.data_blocks(), geometry.clear(&image, 27)), (3, 27, 23));
        assert_eq!(geometry.free_in_reach(&image), 0);
    }
}
