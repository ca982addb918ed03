//! Where the parts of a volume lie.
use std::fmt;

/// Bytes of a block of size code 0.
pub const BLOCK_SIZE: usize = 512;
/// Bytes of a linked block of size code 0 after the next block's address.
pub const CAPACITY: usize = BLOCK_SIZE - 4;

/// The kinds of volumes there are.
#[derive(Clone, Copy, Debug, PartialEq, Eq)]
pub enum Form {
    /// Version 1, whose bitmap may be too short for the last data blocks.
    V1,
    /// Version 2.
    V2,
    /// Version 2 with size code 1: blocks of 1,024 bytes.
    Large,
}

impl Form {
    pub fn version(self) -> u8 {
        if self == Form::V1 {
            1
        } else {
            2
        }
    }

    pub fn code(self) -> u8 {
        u8::from(self == Form::Large)
    }

    /// Bytes of a block.
    pub fn block_size(self) -> usize {
        BLOCK_SIZE << self.code()
    }

    /// Bytes of a linked block after the next block's address.
    pub fn capacity(self) -> usize {
        self.block_size() - 4
    }

    /// Blocks whose bits one bitmap block holds.
    pub fn bits(self) -> u32 {
        8 * self.block_size() as u32
    }
}

/// A volume's form and two numbers, which decide where its parts lie.
#[derive(Clone, Copy, PartialEq, Eq)]
pub struct Geometry {
    form: Form,
    k: u32,
    blocks: u32,
}

/// The form is shown where it is another than most have.
impl fmt::Debug for Geometry {
    fn fmt(&self, f: &mut fmt::Formatter<'_>) -> fmt::Result {
        let mut shown = f.debug_struct("Geometry");
        if self.form != Form::V2 {
            shown.field("form", &self.form);
        }
        shown.field("k", &self.k).field("blocks", &self.blocks).finish()
    }
}

impl Geometry {
    /// The volume of version 2 and size code 0 with so many blocks and its superblock in block `k`; none where such a volume
    /// can't be.
    pub fn new(k: u32, blocks: u32) -> Option<Geometry> {
        Geometry::of_form(Form::V2, k, blocks)
    }

    /// The volume of that form.
    pub fn of_form(form: Form, k: u32, blocks: u32) -> Option<Geometry> {
        let after_bitmap_start = blocks.checked_sub(k.checked_add(2)?)?;
        let can_be = match form {
            Form::V1 => after_bitmap_start > form.bits(),
            _ => after_bitmap_start >= 2 && after_bitmap_start % (form.bits() + 1) != 1,
        };
        can_be.then_some(Geometry { form, k, blocks })
    }

    /// The volume whose superblock stands in block `k` of an image of 512-byte blocks.
    pub fn of(image: &[u8], k: u32) -> Option<Geometry> {
        Geometry::read(image, k, 0)
    }

    /// The volume whose superblock stands in block `k` of an image of blocks of that size code. A version that there is not
    /// counts as 2.
    pub fn read(image: &[u8], k: u32, code: u32) -> Option<Geometry> {
        let form = if code == 0 { Form::V2 } else { Form::Large };
        let super_block = image.chunks_exact(form.block_size()).nth(k as usize)?;
        let form = if super_block[8] == 1 && form == Form::V2 { Form::V1 } else { form };
        Geometry::of_form(form, k, be32(&super_block[10..]))
    }

    pub fn form(self) -> Form {
        self.form
    }

    /// The superblock's block number.
    pub fn k(self) -> u32 {
        self.k
    }

    /// Blocks of the volume.
    pub fn blocks(self) -> u32 {
        self.blocks
    }

    /// The first bitmap block.
    pub fn bitmap(self) -> u32 {
        self.k + 2
    }

    fn bitmap_blocks(self) -> u32 {
        let (rest, whole) = (self.blocks - self.bitmap(), self.form.bits() + 1);
        match self.form {
            Form::V1 => rest / whole,
            _ => rest.div_ceil(whole),
        }
    }

    /// The first data block, which is the root directory's first.
    pub fn data(self) -> u32 {
        self.bitmap() + self.bitmap_blocks()
    }

    /// Blocks of the data area.
    pub fn data_blocks(self) -> u32 {
        self.blocks - self.data()
    }

    /// Blocks at the start of the data area that have a bit.
    pub fn with_bit(self) -> u32 {
        self.data_blocks().min(self.bitmap_blocks() * self.form.bits())
    }

    /// Blocks at the start of the data area that can be allocated.
    pub fn reach(self) -> u32 {
        let bits = self.form.bits();
        self.with_bit().min(self.blocks / bits * bits)
    }

    /// The place in the image of a block's first byte.
    pub fn place(self, addr: u32) -> usize {
        addr as usize * self.form.block_size()
    }

    /// The place in the image of the byte with a data block's bit, and that bit, where it has one.
    pub fn bit(self, addr: u32) -> (usize, u8) {
        let index = addr - self.data();
        (self.place(self.bitmap()) + index as usize / 8, 1 << (index % 8))
    }

    /// Whether a data block has a bit.
    pub fn has_bit(self, addr: u32) -> bool {
        addr < self.data() + self.with_bit()
    }

    /// Whether a data block's bit is set.
    pub fn taken(self, image: &[u8], addr: u32) -> bool {
        let (place, mask) = self.bit(addr);
        self.has_bit(addr) && image[place] & mask != 0
    }

    /// The clear blocks that can be allocated, in order.
    pub fn free_in_reach(self, image: &[u8]) -> impl Iterator<Item = u32> + '_ {
        (self.data()..self.data() + self.reach()).filter(move |&addr| !self.taken(image, addr))
    }
}

/// The big-endian number in the first four bytes.
pub(crate) fn be32(bytes: &[u8]) -> u32 {
    u32::from_be_bytes([bytes[0], bytes[1], bytes[2], bytes[3]])
}

#[cfg(test)]
mod tests {
    use super::{Form, Geometry};

    #[test]
    fn the_marked_examples() {
        let at = |blocks| Geometry::new(8, blocks).map(|g| (g.data(), g.reach()));
        assert_eq!(at(11), None);
        assert_eq!(at(12), Some((11, 0)));
        assert_eq!(at(4107), Some((11, 4096)));
        assert_eq!(at(4108), None);
        assert_eq!(at(4109), Some((12, 4096)));
    }

    #[test]
    fn a_block_has_its_bit_in_its_own_bitmap_block() {
        let g = Geometry::new(8, 12).unwrap();
        assert_eq!(g.bit(11 + 13), (10 * 512 + 1, 0x20));
        let two = Geometry::new(8, 5000).unwrap();
        assert_eq!(two.bit(two.data() + 4096), (11 * 512, 1));
    }

    /// By K = 8: first data block, blocks of the data area, of these with a bit, and in reach.
    fn parts(form: Form, blocks: u32) -> Option<[u32; 4]> {
        Geometry::of_form(form, 8, blocks).map(|g| [g.data(), g.data_blocks(), g.with_bit(), g.reach()])
    }

    #[test]
    fn version_1_has_data_blocks_without_a_bit() {
        assert_eq!(parts(Form::V1, 10 + 4096), None);
        assert_eq!(parts(Form::V1, 10 + 4097), Some([11, 4096, 4096, 4096]));
        assert_eq!(parts(Form::V1, 10 + 4098), Some([11, 4097, 4096, 4096]));
        assert_eq!(parts(Form::V1, 10 + 8193), Some([11, 8192, 4096, 4096]));
        assert_eq!(parts(Form::V1, 10 + 8194), Some([12, 8192, 8192, 8192]));
    }

    #[test]
    fn blocks_of_1024_bytes() {
        assert_eq!((Form::Large.block_size(), Form::Large.capacity(), Form::Large.bits()), (1024, 1020, 8192));
        assert_eq!(parts(Form::Large, 11), None);
        assert_eq!(parts(Form::Large, 12), Some([11, 1, 1, 0]));
        assert_eq!(parts(Form::Large, 8203), Some([11, 8192, 8192, 8192]));
        assert_eq!(parts(Form::Large, 8204), None);
        assert_eq!(parts(Form::Large, 8205), Some([12, 8193, 8193, 8192]));
        let two = Geometry::of_form(Form::Large, 8, 9000).unwrap();
        assert_eq!(two.bit(two.data() + 8192), (11 * 1024, 1));
    }

    #[test]
    fn no_volume_where_the_superblock_lies_outside() {
        assert_eq!(Geometry::new(u32::MAX, 100), None);
        assert_eq!(Geometry::new(8, 9), None);
        assert_eq!(Geometry::of(&[0; 512], 8), None);
    }
}
