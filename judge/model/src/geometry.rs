//! Where the parts of a volume lie. Every number that the version or the size code decides stands in this file.
use crate::{Answer, Refusal};

/// What a size code decides.
#[derive(Clone, Copy, Debug, PartialEq, Eq)]
pub struct Size {
    /// F1: the bytes of a block.
    pub block: usize,
    /// F8: the data bytes of a linked block.
    pub capacity: usize,
    /// F5: the bits of a bitmap block.
    pub bits: usize,
    /// F10: no entry begins here or behind.
    pub stop: usize,
    /// F10: an entry ends here at the latest.
    pub last_end: usize,
    /// F13: the longest image.
    pub max_blocks: usize,
}

/// The sizes by their code. Those of code 1 are a variant of our own: its images have half as many blocks, so that a
/// directory's sum still fits its four bytes.
pub const SIZES: [Size; 2] = [
    Size { block: 512, capacity: 508, bits: 4096, stop: 490, last_end: 507, max_blocks: 8_388_608 },
    Size { block: 1024, capacity: 1020, bits: 8192, stop: 1002, last_end: 1019, max_blocks: 4_194_304 },
];

/// F2: the version that format writes.
pub const WRITTEN: u8 = 2;

/// Which volumes are taken besides those of version 2 and size code 0, all others being refused by 2; and which of the rules
/// hold that came later.
#[derive(Clone, Copy, Debug, PartialEq, Eq)]
pub struct Known {
    pub version_1: bool,
    pub code_1: bool,
    /// A block that is given back becomes zero.
    pub wiping: bool,
    /// There is a call that changes bytes inside a file.
    pub patch: bool,
}

impl Known {
    /// What the library does. The judges that run it ask for this.
    pub const TODAY: Known = Known { version_1: true, code_1: true, wiping: true, patch: true };
    /// All that this model can do.
    pub const ALL: Known = Known { version_1: true, code_1: true, wiping: true, patch: true };

    /// R2, the version: only version 2 has a size code other than 0.
    fn takes(self, version: u8, code: u32) -> bool {
        version == 2 || version == 1 && self.version_1 && code == 0
    }
}

/// What a caller says of a volume: K, which counts blocks of the size that the code says, since the superblock can't be found
/// without.
#[derive(Clone, Copy, Debug, PartialEq, Eq)]
pub struct Mount {
    pub k: u32,
    pub code: u32,
    pub known: Known,
}

/// By K alone, as the library is called: size code 0.
impl From<u32> for Mount {
    fn from(k: u32) -> Mount {
        Mount::from((k, 0))
    }
}

/// By K and size code.
impl From<(u32, u32)> for Mount {
    fn from((k, code): (u32, u32)) -> Mount {
        Mount { k, code, known: Known::TODAY }
    }
}

impl Mount {
    /// A call's code that is not known is refused by 2, before all else.
    pub fn size(self) -> Answer<Size> {
        match self.code {
            0 => Ok(SIZES[0]),
            1 if self.known.code_1 => Ok(SIZES[1]),
            _ => Err(Refusal::NotMfs),
        }
    }

    /// The image's block count, or 1 (R1), by the call's code.
    pub fn image_blocks(self, image: &[u8]) -> Answer<usize> {
        let size = self.size()?;
        let blocks = image.len() / size.block;
        let bitmap = self.k as usize + 2;
        if image.is_empty() || !image.len().is_multiple_of(size.block) || blocks > size.max_blocks || bitmap >= blocks {
            return Err(Refusal::BadImage);
        }
        Ok(blocks)
    }

    /// R2: what a superblock's version and size code say must be known, and the code must be the call's.
    pub fn takes(self, version: u8, code: u8) -> bool {
        u32::from(code) == self.code && self.known.takes(version, self.code)
    }
}

/// The numbers that say where a volume's parts lie: K, the superblock's block, the version, the size code, and n, the block
/// count.
#[derive(Clone, Copy, Debug, PartialEq, Eq)]
pub struct Geometry {
    pub k: usize,
    pub version: u8,
    pub code: u8,
    pub n: usize,
}

impl Geometry {
    /// R3. Version 1 has no rule on the remainder, but one bitmap block at least.
    pub fn in_image(self, image_blocks: usize) -> Answer<Geometry> {
        let (a, whole) = (self.a(), self.size().bits + 1);
        let is_good = match self.version {
            1 => self.n >= a + whole,
            _ => self.n >= a + 2 && (self.n - a) % whole != 1,
        };
        if self.n > image_blocks || !is_good {
            return Err(Refusal::BadCount);
        }
        Ok(self)
    }

    pub fn size(self) -> Size {
        SIZES[usize::from(self.code)]
    }

    /// F3: where the bitmap begins.
    pub fn a(self) -> usize {
        self.k + 2
    }

    /// F3: the blocks of the bitmap. Version 1 rounds down, so its last data blocks may have no bit.
    pub fn bitmap_blocks(self) -> usize {
        let (rest, whole) = (self.n - self.a(), self.size().bits + 1);
        match self.version {
            1 => rest / whole,
            _ => rest.div_ceil(whole),
        }
    }

    /// F3: where the data area begins.
    pub fn d(self) -> usize {
        self.a() + self.bitmap_blocks()
    }

    /// The blocks of the data area, n-D.
    pub fn data_blocks(self) -> usize {
        self.n - self.d()
    }

    /// F4. In version 1 it ends where the bitmap does.
    pub fn reach(self) -> usize {
        let bits = self.size().bits;
        let reach = self.data_blocks().min(bits * (self.n / bits));
        match self.version {
            1 => reach.min(self.bitmap_bits()),
            _ => reach,
        }
    }

    /// How many bits the blocks of the bitmap hold: in version 2 as many as data blocks, or more.
    pub fn bitmap_bits(self) -> usize {
        self.size().bits * self.bitmap_blocks()
    }

    /// Whether the block of an index has a bit.
    pub fn has_bit(self, x: usize) -> bool {
        x < self.bitmap_bits()
    }

    /// C3: the bytes of the work buffer that the check needs, a bit for each block of the data area.
    pub fn work_len(self) -> usize {
        self.data_blocks().div_ceil(8)
    }

    /// F12: how many blocks a file has.
    pub fn file_blocks(self, size: usize) -> usize {
        size.div_ceil(self.size().capacity).max(1)
    }

    /// Whether an address is one of the data area.
    pub fn holds(self, address: usize) -> bool {
        self.d() <= address && address < self.n
    }

    /// F1: the index of an address.
    pub fn index(self, address: usize) -> usize {
        address - self.d()
    }

    pub fn address(self, index: usize) -> usize {
        self.d() + index
    }

    /// F5: where the bit of an index stands: the place of the byte in the image, and its mask.
    pub fn bit(self, x: usize) -> (usize, u8) {
        let Size { block, bits, .. } = self.size();
        (block * (self.a() + x / bits) + (x % bits) / 8, 1 << (x % 8))
    }
}
