//! Cards that no tree gives: a superblock that may say anything, and a chain that goes on in a block without a bit.
use crate::geometry::{Form, Geometry};
use crate::tree::Volume;
use crate::walk::{names_by_block, HEADER};

/// An image of zeros with a superblock for `n` blocks in block `k`, whether or not there is such a volume. The used count is 0.
pub fn blank(form: Form, k: u32, n: u32, image_blocks: u32) -> Vec<u8> {
    let mut image = vec![0; image_blocks as usize * form.block_size()];
    let super_block = &mut image[k as usize * form.block_size()..];
    super_block[..8].copy_from_slice(b"MOROS FS");
    super_block[8] = form.version();
    super_block[9] = form.code();
    super_block[10..14].copy_from_slice(&n.to_be_bytes());
    image
}

impl Volume {
    /// Moves a block of an entry's chain into a free block, also one without a bit: its bytes, the link or the entry that leads
    /// to it, the bits and the used count, so that nothing else speaks against the card.
    pub fn move_block(&mut self, entry: usize, place: usize, to: u32) {
        let from = self.entries[entry].chain[place];
        let size = self.geometry.form().block_size();
        let bytes = self.geometry.place(from)..self.geometry.place(from) + size;
        self.image.copy_within(bytes, self.geometry.place(to));
        let link = match place {
            0 => self.place_of(entry) + 1,
            _ => self.geometry.place(self.entries[entry].chain[place - 1]),
        };
        self.image[link..link + 4].copy_from_slice(&to.to_be_bytes());
        self.mark(from, false);
        if self.geometry.has_bit(to) {
            self.mark(to, true);
        }
        self.entries[entry].chain[place] = to;
        for inside in self.entries.iter_mut().filter(|inside| inside.dir == from) {
            inside.dir = to;
        }
    }

    /// Where an entry stands in the image.
    fn place_of(&self, entry: usize) -> usize {
        let Volume { image, geometry, entries } = self;
        let (dir, name) = (entries[entry].dir, entries[entry].name());
        for (names, addr) in names_by_block(image, *geometry, dir).iter().zip(crate::chain(image, *geometry, dir)) {
            if let Some(number) = names.iter().position(|other| *other == name) {
                let before: usize = names[..number].iter().map(|name| HEADER + name.len()).sum();
                return geometry.place(addr) + 4 + before;
            }
        }
        panic!("the volume's list is not what it holds");
    }

    /// Sets or clears a block's bit, and counts it.
    fn mark(&mut self, addr: u32, taken: bool) {
        let geometry: Geometry = self.geometry;
        let (place, mask) = geometry.bit(addr);
        assert_ne!(self.image[place] & mask != 0, taken, "the block is so already");
        self.image[place] ^= mask;
        let at = geometry.place(geometry.k()) + 14;
        let used = crate::geometry::be32(&self.image[at..]);
        let used = if taken { used + 1 } else { used - 1 };
        self.image[at..at + 4].copy_from_slice(&used.to_be_bytes());
    }
}
