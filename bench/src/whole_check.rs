//! The check of a full volume, beside a plain loop that only touches the same blocks.
use crate::images::{self, Fill};
use crate::timing::{median, once};
use original_k8::K;
use std::hint::black_box;
use std::ops::Range;
use volumes::{Volume, BLOCK_SIZE};

/// A full volume with what is needed to check it and to touch its blocks.
pub struct Full {
    image: Vec<u8>,
    work: Vec<u8>,
    bitmap: Range<u32>,
    /// The first blocks of all chains, in the order in which the check walks these.
    firsts: Vec<u32>,
    /// Blocks of the bitmap and of the data area.
    blocks: u32,
}

/// The medians of several runs.
pub struct Figures {
    pub check: f64,
    pub touch: f64,
}

impl Full {
    pub fn new(mib: u32, fill: Fill) -> Full {
        let Volume { image, geometry, entries } = images::full(mib, fill);
        let root = std::iter::once(geometry.data());
        Full {
            work: vec![0; mfs::work_len(image.len())],
            image,
            bitmap: geometry.bitmap()..geometry.data(),
            firsts: root.chain(entries.iter().map(|entry| entry.chain[0])).collect(),
            blocks: geometry.blocks() - geometry.bitmap(),
        }
    }

    pub fn blocks(&self) -> u32 {
        self.blocks
    }

    /// The check, which must find the volume well formed.
    pub fn check(&mut self) {
        mfs::check(&self.image, K, mfs::CODE_512, &mut self.work).expect("a well-formed volume");
    }

    /// The plain loop, which must come to every block.
    pub fn touch(&self) {
        let touched = touch_blocks(&self.image, self.bitmap.clone(), &self.firsts);
        assert_eq!(touched, self.blocks, "blocks touched");
    }

    /// Times both, one after the other in each run. One check and one loop before, which do not count, warm the caches.
    pub fn time(&mut self, runs: usize) -> Figures {
        self.check();
        self.touch();
        let (mut check, mut touch) = (Vec::new(), Vec::new());
        for _ in 0..runs {
            check.push(once(|| self.check()).0);
            touch.push(once(|| self.touch()).0);
        }
        Figures { check: median(check), touch: median(touch) }
    }
}

/// Reads the first word of each block of the bitmap and of each chain, following the chain, and counts the blocks. It is not inlined,
/// so that its instructions can be counted by its name.
#[inline(never)]
fn touch_blocks(image: &[u8], bitmap: Range<u32>, firsts: &[u32]) -> u32 {
    let mut blocks = 0;
    for addr in bitmap {
        black_box(first_word(image, addr));
        blocks += 1;
    }
    for &first in firsts {
        let mut addr = first;
        while addr != 0 {
            addr = first_word(image, addr);
            blocks += 1;
        }
    }
    blocks
}

fn first_word(image: &[u8], addr: u32) -> u32 {
    let start = addr as usize * BLOCK_SIZE;
    let word = &image[start..start + 4];
    u32::from_be_bytes([word[0], word[1], word[2], word[3]])
}
