//! The original's side: its three builds behind one interface.
use crate::call::{Answer, Call, FileState};

/// A build of the original, with its open files and directories.
pub trait Original {
    /// Puts an image on the device and forgets all handles.
    fn load(&mut self, image: &[u8]);
    /// The image on the device.
    fn dump(&self) -> Vec<u8>;
    /// The first block in which the device differs from an image.
    fn first_difference(&self, image: &[u8]) -> Option<usize>;
    /// One block of the device.
    fn block(&self, addr: u32) -> Vec<u8>;
    /// Makes one block of the device zero.
    fn wipe(&mut self, addr: u32);
    /// Makes a call, whose slot or page must be in use if the call wants it so.
    fn make(&mut self, call: &Call) -> Answer;
    /// The file of a slot.
    fn file(&self, slot: usize) -> Option<FileState>;
    /// Where the file of a slot resumes: the number of the block in its chain, and the block's address.
    fn resume(&self, slot: usize) -> Option<(usize, u32)>;
    /// The directory of a page: its first address, and the number of the next entry.
    fn page(&self, page: usize) -> Option<(u32, u32)>;
}

/// The superblock's places for which there is a build.
pub const KS: [u32; 3] = [1, 8, 8192];

/// What to say where the original is not at hand.
pub const ABSENT: &str = "comparison left out: the original Rust was not at hand; give its folder, which holds src/sys/fs, \
                          as MOROS_SRC, and RUSTC_BOOTSTRAP=1, when building";

/// Whether the original was at hand when this was built.
pub const PRESENT: bool = original_k8::PRESENT;

/// The build of the original with its superblock in block `k`. It waits until nobody else has it.
pub fn original(k: u32) -> Box<dyn Original> {
    match k {
        1 => Box::new(k1::Side::take()),
        8 => Box::new(k8::Side::take()),
        8192 => Box::new(k8192::Side::take()),
        _ => panic!("the original is built with its superblock in block 1, 8 or 8192, not {k}"),
    }
}

mod k1 {
    use original_k1 as moros;
    include!("side.rs");
}

mod k8 {
    use original_k8 as moros;
    include!("side.rs");
}

mod k8192 {
    use original_k8192 as moros;
    include!("side.rs");
}
