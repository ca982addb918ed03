// The root of the original's crate, with the little of its kernel that its file system needs. The build script puts the original's
// texts beside these files, in the folder of the build's output.
extern crate alloc;

/// Where the original looks for its superblock: the blocks before it hold the kernel.
pub const KERNEL_SIZE: usize = K as usize * 512;

macro_rules! debug {
    ($($arg:tt)*) => { eprintln!($($arg)*) };
}

macro_rules! log {
    ($($arg:tt)*) => { eprintln!($($arg)*) };
}

pub mod api;
pub mod sys;
