//! The original Rust, compiled unchanged over its own memory device, with its superblock in block [`K`]. Each of the packages
//! `original_k1`, `original_k8` and `original_k8192` is this same file.
//!
//! The original has one device, one clock and one working directory for all, so its callers take turns: every call is made through a
//! [`Turn`]. Where its texts are not at hand [`PRESENT`] is false, and no turn can be had.
#![cfg_attr(original, feature(custom_test_frameworks))]
#![cfg_attr(original, allow(clippy::all))]

include!(concat!(env!("OUT_DIR"), "/k.rs"));

#[cfg(original)]
include!(concat!(env!("OUT_DIR"), "/moros/root.rs"));

#[cfg(original)]
#[path = "present.rs"]
mod calls;
#[cfg(not(original))]
#[path = "absent.rs"]
mod calls;

pub use calls::{Dir, File, Turn};

/// Whether the original was at hand when this was built.
pub const PRESENT: bool = cfg!(original);

/// What the original says of an entry. The kind is 0 for a directory, 1 for a file, 2 for a device.
#[derive(Clone, Debug, PartialEq, Eq)]
pub struct Info {
    pub kind: u8,
    pub size: u32,
    pub time: u64,
    pub name: String,
}

/// Where a seek goes.
#[derive(Clone, Copy, Debug, PartialEq, Eq)]
pub enum SeekFrom {
    Start(u32),
    Current(i32),
    End(i32),
}
