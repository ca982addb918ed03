//! Images for the tests. The superblock is in block 8.
#![allow(dead_code)] // each test program uses some of it

use mfs::{Handle, Refusal, BLOCK_SIZE, NAME_LEN};

pub const K: u32 = 8;

/// The images have blocks of 512 bytes.
pub const CODE: u32 = mfs::CODE_512;

/// Blocks of a volume on which creates have room: 4,096 or more.
pub const ROOMY: usize = 4200;

/// The first address of the data area of a volume of `ROOMY` blocks: 10 + ceil(4190 / 4097).
pub const ROOMY_AREA: u32 = 12;

/// The first address of the data area of [`listed`].
pub const LISTED_AREA: usize = 11;

/// A volume with an empty root.
pub fn formatted(blocks: usize) -> Vec<u8> {
    let mut image = vec![0; blocks * BLOCK_SIZE];
    mfs::format(&mut image, K, CODE).expect("the block count has a layout");
    image
}

/// Zeros for the check of an image.
pub fn work_for(image: &[u8]) -> Vec<u8> {
    vec![0; mfs::work_len(image.len())]
}

/// The volume of 128 blocks that the documents write out byte by byte: a file `m1` of 3 bytes in block 12, a directory `old` in block 13.
pub fn listed() -> Vec<u8> {
    let mut image = vec![0; 128 * BLOCK_SIZE];
    let superblock = K as usize * BLOCK_SIZE;
    put(&mut image, superblock, b"MOROS FS\x02\x00");
    put(&mut image, superblock + 10, &128u32.to_be_bytes());
    put(&mut image, superblock + 14, &14u32.to_be_bytes());
    put(&mut image, superblock + 2 * BLOCK_SIZE, &[0x07]);
    let root = LISTED_AREA * BLOCK_SIZE + 4;
    put(&mut image, root, &entry(1, 12, 3, 1_700_000_000, b"m1"));
    put(&mut image, root + 20, &entry(0, 13, 0, 1_700_000_060, b"old"));
    image
}

/// Where the size stands in `m1`'s entry.
pub const M1_SIZE_AT: usize = LISTED_AREA * BLOCK_SIZE + 4 + 5;

/// The bytes of a directory entry.
pub fn entry(kind: u8, addr: u32, size: u32, time: u64, name: &[u8]) -> Vec<u8> {
    let mut bytes = vec![kind];
    bytes.extend(addr.to_be_bytes());
    bytes.extend(size.to_be_bytes());
    bytes.extend(time.to_be_bytes());
    bytes.push(name.len() as u8);
    bytes.extend(name);
    bytes
}

pub fn put(image: &mut [u8], at: usize, bytes: &[u8]) {
    image[at..at + bytes.len()].copy_from_slice(bytes);
}

/// A roomy volume with a directory `/d` and a file `/d/f` that holds `abc`.
pub fn with_file() -> Vec<u8> {
    let mut image = formatted(ROOMY);
    let mut work = work_for(&image);
    mfs::create_dir(&mut image, K, CODE, b"/", b"/d", 1, &mut work).unwrap();
    let mut file = mfs::create_file(&mut image, K, CODE, b"/", b"/d/f", 2, &mut work).unwrap();
    mfs::write(&mut image, K, CODE, &mut file, b"abc", 3, &mut work).unwrap();
    image
}

/// The name of a handle: zeros after it.
pub fn name_array(name: &[u8]) -> [u8; NAME_LEN] {
    let mut array = [0; NAME_LEN];
    array[..name.len()].copy_from_slice(name);
    array
}

/// The parts of a handle that a call could change.
pub fn parts(handle: &Handle) -> (u32, u32, u32, u32, Vec<u8>) {
    (handle.dir(), handle.addr(), handle.size(), handle.position(), handle.name().to_vec())
}

/// Sees that a changing call is refused by `refusal` and leaves every byte of the image.
#[track_caller]
pub fn assert_refused<T>(image: &[u8], refusal: Refusal, call: impl FnOnce(&mut [u8]) -> Result<T, Refusal>) {
    let mut changed = image.to_vec();
    assert_eq!(call(&mut changed).err(), Some(refusal));
    assert!(changed == image, "the image is changed by a call that is refused by {}", refusal.number());
}
