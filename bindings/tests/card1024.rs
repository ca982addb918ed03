//! Cards with blocks of 1,024 bytes: the numbers that differ from those of 512, each on both sides of its border.
mod common;

use common::{CODE, K};
use mfs::{Refusal, Volume, VolumeRef, CODE_1024};

const BLOCK: usize = 1024;

/// Blocks of a card on which creates have room: 8,192 or more. D is 10 + ceil(8290 / 8193) = 12, and the root is the block used first.
const ROOMY: usize = 8300;

fn formatted(blocks: usize) -> Vec<u8> {
    let mut image = vec![0; blocks * BLOCK];
    mfs::format(&mut image, K, CODE_1024).expect("the block count has a layout");
    image
}

#[track_caller]
fn used(volume: &Volume<'_>) -> u64 {
    let used = volume.usage().unwrap().used;
    assert_eq!(used % BLOCK as u64, 0);
    used / BLOCK as u64
}

#[test]
fn lengths_are_whole_blocks() {
    for len in [0, 512, 1023, 12 * BLOCK - 512, 12 * BLOCK + 512, 10 * BLOCK] {
        let mut image = vec![0; len];
        assert_eq!(mfs::format(&mut image, K, CODE_1024), Err(Refusal::BadImage), "{len}");
        assert_eq!(mfs::usage(&image, K, CODE_1024), Err(Refusal::BadImage), "{len}");
    }
}

#[test]
fn bitmap_and_data_lie_by_8193() {
    for (blocks, layout) in [(11, None), (12, Some(12)), (8203, Some(12)), (8204, None), (8205, Some(13))] {
        let mut image = vec![0; blocks * BLOCK];
        let done = mfs::format(&mut image, K, CODE_1024);
        let Some(used) = layout else {
            assert_eq!(done, Err(Refusal::BadCount), "{blocks}");
            continue;
        };
        assert_eq!(done, Ok(()), "{blocks}");
        let usage = mfs::usage(&image, K, CODE_1024).unwrap();
        assert_eq!((usage.size, usage.used), ((blocks * BLOCK) as u64, used * BLOCK as u64), "{blocks}");
        assert_eq!(VolumeRef::new(&image, K, CODE_1024).check(), Ok(()), "{blocks}");
    }
}

#[test]
fn allocation_reaches_whole_8192_blocks() {
    let small = formatted(8191);
    assert!(!mfs::room(&small, K, CODE_1024, 1).unwrap().enough);
    let large = formatted(8203);
    assert!(mfs::room(&large, K, CODE_1024, 8191).unwrap().enough);
    assert!(!mfs::room(&large, K, CODE_1024, 8192).unwrap().enough);
}

#[test]
fn a_block_of_a_file_has_1020_bytes() {
    let mut image = formatted(ROOMY);
    let mut volume = Volume::new(&mut image, K, CODE_1024);
    let mut file = volume.create_file("/f", 1).unwrap();
    assert_eq!(used(&volume), 14);
    for (bytes, blocks) in [(1020, 14), (1, 15), (1019, 15), (1, 16)] {
        assert_eq!(volume.write(&mut file, &vec![bytes as u8; bytes], 2), Ok(bytes));
        assert_eq!(used(&volume), blocks, "{bytes} more");
    }
    let text = volume.read_file("/f").unwrap();
    assert_eq!((text.len(), text[1019], text[1020], text[2040]), (2041, 1020u16 as u8, 1, 1));
    assert_eq!(volume.check(), Ok(()));
}

/// Three of the longest names end at 819, so 182 bytes of name are left up to 1,019.
#[test]
fn a_block_of_entries_ends_at_1019() {
    for (len, blocks) in [(182, 17), (183, 18)] {
        let mut image = formatted(ROOMY);
        let mut volume = Volume::new(&mut image, K, CODE_1024);
        for letter in [b'a', b'b', b'c'] {
            volume.create_file([letter; 255], 1).unwrap();
        }
        volume.create_file(vec![b'd'; len], 1).unwrap();
        assert_eq!(used(&volume), blocks, "{len}");
        assert_eq!(volume.list("/").unwrap().len(), 4);
        assert_eq!(volume.check(), Ok(()));
    }
}

#[test]
fn a_volume_of_another_code_is_refused() {
    let image = formatted(ROOMY);
    assert_eq!(VolumeRef::new(&image, K, CODE).check(), Err(Refusal::NotMfs));
    // Block 8 of 1,024 bytes is block 16 of 512: the mark is found there, and its size code is another.
    assert_eq!(VolumeRef::new(&image, 2 * K, CODE).check(), Err(Refusal::NotMfs));
    // Version 1 has blocks of 512 bytes alone.
    let mut old = formatted(ROOMY);
    old[K as usize * BLOCK + 8] = 1;
    assert_eq!(VolumeRef::new(&old, K, CODE_1024).check(), Err(Refusal::NotMfs));
}
