//! Bytes inside a file that are changed, and the file's tail that stays.
mod common;

use common::*;
use mfs::{Handle, Refusal, SeekFrom, Volume, VolumeRef, BLOCK_SIZE};

/// A roomy volume with files of 1,600 and 3 bytes in a directory, and the first of them as it is.
fn with_long() -> (Vec<u8>, Vec<u8>) {
    let bytes: Vec<u8> = (0..1600).map(|at| (at * 7) as u8).collect();
    let mut image = with_file();
    Volume::new(&mut image, K, CODE).write_file("/d/long", &bytes, 4).unwrap();
    (image, bytes)
}

fn opened(image: &[u8], path: &str, position: u32) -> Handle {
    let mut handle = VolumeRef::new(image, K, CODE).open(path).unwrap();
    handle.seek(SeekFrom::Start(position)).unwrap();
    handle
}

fn patch(image: &mut [u8], handle: &mut Handle, buf: &[u8]) -> Result<usize, Refusal> {
    let mut work = work_for(image);
    mfs::patch(image, K, CODE, handle, buf, 9, &mut work)
}

#[test]
fn the_buffer_is_put_over_what_is_there() {
    let (image, bytes) = with_long();
    for (position, len) in [(0, 1), (0, 1600), (1, 507), (507, 1), (507, 2), (508, 508), (500, 600), (1599, 1), (1015, 585)] {
        let mut changed = image.clone();
        let buf = vec![0xEE; len];
        let mut other = opened(&image, "/d/long", 3);
        let mut handle = opened(&image, "/d/long", position as u32);
        assert_eq!(patch(&mut changed, &mut handle, &buf), Ok(len));
        assert_eq!((handle.size(), handle.position()), (1600, (position + len) as u32));
        let volume = VolumeRef::new(&changed, K, CODE);
        let expected = [&bytes[..position], &buf, &bytes[position + len..]].concat();
        assert_eq!(volume.read_file("/d/long").as_ref(), Ok(&expected), "{len} bytes at {position}");
        assert_eq!(volume.read_file("/d/f").unwrap(), b"abc");
        assert_eq!(volume.info("/d/long").map(|info| (info.size, info.time)), Ok((1600, 9)));
        // The directory's own entry is not renewed, and the other handle is current.
        assert_eq!(volume.info("/d"), VolumeRef::new(&image, K, CODE).info("/d"));
        assert_eq!(volume.usage(), VolumeRef::new(&image, K, CODE).usage());
        let mut read = vec![0; 1597];
        assert_eq!(volume.read(&mut other, &mut read), Ok(1597));
        assert_eq!(read, expected[3..]);
        assert_eq!(volume.check(), Ok(()));
    }
}

#[track_caller]
fn assert_patch_refused(image: &[u8], handle: &Handle, buf: &[u8], refusal: Refusal) {
    let mut kept = handle.clone();
    assert_refused(image, refusal, |image| patch(image, &mut kept, buf));
    assert_eq!(kept, *handle);
}

#[test]
fn the_end_may_not_pass_the_size() {
    let (image, _) = with_long();
    for (position, len) in [(1600, 1), (1599, 2), (0, 1601), (508, 5000)] {
        assert_patch_refused(&image, &opened(&image, "/d/long", position), &vec![1; len], Refusal::PastEnd);
    }
    let mut empty = image.clone();
    let handle = Volume::new(&mut empty, K, CODE).create_file("/d/none", 5).unwrap();
    assert_patch_refused(&empty, &handle, b"x", Refusal::PastEnd);
}

/// 13 before 11, and 11 before 19.
#[test]
fn the_order_of_the_refusals() {
    let (image, _) = with_long();
    let good = opened(&image, "/d/long", 1600);
    let stale = Handle::from_parts(good.dir(), good.addr(), 1601, 1601, name_array(b"long"), 4);
    assert_patch_refused(&image, &good, b"", Refusal::EmptyWrite);
    assert_patch_refused(&image, &stale, b"", Refusal::EmptyWrite);
    assert_patch_refused(&image, &stale, b"x", Refusal::Stale);
    assert_patch_refused(&image, &good, b"x", Refusal::PastEnd);
    let mut damaged = image.clone();
    damaged[K as usize * BLOCK_SIZE + 17] ^= 1;
    assert_patch_refused(&damaged, &stale, b"", Refusal::Damaged);
    let mut kept = good.clone();
    assert_refused(&damaged, Refusal::ShortWork, |image| mfs::patch(image, K, CODE, &mut kept, b"", 9, &mut []));
    assert_refused(&image, Refusal::NotMfs, |image| mfs::patch(image, K + 1, CODE, &mut kept, b"x", 9, &mut []));
    assert_refused(&image[..512], Refusal::BadImage, |image| mfs::patch(image, K, CODE, &mut kept, b"x", 9, &mut []));
    assert_refused(&image[..512], Refusal::NotMfs, |image| mfs::patch(image, K, 2, &mut kept, b"x", 9, &mut []));
}

/// Whichever of its blocks are stored, the volume is well formed and the file as long as it was.
#[test]
fn a_patch_is_never_cut_into_damage() {
    let (old, bytes) = with_long();
    let mut new = old.clone();
    assert_eq!(patch(&mut new, &mut opened(&old, "/d/long", 100), &[0xEE; 1400]), Ok(1400));
    let of = |image: &[u8], block: usize| image[block * BLOCK_SIZE..(block + 1) * BLOCK_SIZE].to_vec();
    let changed: Vec<usize> = (0..ROOMY).filter(|&block| of(&old, block) != of(&new, block)).collect();
    assert_eq!(changed.len(), 4, "the entry's block and three of the file's");
    for set in 0..1u32 << changed.len() {
        let mut image = old.clone();
        for (_, &block) in changed.iter().enumerate().filter(|(place, _)| set >> place & 1 == 1) {
            put(&mut image, block * BLOCK_SIZE, &of(&new, block));
        }
        let volume = VolumeRef::new(&image, K, CODE);
        assert_eq!(volume.check(), Ok(()));
        let read = volume.read_file("/d/long").unwrap();
        assert_eq!((read.len(), &read[..100], &read[1500..]), (1600, &bytes[..100], &bytes[1500..]));
        assert!(read.iter().zip(&bytes).all(|(now, before)| now == before || *now == 0xEE));
        assert_eq!(volume.read_file("/d/f").unwrap(), b"abc");
    }
}

#[test]
fn by_a_volume_and_by_a_file() {
    let (mut image, bytes) = with_long();
    let mut same = image.clone();
    let mut volume = Volume::new(&mut image, K, CODE);
    let mut handle = volume.open("/d/long").unwrap();
    handle.seek(SeekFrom::Start(700)).unwrap();
    assert_eq!(volume.patch(&mut handle, b"new", 9), Ok(3));
    assert_eq!(volume.read_file("/d/long").unwrap(), [&bytes[..700], b"new", &bytes[703..]].concat());
    let mut again = opened(&same, "/d/long", 700);
    assert_eq!(patch(&mut same, &mut again, b"new"), Ok(3));
    assert!(image == same);
}

#[cfg(feature = "std")]
#[test]
fn a_file_keeps_its_tail() {
    use std::io::{Read, Seek};
    let (mut image, bytes) = with_long();
    let mut volume = Volume::new(&mut image, K, CODE);
    let mut file = volume.file_mut("/d/long", 9).unwrap();
    file.seek(std::io::SeekFrom::Start(10)).unwrap();
    assert_eq!(file.patch(b"abc"), Ok(3));
    let mut rest = Vec::new();
    file.read_to_end(&mut rest).unwrap();
    assert_eq!(rest, bytes[13..]);
    assert_eq!(file.patch(b"x"), Err(Refusal::PastEnd));
}
