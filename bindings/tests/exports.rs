//! The exports as a C program calls them: out parameters are written where the answer is 0, and stay where it is not; empty slices by
//! pointers to nothing.
mod common;

use common::*;
use mfs::{raw, BLOCK_SIZE, NAME_LEN};
use std::ptr::NonNull;

/// All out parameters that any export has, filled with bytes that no answer has.
#[derive(Clone, Debug, PartialEq)]
struct Outs {
    number: [u32; 4],
    name: [u8; NAME_LEN],
    len: usize,
    kind: u8,
    size: u32,
    time: u64,
    bytes: usize,
    next: u32,
    totals: [u64; 3],
    enough: u32,
    read: u32,
}

fn untouched() -> Outs {
    Outs {
        number: [0xDEAD_BEEF; 4],
        name: [0xEE; NAME_LEN],
        len: 0xDEAD,
        kind: 0xEE,
        size: 0xDEAD_BEEF,
        time: 0xDEAD_BEEF_DEAD_BEEF,
        bytes: 0xDEAD,
        next: 0xDEAD_BEEF,
        totals: [0xDEAD_BEEF_DEAD_BEEF; 3],
        enough: 0xDEAD_BEEF,
        read: 0xDEAD_BEEF,
    }
}

// Each of these calls one export on a slice for each buffer. All but the image, the path and the out parameters is fixed.

fn usage(image: &[u8], outs: &mut Outs) -> u32 {
    let [size, used, free] = &mut outs.totals;
    unsafe { raw::mfs_c_usage(image.as_ptr(), image.len(), K, CODE, size, used, free) }
}

fn room(image: &[u8], count: u32, outs: &mut Outs) -> u32 {
    unsafe { raw::mfs_c_room(image.as_ptr(), image.len(), K, CODE, count, &mut outs.enough, &mut outs.read) }
}

fn open(image: &[u8], path: &[u8], outs: &mut Outs) -> u32 {
    unsafe {
        raw::mfs_c_open(
            image.as_ptr(),
            image.len(),
            K,
            CODE,
            b"/".as_ptr(),
            1,
            path.as_ptr(),
            path.len(),
            &mut outs.number,
            &mut outs.name,
            &mut outs.len,
        )
    }
}

fn info(image: &[u8], path: &[u8], outs: &mut Outs) -> u32 {
    unsafe {
        raw::mfs_c_info(
            image.as_ptr(),
            image.len(),
            K,
            CODE,
            b"/".as_ptr(),
            1,
            path.as_ptr(),
            path.len(),
            &mut outs.kind,
            &mut outs.size,
            &mut outs.time,
            &mut outs.name,
            &mut outs.len,
        )
    }
}

fn list(image: &[u8], path: &[u8], buf: &mut [u8], outs: &mut Outs) -> u32 {
    unsafe {
        raw::mfs_c_list(
            image.as_ptr(),
            image.len(),
            K,
            CODE,
            b"/".as_ptr(),
            1,
            path.as_ptr(),
            path.len(),
            0,
            buf.as_mut_ptr(),
            buf.len(),
            &mut outs.bytes,
            &mut outs.next,
        )
    }
}

fn read(image: &[u8], name: &[u8; NAME_LEN], len: usize, buf: &mut [u8], outs: &mut Outs) -> u32 {
    unsafe {
        raw::mfs_c_read(
            image.as_ptr(),
            image.len(),
            K,
            CODE,
            &mut outs.number,
            name,
            len,
            buf.as_mut_ptr(),
            buf.len(),
            &mut outs.bytes,
        )
    }
}

fn create_file(image: &mut [u8], path: &[u8], outs: &mut Outs) -> u32 {
    let mut work = work_for(image);
    unsafe {
        raw::mfs_c_create_file(
            image.as_mut_ptr(),
            image.len(),
            K,
            CODE,
            b"/".as_ptr(),
            1,
            path.as_ptr(),
            path.len(),
            9,
            work.as_mut_ptr(),
            work.len(),
            &mut outs.number,
            &mut outs.name,
            &mut outs.len,
        )
    }
}

fn write(image: &mut [u8], name: &[u8; NAME_LEN], len: usize, buf: &[u8], outs: &mut Outs) -> u32 {
    let mut work = work_for(image);
    unsafe {
        raw::mfs_c_write(
            image.as_mut_ptr(),
            image.len(),
            K,
            CODE,
            &mut outs.number,
            name,
            len,
            buf.as_ptr(),
            buf.len(),
            9,
            work.as_mut_ptr(),
            work.len(),
            &mut outs.bytes,
        )
    }
}

/// The seeks to 0, by 0 and to the end, each on a copy of the numbers; they must agree on whether the handle is stale.
fn seeks(name: &[u8; NAME_LEN], len: usize, number: [u32; 4]) -> [(u32, [u32; 4]); 3] {
    let (mut start, mut current, mut end) = (number, number, number);
    let answers = unsafe {
        [
            raw::mfs_c_seek_start(&mut start, name, len, 0),
            raw::mfs_c_seek_current(&mut current, name, len, 0),
            raw::mfs_c_seek_end(&mut end, name, len, 0),
        ]
    };
    [(answers[0], start), (answers[1], current), (answers[2], end)]
}

#[test]
fn out_parameters_stay_on_a_refusal() {
    let image = listed();
    let mut outs = untouched();
    let mut buf = [7; 600];
    assert_eq!(usage(&image[..512], &mut outs), 1);
    assert_eq!(room(&image[..512], 0, &mut outs), 1);
    assert_eq!(open(&image, b"/none", &mut outs), 5);
    assert_eq!(open(&image, b"/old", &mut outs), 6);
    assert_eq!(info(&image, b"/none", &mut outs), 5);
    assert_eq!(info(&image, b"/\x7f", &mut outs), 4);
    assert_eq!(list(&image, b"/m1", &mut buf, &mut outs), 6);
    assert_eq!(create_file(&mut image.clone(), b"/new", &mut outs), 9);
    assert_eq!(create_file(&mut image.clone(), b"/m1", &mut outs), 7);
    // The numbers are a handle whose position is not above its size, but whose size is above the limit.
    assert_eq!(read(&image, &name_array(b"m1"), 2, &mut buf, &mut outs), 11);
    assert_eq!(write(&mut image.clone(), &name_array(b"m1"), 2, b"abc", &mut outs), 11);
    assert_eq!(write(&mut image.clone(), &name_array(b"m1"), 2, b"", &mut outs), 13);
    assert_eq!(seeks(&name_array(b"m1"), 2, outs.number), [(11, outs.number); 3]);
    assert_eq!(outs, untouched());
    assert_eq!(buf, [7; 600]);
}

#[test]
fn out_parameters_are_the_answer() {
    let mut image = listed();
    let m1 = name_array(b"m1");
    let mut expected = untouched();
    let mut outs = untouched();

    assert_eq!(usage(&image, &mut outs), 0);
    expected.totals = [128 * 512, 14 * 512, 114 * 512];
    assert_eq!(outs, expected);

    for (count, enough) in [(0, 1), (1, 0)] {
        assert_eq!(room(&image, count, &mut outs), 0);
        (expected.enough, expected.read) = (enough, 0);
        assert_eq!(outs, expected);
    }

    assert_eq!(info(&image, b"/old", &mut outs), 0);
    (expected.kind, expected.size, expected.time) = (0, 0, 1_700_000_060);
    (expected.name, expected.len) = (name_array(b"old"), 3);
    assert_eq!(outs, expected);

    assert_eq!(open(&image, b"/m1", &mut outs), 0);
    (expected.number, expected.name, expected.len) = ([11, 12, 3, 0], m1, 2);
    assert_eq!(outs, expected);

    let mut buf = [7; 600];
    assert_eq!(list(&image, b"/", &mut buf, &mut outs), 0);
    (expected.bytes, expected.next) = (16 + 17, 2);
    assert_eq!(outs, expected);

    assert_eq!(write(&mut image, &m1, 2, b"abcde", &mut outs), 0);
    (expected.number, expected.bytes) = ([11, 12, 5, 5], 5);
    assert_eq!(outs, expected);

    outs.number[3] = 1;
    let mut text = [7; 5];
    assert_eq!(read(&image, &m1, 2, &mut text[..3], &mut outs), 0);
    (expected.number, expected.bytes) = ([11, 12, 5, 4], 3);
    assert_eq!(outs, expected);
    assert_eq!(&text, b"bcd\x07\x07");

    let at = |position| [11, 12, 5, position];
    assert_eq!(seeks(&m1, 2, at(4)), [(0, at(0)), (0, at(4)), (0, at(5))]);

    let mut roomy = formatted(ROOMY);
    assert_eq!(create_file(&mut roomy, b"/m1", &mut outs), 0);
    expected.number = [ROOMY_AREA, ROOMY_AREA + 1, 0, 0];
    assert_eq!(outs, expected);
}

/// An empty slice in Rust points at no byte. An export that looked there would be stopped by the processor.
#[test]
fn nothing_is_read_or_written_through_empty_slices() {
    let nowhere = NonNull::<u8>::dangling().as_ptr();
    let mut none: [u8; 0] = [];
    assert_eq!(unsafe { raw::mfs_c_format(nowhere, 0, K, CODE) }, 1);
    assert_eq!(mfs::usage(&none, K, CODE).unwrap_err().number(), 1);

    let image = listed();
    assert_eq!(unsafe { raw::mfs_c_check(image.as_ptr(), image.len(), K, CODE, nowhere, 0) }, 16);
    let mut m1 = mfs::open(&image, K, CODE, &none, b"/m1").unwrap();
    assert_eq!(mfs::open(&image, K, CODE, &none, &none).unwrap_err().number(), 4);
    assert_eq!(mfs::info(&image, K, CODE, b"/", &none).unwrap_err().number(), 5);
    assert_eq!(mfs::read(&image, K, CODE, &mut m1, &mut none), Ok(0));
    assert_eq!(mfs::list(&image, K, CODE, &[], b"/", 0, &mut none), Ok(mfs::Listed { bytes: 0, next: 0 }));
    let mut changed = image.clone();
    let written = mfs::write(&mut changed, K, CODE, &mut m1, &[], 9, &mut work_for(&image));
    assert_eq!(written.unwrap_err().number(), 13);
    assert_eq!(changed, image);
}

/// What a call only reads may be one buffer: safe Rust lends it twice.
#[test]
fn buffers_that_are_only_read_may_be_the_same() {
    let mut image = vec![0; 128 * BLOCK_SIZE];
    mfs::format(&mut image, K, CODE).unwrap();
    put(&mut image, 0, b"/a");
    assert_eq!(mfs::info(&image, K, CODE, &image[..1], &image[..1]).unwrap().size, 0);
    assert_eq!(mfs::open(&image, K, CODE, &image[..2], &image[1..2]).unwrap_err().number(), 5);
}

#[test]
fn a_made_up_handle_shows_no_more_than_its_array() {
    let name = [b'n'; NAME_LEN];
    for (len, shown) in [(0, 0), (1, 1), (255, 255), (256, 255), (usize::MAX, 255)] {
        let handle = mfs::Handle::from_parts(1, 2, 3, 4, name, len);
        assert_eq!(handle.name(), &name[..shown]);
        assert_eq!((handle.dir(), handle.addr(), handle.size(), handle.position()), (1, 2, 3, 4));
    }
}
