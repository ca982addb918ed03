//! The records of a listing: their bytes, where a listing stops, and how they are walked.
mod common;

use common::*;
use mfs::{records, Kind, Listed, Record, BLOCK_SIZE};

fn list_root(image: &[u8], from: u32, buf: &mut [u8]) -> Listed {
    mfs::list(image, K, CODE, b"/", b"/", from, buf).unwrap()
}

/// The bytes of the two records of the documents' volume.
fn two_records() -> Vec<u8> {
    let mut bytes = Vec::new();
    bytes.extend(b"\x01\x00\x00\x00\x03\x00\x00\x00\x00\x65\x53\xf1\x00\x02m1");
    bytes.extend(b"\x00\x00\x00\x00\x00\x00\x00\x00\x00\x65\x53\xf1\x3c\x03old");
    bytes
}

#[test]
fn a_record_is_kind_size_time_length_name() {
    let mut buf = [7; 64];
    assert_eq!(list_root(&listed(), 0, &mut buf), Listed { bytes: 33, next: 2 });
    assert_eq!(&buf[..33], two_records());
    assert_eq!(buf[33..], [7; 31]);
}

#[test]
fn records_are_fewer_bytes_than_the_buffer() {
    let image = listed();
    for (len, bytes, next) in [(0, 0, 0), (16, 0, 0), (17, 16, 1), (33, 16, 1), (34, 33, 2)] {
        assert_eq!(list_root(&image, 0, &mut vec![7; len]), Listed { bytes, next }, "a buffer of {len}");
    }
    assert_eq!(list_root(&image, 1, &mut [7; 64]), Listed { bytes: 17, next: 2 });
    assert_eq!(list_root(&image, 2, &mut [7; 64]), Listed { bytes: 0, next: 2 });
    assert_eq!(list_root(&image, u32::MAX, &mut [7; 64]), Listed { bytes: 0, next: u32::MAX });
}

#[test]
fn records_are_walked() {
    let bytes = two_records();
    let expected = [
        Record { kind: Kind::File, size: 3, time: 1_700_000_000, name: b"m1" },
        Record { kind: Kind::Dir, size: 0, time: 1_700_000_060, name: b"old" },
    ];
    assert_eq!(records(&bytes).collect::<Vec<_>>(), expected);
    assert_eq!(records(&[]).next(), None);
}

#[test]
fn every_field_has_all_its_bytes() {
    let mut image = listed();
    let name = [b'~'; 255];
    put(&mut image, LISTED_AREA * BLOCK_SIZE + 4, &entry(2, 12, 0x8182_8384, 0x9192_9394_9596_9798, &name));
    let mut buf = [7; 300];
    let listed = list_root(&image, 0, &mut buf);
    assert_eq!(listed, Listed { bytes: 269, next: 1 });
    let expected = Record { kind: Kind::Device, size: 0x8182_8384, time: 0x9192_9394_9596_9798, name: &name };
    assert_eq!(records(&buf[..listed.bytes]).collect::<Vec<_>>(), [expected]);
}

#[test]
fn the_walk_ends_at_bytes_that_are_no_record() {
    let bytes = two_records();
    for cut in 0..bytes.len() {
        let whole = usize::from(cut >= 16);
        assert_eq!(records(&bytes[..cut]).count(), whole, "{cut} bytes");
    }
    let walked_with = |at: usize, byte: u8| {
        let mut changed = two_records();
        changed[at] = byte;
        records(&changed).count()
    };
    assert_eq!(walked_with(16, 3), 1, "a kind above 2");
    assert_eq!(walked_with(16 + 13, 0), 1, "a name of no bytes");
    assert_eq!(walked_with(16 + 13, 4), 1, "a name that is cut off");
    assert_eq!(records(&[0; 64]).count(), 0);
}
