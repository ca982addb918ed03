//! Cards of size code 1: blocks of 1,024 bytes, 1,020 of them data, 8,192 bits to a bitmap block. The call says the code beside
//! K, and K counts blocks of that size. With K = 8, a is 10.
mod common;

use common::life::Life;
use common::*;
use model::{Answer, Geometry, Handle, Known, Mount, Refusal, Room, Usage, NAME_LEN};
use volumes::{blank, fill_of, random_of, Form, Rng, Size, Tree, Volume, Wish, ROOT};

const LARGE: Mount = Mount { k: K, code: 1, known: Known::ALL };
const SMALL: Mount = Mount { k: K, code: 0, known: Known::ALL };
const SUPERBLOCK: usize = 8 * 1024;

fn geometry_of(n: usize) -> Answer<Geometry> {
    Geometry { k: 8, version: 2, code: 1, n }.in_image(n)
}

fn formatted(blocks: usize) -> Answer<Vec<u8>> {
    let mut image = vec![0xee; blocks * 1024];
    model::format(&mut image, LARGE)?;
    Ok(image)
}

#[test]
fn the_numbers_of_a_card() {
    let of = |n: u32| parts(&blank(Form::Large, K, n, n), LARGE);
    assert_eq!(of(11), Err(Refusal::BadCount));
    assert_eq!(of(12), Ok([11, 1, 8192, 0, 1]));
    assert_eq!(of(8191), Ok([11, 8180, 8192, 0, 1023]));
    assert_eq!(of(8192), Ok([11, 8181, 8192, 8181, 1023]));
    assert_eq!(of(8203), Ok([11, 8192, 8192, 8192, 1024]));
    assert_eq!(of(8204), Err(Refusal::BadCount));
    assert_eq!(of(8205), Ok([12, 8193, 16_384, 8192, 1025]));
    assert_eq!(of(16_384), Ok([12, 16_372, 16_384, 16_372, 2047]));
    assert_eq!(of(16_397), Err(Refusal::BadCount));
    assert_eq!(of(16_400), Ok([13, 16_387, 24_576, 16_384, 2049]));
    assert_eq!(parts(&blank(Form::Large, K, 4108, 4108), LARGE), Ok([11, 4097, 8192, 0, 513]), "no rule on 4097");
    assert_eq!(parts(&blank(Form::Large, K, 13, 12), LARGE), Err(Refusal::BadCount), "n above the image");
}

#[test]
fn format_takes_the_code_and_writes_version_2() {
    assert_eq!(formatted(11), Err(Refusal::BadCount));
    assert_eq!(formatted(8204), Err(Refusal::BadCount));
    for (blocks, d, superblock) in [
        (12, 11, b"MOROS FS\x02\x01\x00\x00\x00\x0c\x00\x00\x00\x0c"),
        (8203, 11, b"MOROS FS\x02\x01\x00\x00\x20\x0b\x00\x00\x00\x0c"),
        (8205, 12, b"MOROS FS\x02\x01\x00\x00\x20\x0d\x00\x00\x00\x0d"),
    ] {
        let mut expected = vec![0xee; blocks * 1024];
        expected[SUPERBLOCK..SUPERBLOCK + 1024].fill(0);
        expected[SUPERBLOCK..SUPERBLOCK + 18].copy_from_slice(superblock);
        expected[10 * 1024..(d + 1) * 1024].fill(0);
        expected[10 * 1024] = 1;
        let image = formatted(blocks).unwrap();
        assert!(image == expected, "{blocks} blocks");
        assert_eq!(checked(&image, LARGE), Ok(()));
        let bytes = |blocks: usize| blocks as u64 * 1024;
        let usage = Usage { size: bytes(blocks), used: bytes(d + 1), free: bytes(blocks - d - 1) };
        assert_eq!(model::usage(&image, LARGE), Ok(usage));
    }
}

#[test]
fn the_bit_of_an_address() {
    let geo = geometry_of(9000).unwrap();
    assert_eq!(geo.bit(13), (10 * 1024 + 1, 0x20));
    assert_eq!(geo.bit(4096), (10 * 1024 + 512, 1));
    assert_eq!(geo.bit(8191), (10 * 1024 + 1023, 0x80));
    assert_eq!(geo.bit(8192), (11 * 1024, 1));
}

#[test]
fn the_blocks_of_a_file() {
    let geo = geometry_of(9000).unwrap();
    assert_eq!([0, 508, 1020, 1021, 2040, 2041].map(|size| geo.file_blocks(size)), [1, 1, 1, 2, 2, 3]);
    for (size, other) in [(0, 1021), (1, 1021), (1020, 1021), (1021, 1020), (2040, 2041), (2041, 2040)] {
        let mut tree = Tree::new();
        tree.file(ROOT, b"m1", 1, size);
        let mut volume = laid(tree, Form::Large, 40);
        assert_eq!(checked(&volume.image, LARGE), Ok(()), "{size} bytes");
        let at = 11 * 1024 + 4 + 5;
        volume.image[at..at + 4].copy_from_slice(&u32::to_be_bytes(other));
        assert_eq!(checked(&volume.image, LARGE), Err(Refusal::Damaged), "{size} bytes, said to be {other}");
    }
}

/// A name in a root that has the names of these lengths: how full its blocks then are.
fn fills_with(names: &[usize], new: usize) -> Vec<usize> {
    let mut image = formatted(8203).unwrap();
    for (number, &len) in names.iter().chain([&new]).enumerate() {
        let path = vec![b'a' + number as u8; len];
        model::create_file(&mut image, LARGE, b"/", &path, TIME, &mut work()).unwrap();
        assert_eq!(model::info(&image, LARGE, b"/", &path).map(|found| found.len), Ok(len));
    }
    assert_eq!(checked(&image, LARGE), Ok(()));
    let geometry = volumes::Geometry::of_form(Form::Large, K, 8203).unwrap();
    fill_of(&image, geometry, 11)
}

/// An entry ends at 1,019 at the latest, so it begins at 1,000 at the latest.
#[test]
fn where_an_entry_goes() {
    assert_eq!(fills_with(&[255, 255, 255], 181), [1018]);
    assert_eq!(fills_with(&[255, 255, 255], 182), [1019]);
    assert_eq!(fills_with(&[255, 255, 255], 183), [819, 201]);
    assert_eq!(fills_with(&[255, 255, 255, 163], 1), [1019]);
    assert_eq!(fills_with(&[255, 255, 255, 164], 1), [1001, 19]);
    assert_eq!(fills_with(&[236, 235], 236), [507 + 254], "507 is no end here");
}

/// The bytes of entries up to just the last place, and to one byte more, which is no entry.
#[test]
fn where_entries_stop() {
    for (last, entries) in [(182, 4), (183, 3)] {
        let mut image = formatted(40).unwrap();
        let mut at = 11 * 1024 + 4;
        for (number, len) in [255, 255, 255, last].into_iter().enumerate() {
            image[at..at + 18].copy_from_slice(b"\x02\x00\x00\x00\x0c\x00\x00\x00\x00\x00\x00\x00\x00\x00\x00\x00\x00\x00");
            image[at + 17] = len as u8;
            image[at + 18..at + 18 + len].fill(b'a' + number as u8);
            at += 18 + len;
        }
        let mut buf = [0; 2000];
        assert_eq!(model::list(&image, LARGE, b"/", b"/", 0, &mut buf).map(|listed| listed.next), Ok(entries));
        let sum = model::info(&image, LARGE, b"/", b"/").map(|root| root.size);
        assert_eq!(sum, Ok(if entries == 4 { 1019 } else { 819 }));
    }
}

#[test]
fn a_file_is_written_read_and_cut_at_the_edge_of_a_block() {
    for len in [1, 1019, 1020, 1021, 2040, 2041] {
        let mut image = formatted(8203).unwrap();
        let mut file = model::create_file(&mut image, LARGE, b"/", b"/m1", TIME, &mut work()).unwrap();
        let text: Vec<u8> = (0..len).map(|i| (i % 251) as u8).collect();
        assert_eq!(model::write(&mut image, LARGE, &mut file, &text, TIME, &mut work()), Ok(len));
        assert_eq!(contents(&image, LARGE, b"/m1"), Ok(text.clone()));
        let used = |image: &[u8]| model::usage(image, LARGE).unwrap().used / 1024;
        assert_eq!(used(&image), 12 + len.div_ceil(1020) as u64);
        assert_eq!(image[12 * 1024 + 4..][..len.min(1020)], text[..len.min(1020)]);
        let mut again = opened(&image, LARGE, b"/m1", len as u32 - 1);
        assert_eq!(model::write(&mut image, LARGE, &mut again, b"end", TIME, &mut work()), Ok(3));
        assert_eq!(contents(&image, LARGE, b"/m1"), Ok([&text[..len - 1], b"end"].concat()));
        let mut again = opened(&image, LARGE, b"/m1", 0);
        assert_eq!(model::write(&mut image, LARGE, &mut again, b"x", TIME, &mut work()), Ok(1));
        assert_eq!((used(&image), checked(&image, LARGE)), (13, Ok(())));
        assert_eq!(model::delete(&mut image, LARGE, b"/", b"/m1", TIME, &mut work()), Ok(()));
        assert_eq!((used(&image), checked(&image, LARGE)), (12, Ok(())));
    }
}

/// Refusal 2 before all others for a call's code above 1, then 1 by the call's code, then 2 by the card's, then 3.
#[test]
fn the_order_of_the_refusals() {
    let none = Mount { code: 2, ..LARGE };
    for code in [2, 3, 256, u32::MAX] {
        assert_eq!(parts(&[], Mount { code, ..LARGE }), Err(Refusal::NotMfs), "{code}");
    }
    assert_eq!(model::format(&mut [], none), Err(Refusal::NotMfs));
    assert_eq!(model::format(&mut [], LARGE), Err(Refusal::BadImage));
    let card = blank(Form::Large, K, 11, 40);
    assert_eq!(parts(&card, LARGE), Err(Refusal::BadCount));
    assert_eq!(parts(&card, SMALL), Err(Refusal::NotMfs), "its superblock stands elsewhere");
    assert_eq!(parts(&card[..40 * 1024 - 512], LARGE), Err(Refusal::BadImage), "no whole blocks of 1,024 bytes");
    assert_eq!(parts(&card[..40 * 1024 - 512], SMALL), Err(Refusal::NotMfs), "but of 512");
    assert_eq!(parts(&card[..10 * 1024], LARGE), Err(Refusal::BadImage), "K+2 is not inside");
    assert_eq!(parts(&card[..11 * 1024], LARGE), Err(Refusal::BadCount));
}

/// With K = 0 the superblock is found by either code, and must say the call's.
#[test]
fn the_code_of_the_card_and_its_version() {
    let at = |code| Mount { k: 0, code, known: Known::ALL };
    for (form, other) in [(Form::Large, 0), (Form::V2, 1)] {
        let mut image = blank(form, 0, 8, 64);
        assert!(parts(&image, at(1 - other)).is_ok());
        assert_eq!(parts(&image, at(other)), Err(Refusal::NotMfs));
        for code in [2, 3, 255] {
            image[9] = code;
            assert_eq!(parts(&image, at(0)), Err(Refusal::NotMfs));
            assert_eq!(parts(&image, at(1)), Err(Refusal::NotMfs));
        }
    }
    let mut image = blank(Form::Large, 0, 9000, 9000);
    image[8] = 1;
    assert_eq!(parts(&image, at(1)), Err(Refusal::NotMfs), "only version 2 has the code");
    image[9] = 0;
    assert_eq!(parts(&image, at(0)), Ok([4, 8996, 8192, 8192, 1125]));
}

#[test]
fn what_is_not_known_is_refused() {
    let image = formatted(12).unwrap();
    let today = Mount { known: Known { code_1: false, ..Known::ALL }, ..LARGE };
    assert_eq!(parts(&image, today), Err(Refusal::NotMfs));
    assert_eq!(parts(&[], today), Err(Refusal::NotMfs));
    assert_eq!(parts(&image, LARGE), Ok([11, 1, 8192, 0, 1]));
}

/// The longest images: 4,194,304 blocks with code 1, 8,388,608 with code 0, both 4 GiB. Hardly a byte of them is touched.
#[test]
fn the_longest_image() {
    const LONGEST: usize = 4 << 30;
    let mut image = vec![0; LONGEST + 1024];
    assert_eq!(parts(&image, LARGE), Err(Refusal::BadImage));
    assert_eq!(parts(&image[..LONGEST + 512], SMALL), Err(Refusal::BadImage));
    assert_eq!(parts(&image[..LONGEST], LARGE), Err(Refusal::NotMfs));
    assert_eq!(parts(&image[..LONGEST], SMALL), Err(Refusal::NotMfs));
    assert_eq!(model::format(&mut image[..LONGEST], LARGE), Ok(()));
    assert_eq!(parts(&image[..LONGEST], LARGE), Ok([522, 4_193_782, 4_194_304, 4_193_782, 524_223]));
}

/// Each clause that speaks of a block's last byte, of a bitmap's, or of a place in a block.
#[test]
fn the_ends_of_blocks_are_looked_at() {
    let mut tree = Tree::new();
    tree.file(ROOT, b"m1", 1, 1021);
    let image = laid(tree, Form::Large, 40).image;
    let with = |place: usize, byte: u8| {
        let mut edited = image.clone();
        edited[place] = byte;
        checked(&edited, LARGE)
    };
    assert_eq!(with(0, 1), Ok(()));
    for place in [SUPERBLOCK + 18, SUPERBLOCK + 512, SUPERBLOCK + 1023] {
        assert_eq!(with(place, 1), Err(Refusal::Damaged), "W1: the superblock's rest, {place}");
    }
    for place in [11 * 1024 + 4 + 20, 11 * 1024 + 512, 11 * 1024 + 1023] {
        assert_eq!(with(place, 3), Err(Refusal::Damaged), "W3: behind the last entry, {place}");
    }
    for place in [10 * 1024 + 4, 10 * 1024 + 512, 10 * 1024 + 1023] {
        assert_eq!(with(place, 0x80), Err(Refusal::Damaged), "W5: a bit past the data, {place}");
    }
    assert_eq!(with(9 * 1024 + 1023, 1), Ok(()), "block K+1");
    assert_eq!(with(13 * 1024 + 1023, 1), Ok(()), "behind a file's end");
    assert_eq!(with(12 * 1024 + 3, 40), Err(Refusal::Damaged), "W2: out of the data area");
}

#[test]
fn room_reads_the_bytes_of_both_bitmap_blocks() {
    let mut image = formatted(16_400).unwrap();
    image[10 * 1024..11 * 1024].fill(0xff);
    assert_eq!(model::room(&image, LARGE, 1), Ok(Room { enough: true, bytes: 1025 }));
    assert_eq!(model::room(&image, LARGE, 8192), Ok(Room { enough: true, bytes: 2048 }));
    assert_eq!(model::room(&image, LARGE, 8193), Ok(Room { enough: false, bytes: 2048 }));
    let short = formatted(8191).unwrap();
    assert_eq!(model::room(&short, LARGE, 1), Ok(Room { enough: false, bytes: 0 }));
}

#[test]
fn a_read_needs_the_blocks_of_its_bytes() {
    let mut tree = Tree::new();
    tree.file(ROOT, b"m1", 1, 1021);
    let mut image = laid(tree, Form::Large, 40).image;
    image[12 * 1024..12 * 1024 + 4].fill(0);
    let file = opened(&image, LARGE, b"/m1", 0);
    let read = |len: usize| model::read(&image, LARGE, &mut file.clone(), &mut vec![0; len]);
    assert_eq!(read(1020), Ok(1020));
    assert_eq!(read(1021), Err(Refusal::Damaged));
    assert_eq!(checked(&image, LARGE), Err(Refusal::Damaged));
    let stale = Handle { size: 1020, ..file.clone() };
    assert_eq!(model::read(&image, LARGE, &mut stale.clone(), &mut [0; 9]), Err(Refusal::Stale));
    let nameless = Handle { name: [0; NAME_LEN], len: 0, ..file };
    assert_eq!(model::read(&image, LARGE, &mut nameless.clone(), &mut [0; 9]), Err(Refusal::Stale));
}

#[test]
fn a_walk_ends_with_the_data_area() {
    let mut tree = Tree::new();
    tree.file(ROOT, b"m1", 1, 1);
    circle_ends_after(laid(tree, Form::Large, 40), LARGE, 29);
}

/// Sequences of calls, on cards with room and on cards with little of it.
#[test]
fn sequences_leave_what_they_should() {
    let (mut accepted, mut no_room) = (0, 0);
    for seed in 0..10 {
        let mut rng = Rng::new(seed);
        let size = *rng.pick(&[Size::Small, Size::Usual, Size::Usual, Size::Usual, Size::Large]);
        let free = rng.one_in(2).then(|| rng.below(8) as u32);
        let volume = random_of(Form::Large, Wish { k: K, size, entries: 20, depth: 3, free }, &mut rng);
        assert_eq!(checked(&volume.image, LARGE), Ok(()), "seed {seed}");
        let mut life = Life::new(volume, LARGE, seed);
        (0..60).for_each(|_| life.step());
        (accepted, no_room) = (accepted + life.accepted, no_room + life.no_room);
    }
    let empty = formatted(8205).unwrap();
    let geometry = volumes::Geometry::of_form(Form::Large, K, 8205).unwrap();
    let mut life = Life::new(Volume { image: empty, geometry, entries: Vec::new() }, LARGE, 99);
    (0..80).for_each(|_| life.step());
    assert!(accepted > 300 && no_room > 10, "{accepted} accepted, {no_room} without room");
}
