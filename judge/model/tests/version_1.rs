//! Cards of version 1. Their data area begins at a + floor(N/4097), so the last data blocks may have no bit; N is 4097 or more,
//! and any remainder will do. With K = 8, a is 10.
mod common;

use common::life::Life;
use common::*;
use model::{Answer, Kind, Known, Listed, Mount, Refusal, Room, Usage};
use volumes::{blank, random_of, Form, Rng, Size, Tree, Volume, Wish, ROOT};

const OLD: Mount = Mount { k: K, code: 0, known: Known::ALL };
/// For a model that does not know version 1.
const UNKNOWN: Mount = Mount { known: Known { version_1: false, ..Known::ALL }, ..OLD };
const SUPERBLOCK: usize = 8 * 512;

/// The places of a card with N blocks from the bitmap on.
fn parts_of(form: Form, blocks: u32) -> Answer<[usize; 5]> {
    parts(&blank(form, K, 10 + blocks, 10 + blocks), OLD)
}

#[test]
fn the_numbers_of_a_card() {
    assert_eq!(parts_of(Form::V1, 4097), Ok([11, 4096, 4096, 4096, 512]));
    assert_eq!(parts_of(Form::V1, 4098), Ok([11, 4097, 4096, 4096, 513]));
    assert_eq!(parts_of(Form::V1, 8193), Ok([11, 8192, 4096, 4096, 1024]));
    assert_eq!(parts_of(Form::V1, 8194), Ok([12, 8192, 8192, 8192, 1024]));
    assert_eq!(parts_of(Form::V1, 8195), Ok([12, 8193, 8192, 8192, 1025]));
    assert_eq!(parts_of(Form::V1, 12_290), Ok([12, 12_288, 8192, 8192, 1536]));
}

#[test]
fn which_blocks_have_a_bit() {
    for (blocks, bits) in [(4097, 4096), (4098, 4096), (8193, 4096), (8194, 8192), (8195, 8192)] {
        let geo = model::geometry(&blank(Form::V1, K, 10 + blocks, 10 + blocks), OLD).unwrap();
        assert!(geo.has_bit(0) && geo.has_bit(bits - 1) && !geo.has_bit(bits), "N = {blocks}");
    }
}

#[test]
fn the_same_counts_in_version_2() {
    assert_eq!(parts_of(Form::V2, 4097), Ok([11, 4096, 4096, 4096, 512]));
    assert_eq!(parts_of(Form::V2, 4098), Err(Refusal::BadCount));
    assert_eq!(parts_of(Form::V2, 8193), Ok([12, 8191, 8192, 8191, 1024]));
    assert_eq!(parts_of(Form::V2, 8194), Ok([12, 8192, 8192, 8192, 1024]));
    assert_eq!(parts_of(Form::V2, 8195), Err(Refusal::BadCount));
}

/// In version 2 every data block has a bit, so that the bits don't bound the reach there; in version 1 nothing else does.
#[test]
fn what_bounds_the_reach() {
    for n in 12..30_000 {
        let of = |version| model::Geometry { k: 8, version, code: 0, n }.in_image(n);
        if let Ok(geo) = of(2) {
            assert!(geo.reach() <= geo.bitmap_bits() && geo.data_blocks() <= geo.bitmap_bits(), "{n}");
            assert_eq!(geo.reach(), (n - geo.d()).min(4096 * (n / 4096)), "{n}");
        }
        match of(1) {
            Ok(geo) => assert_eq!((geo.d(), geo.reach()), (10 + (n - 10) / 4097, 4096 * ((n - 10) / 4097)), "{n}"),
            Err(refusal) => assert!(refusal == Refusal::BadCount && n < 10 + 4097, "{n}"),
        }
    }
}

#[test]
fn counts_that_are_refused() {
    for n in [0, 1, 9, 10, 11, 12, 4096, 4106] {
        assert_eq!(parts(&blank(Form::V1, K, n, 4200), OLD), Err(Refusal::BadCount), "{n}");
    }
    assert_eq!(parts(&blank(Form::V1, K, 4107, 4107), OLD), Ok([11, 4096, 4096, 4096, 512]));
    assert_eq!(parts(&blank(Form::V1, K, 4108, 4107), OLD), Err(Refusal::BadCount), "n above the image");
    assert_eq!(parts(&blank(Form::V1, K, u32::MAX, 4107), OLD), Err(Refusal::BadCount));
    assert_eq!(parts(&blank(Form::V1, K, 4107, 5000), OLD), Ok([11, 4096, 4096, 4096, 512]), "an image that is longer");
}

#[test]
fn versions_that_are_refused() {
    let mut image = blank(Form::V1, K, 4107, 4107);
    for version in [0, 3, 4, 129, 255] {
        image[SUPERBLOCK + 8] = version;
        assert_eq!(parts(&image, OLD), Err(Refusal::NotMfs), "{version}");
    }
    let short = blank(Form::V1, K, 11, 4107);
    assert_eq!(parts(&short, UNKNOWN), Err(Refusal::NotMfs), "the version before the count");
    assert_eq!(parts(&short[..1000], OLD), Err(Refusal::BadImage), "the image before the version");
}

/// Until the library takes version 1, the judges that run it expect 2.
#[test]
fn what_is_not_known_is_refused() {
    for version in [1, 2] {
        let mut image = blank(Form::V1, K, 4107, 4107);
        image[SUPERBLOCK + 8] = version;
        let expected = if version == 1 { Err(Refusal::NotMfs) } else { Ok([11, 4096, 4096, 4096, 512]) };
        assert_eq!(parts(&image, UNKNOWN), expected);
    }
}

/// A file of three blocks, a directory with a file in it, a device.
fn small_tree() -> Tree {
    let mut tree = Tree::new();
    tree.file(ROOT, b"m1", 1, 1200);
    let dir = tree.dir(ROOT, b"old", 2);
    tree.file(dir, b"m2", 3, 509);
    tree.device(ROOT, b"clock", 4, 7, 2);
    tree
}

fn card(blocks: u32) -> Volume {
    laid(small_tree(), Form::V1, 10 + blocks)
}

/// The number in the list of the entry at a path.
fn entry(volume: &Volume, path: &[u8]) -> usize {
    volume.entries.iter().position(|entry| entry.path == path).expect("the entry is there")
}

#[test]
fn cards_pass_the_check_and_blocks_without_a_bit_hold_anything() {
    for blocks in [4097, 4098, 8193, 8194, 8195] {
        let volume = card(blocks);
        assert_eq!(checked(&volume.image, OLD), Ok(()), "N = {blocks}");
        let [_, _, _, _, needed] = parts(&volume.image, OLD).unwrap();
        let mut buffer = vec![0xff; needed + 1];
        assert_eq!(model::check(&volume.image, OLD, &mut buffer[..needed - 1]), Err(Refusal::ShortWork));
        assert_eq!(buffer, vec![0xff; needed + 1]);
        assert_eq!(model::check(&volume.image, OLD, &mut buffer), Ok(()));
        assert_eq!(buffer, [vec![0; needed], vec![0xff]].concat());
    }
}

/// The last byte of the bitmap and the used count are looked at as in version 2.
#[test]
fn bits_and_count_decide() {
    for blocks in [4098, 8193] {
        let mut volume = card(blocks);
        volume.image[10 * 512 + 511] |= 0x80;
        assert_eq!(checked(&volume.image, OLD), Err(Refusal::Damaged), "a bit that no block has");
        volume.image[SUPERBLOCK + 17] += 1;
        assert_eq!(checked(&volume.image, OLD), Err(Refusal::Damaged), "nor where it is counted");
        volume.image[10 * 512 + 511] &= 0x7f;
        assert_eq!(checked(&volume.image, OLD), Err(Refusal::Damaged), "the used count");
        volume.image[SUPERBLOCK + 17] -= 1;
        assert_eq!(checked(&volume.image, OLD), Ok(()));
    }
}

/// A chain that enters a block without a bit is damage for the check and every changing call; the others walk it as it stands.
#[test]
fn a_block_without_a_bit_may_not_be_reached() {
    for (blocks, to) in [(4098, 11 + 4096), (8193, 11 + 4096), (8193, 11 + 8191), (8195, 12 + 8192)] {
        for (path, place) in [(&b"/m1"[..], 0), (b"/m1", 1), (b"/m1", 2), (b"/old", 0), (b"/old/m2", 1), (b"/clock", 1)] {
            let mut volume = card(blocks);
            let before = volume.image.clone();
            let number = entry(&volume, path);
            volume.move_block(number, place, to);
            let image = volume.image;
            assert_eq!(checked(&image, OLD), Err(Refusal::Damaged), "N = {blocks}, {to}, {path:?}, {place}");
            let mut counted = image.clone();
            counted[SUPERBLOCK + 17] += 1;
            assert_eq!(checked(&counted, OLD), Err(Refusal::Damaged), "though the used count has it");
            no_change(&image, OLD, &opened(&image, OLD, b"/m1", 0), Refusal::Damaged);
            for file in [&b"/m1"[..], b"/old/m2"] {
                assert_eq!(contents(&image, OLD, file), contents(&before, OLD, file));
            }
            assert_eq!(listing(&image), listing(&before));
        }
    }
}

#[test]
fn a_walk_may_have_more_blocks_than_there_are_bits() {
    circle_ends_after(card(4098), OLD, 4097);
    circle_ends_after(card(8193), OLD, 8192);
}

/// Inside the bits the same move leaves a well-formed card.
#[test]
fn a_block_with_a_bit_may_be_reached() {
    for (blocks, to) in [(4098, 11 + 4095), (8193, 11 + 4095), (8194, 12 + 8191), (8195, 12 + 8191)] {
        let mut volume = card(blocks);
        let number = entry(&volume, b"/m1");
        volume.move_block(number, 1, to);
        assert_eq!(checked(&volume.image, OLD), Ok(()), "N = {blocks}, {to}");
    }
}

fn listing(image: &[u8]) -> Vec<u8> {
    let mut bytes = Vec::new();
    for (path, count) in [(&b"/"[..], 3), (b"/old", 1)] {
        let mut buf = [0xee; 100];
        let listed = model::list(image, OLD, b"/", path, 0, &mut buf);
        assert_eq!(listed.map(|Listed { next, .. }| next), Ok(count));
        bytes.extend(buf);
    }
    assert_eq!(model::info(image, OLD, b"/", b"/old").map(|info| info.kind), Ok(Kind::Dir));
    bytes
}

/// A card can be filled to the last bit and not beyond it, and what has no bit stays as it was.
#[test]
fn a_card_is_full_where_its_bits_end() {
    for blocks in [4098u32, 8193] {
        let mut image = laid(Tree::new(), Form::V1, 10 + blocks).image;
        let before = image.clone();
        assert_eq!(model::room(&image, OLD, 4095), Ok(Room { enough: true, bytes: 512 }));
        assert_eq!(model::room(&image, OLD, 4096), Ok(Room { enough: false, bytes: 512 }));
        let mut file = model::create_file(&mut image, OLD, b"/", b"/m1", TIME, &mut work()).unwrap();
        let all = vec![7; 4095 * 508];
        let more = [&all[..], &[7]].concat();
        assert_eq!(model::write(&mut image, OLD, &mut file, &more, TIME, &mut work()), Err(Refusal::NoRoom));
        assert_eq!(model::write(&mut image, OLD, &mut file, &all, TIME, &mut work()), Ok(4095 * 508));
        assert_eq!(model::create_dir(&mut image, OLD, b"/", b"/d", TIME, &mut work()), Err(Refusal::NoRoom));
        assert_eq!(checked(&image, OLD), Ok(()));
        let (size, used) = (512 * u64::from(10 + blocks), 512 * (11 + 4096));
        assert_eq!(model::usage(&image, OLD), Ok(Usage { size, used, free: size - used }));
        assert!(image[512 * (11 + 4096)..] == before[512 * (11 + 4096)..]);
    }
}

/// Sequences of calls: the card stays one of version 1, whatever is done on it but a format.
#[test]
fn cards_stay_what_they_are() {
    let (mut accepted, mut no_room) = (0, 0);
    for seed in 0..12 {
        let mut rng = Rng::new(seed);
        let size = *rng.pick(&[Size::Small, Size::Usual, Size::Usual, Size::Large]);
        let free = rng.one_in(2).then(|| rng.below(8) as u32);
        let volume = random_of(Form::V1, Wish { k: K, size, entries: 20, depth: 3, free }, &mut rng);
        let before = volume.image.clone();
        let mut life = Life::new(volume, OLD, seed);
        for _ in 0..60 {
            life.step();
            assert_eq!(life.image[..SUPERBLOCK + 14], before[..SUPERBLOCK + 14]);
            assert_eq!(life.image[SUPERBLOCK + 18..10 * 512], before[SUPERBLOCK + 18..10 * 512]);
        }
        (accepted, no_room) = (accepted + life.accepted, no_room + life.no_room);
    }
    assert!(accepted > 400 && no_room > 10, "{accepted} accepted, {no_room} without room");
}

#[test]
fn format_writes_version_2() {
    let mut image = card(8194).image;
    assert_eq!(model::format(&mut image, OLD), Ok(()));
    assert_eq!(image[SUPERBLOCK..SUPERBLOCK + 18], *b"MOROS FS\x02\x00\x00\x00\x20\x0c\x00\x00\x00\x0d");
    assert_eq!(checked(&image, OLD), Ok(()));
    let mut image = card(8193).image;
    assert_eq!(model::format(&mut image, OLD), Ok(()));
    assert_eq!(parts(&image, OLD), Ok([12, 8191, 8192, 8191, 1024]));
    let before = card(4098).image;
    let mut image = before.clone();
    assert_eq!(model::format(&mut image, OLD), Err(Refusal::BadCount), "remainder 1 in version 2");
    assert!(image == before);
}
