//! Volumes that are only read, lists and walks, whole files: what these do beyond the calls they make.
mod common;

use common::*;
use mfs::{Info, Kind, Refusal, Volume, VolumeRef, Walked, BLOCK_SIZE, DEPTH};

/// `/d/f` holds `abc`, `/d/e` is an empty directory, `/g` a file of no bytes.
fn some_tree() -> Vec<u8> {
    let mut image = with_file();
    let mut volume = Volume::new(&mut image, K, CODE);
    volume.create_dir("/d/e", 4).unwrap();
    volume.create_file("/g", 5).unwrap();
    image
}

#[test]
fn a_view_answers_what_the_functions_do() {
    let image = some_tree();
    let volume = VolumeRef::new(&image, K, CODE);
    let moved = volume.with_cwd("/d");
    assert_eq!((volume.cwd(), moved.cwd(), moved.k()), ("/", "/d", K));
    assert!(core::ptr::eq(moved.image(), &image[..]));
    assert_eq!(volume.check(), Ok(()));
    assert_eq!(volume.usage(), mfs::usage(&image, K, CODE));
    assert_eq!(volume.room(5), mfs::room(&image, K, CODE, 5));
    assert_eq!(moved.open("f"), mfs::open(&image, K, CODE, b"/", b"/d/f"));
    assert_eq!(moved.info(b"f"), mfs::info(&image, K, CODE, b"/", b"/d/f"));
    let mut buf = [7; 5];
    assert_eq!(moved.read(&mut moved.open("f").unwrap(), &mut buf), Ok(3));
    assert_eq!(&buf, b"abc\x07\x07");
    assert_eq!(format!("{moved:?}"), r#"VolumeRef { k: 8, code: 0, cwd: "/d", .. }"#);

    let mut same = image.clone();
    let mut by_volume = Volume::new(&mut same, K, CODE);
    by_volume.set_cwd("/d");
    assert_eq!(by_volume.k(), K);
    assert_eq!(by_volume.view().cwd(), "/d");
    assert_eq!(by_volume.open("f"), moved.open("f"));
    assert_eq!(by_volume.list("/d"), volume.list("/d"));
    assert_eq!(by_volume.read_file("f"), Ok(b"abc".to_vec()));
    assert_eq!(by_volume.exists("f"), Ok(true));
}

#[test]
fn a_view_is_refused_as_the_functions_are() {
    let image = some_tree();
    let volume = VolumeRef::new(&image, K, CODE);
    assert_eq!(volume.open("/none"), Err(Refusal::NotFound));
    assert_eq!(volume.list("/g"), Err(Refusal::WrongKind));
    assert_eq!(volume.entries("/none").err(), Some(Refusal::NotFound));
    assert_eq!(volume.walk("/d/f").err(), Some(Refusal::WrongKind));
    assert_eq!(VolumeRef::new(&image[..512], K, CODE).usage(), Err(Refusal::BadImage));
    assert_eq!(VolumeRef::new(&image, K + 1, CODE).check(), Err(Refusal::NotMfs));
}

#[test]
fn what_is_not_there_does_not_exist() {
    let image = some_tree();
    let volume = VolumeRef::new(&image, K, CODE);
    for (path, there) in
        [("/", true), ("/d", true), ("/d/f", true), ("/d/", true), ("/none", false), ("/d/f/x", false), ("/d//f", false)]
    {
        assert_eq!(volume.exists(path), Ok(there), "{path}");
    }
    assert_eq!(volume.exists("/\x7f"), Err(Refusal::BadPath));
    assert_eq!(VolumeRef::new(&image, K + 1, CODE).exists("/d"), Err(Refusal::NotMfs));
}

#[test]
fn entries_come_one_by_one() {
    let image = some_tree();
    let mut entries = VolumeRef::new(&image, K, CODE).entries("/d").unwrap();
    let info = |kind, size, time, name: &[u8]| Info { kind, size, time, name: name.to_vec() };
    assert_eq!(entries.next(), Some(Ok(info(Kind::File, 3, 3, b"f"))));
    assert_eq!(entries.next(), Some(Ok(info(Kind::Dir, 0, 4, b"e"))));
    assert_eq!(entries.next(), None);
    assert_eq!(entries.next(), None);
}

/// 1,000 records of 214 bytes are four pages. The chain is cut behind the entries of the second.
#[test]
fn damage_behind_the_first_page_is_an_item() {
    let mut image = formatted(ROOMY);
    let mut volume = Volume::new(&mut image, K, CODE);
    for number in 0..1000 {
        volume.create_file(format!("{number:0>200}"), 0).unwrap();
    }
    let whole = volume.list("/").unwrap();
    assert_eq!(whole.len(), 1000);
    // The root's chain: two entries of 218 bytes to a block.
    let mut block = ROOMY_AREA as usize;
    for _ in 0..300 {
        let next = &image[block * BLOCK_SIZE..block * BLOCK_SIZE + 4];
        block = u32::from_be_bytes(next.try_into().unwrap()) as usize;
    }
    put(&mut image, block * BLOCK_SIZE, &1u32.to_be_bytes());
    let cut = VolumeRef::new(&image, K, CODE);
    assert_eq!(cut.list("/"), Err(Refusal::Damaged));
    let mut items: Vec<_> = cut.entries("/").unwrap().collect();
    assert_eq!(items.pop(), Some(Err(Refusal::Damaged)));
    assert!(!items.is_empty() && items.len() < 602);
    assert!(items.iter().zip(&whole).all(|(item, info)| item.as_ref() == Ok(info)));
}

fn paths(walk: mfs::Walk<'_>) -> Result<Vec<(String, usize)>, Refusal> {
    walk.map(|walked| walked.map(|Walked { path, depth, .. }| (String::from_utf8(path).unwrap(), depth))).collect()
}

#[test]
fn a_walk_comes_to_all_that_is_below() {
    let mut image = some_tree();
    let mut volume = Volume::new(&mut image, K, CODE);
    volume.create_file("/d/e/deep", 6).unwrap();
    let pairs = |list: &[(&str, usize)]| Ok(list.iter().map(|&(path, depth)| (path.to_owned(), depth)).collect());
    assert_eq!(paths(volume.walk("/").unwrap()), pairs(&[("/d", 0), ("/d/f", 1), ("/d/e", 1), ("/d/e/deep", 2), ("/g", 0)]));
    assert_eq!(paths(volume.walk("/d").unwrap()), pairs(&[("/d/f", 0), ("/d/e", 0), ("/d/e/deep", 1)]));
    volume.set_cwd("/d");
    assert_eq!(paths(volume.walk("e").unwrap()), pairs(&[("e/deep", 0)]));
    for walked in volume.walk("/").unwrap().map(Result::unwrap) {
        assert_eq!(volume.info(&walked.path), Ok(walked.info));
    }
}

#[test]
fn a_walk_goes_as_deep_as_directories_do() {
    let mut image = formatted(ROOMY);
    let mut volume = Volume::new(&mut image, K, CODE);
    let mut path = String::new();
    for _ in 0..DEPTH {
        path.push_str("/a");
        volume.create_dir(&path, 1).unwrap();
    }
    path.push_str("/f");
    volume.create_file(&path, 1).unwrap();
    let walked = paths(volume.walk("/").unwrap()).unwrap();
    assert_eq!(walked.len(), DEPTH + 1);
    assert_eq!(walked.last(), Some(&(path, DEPTH)));
}

/// Each of five directories holds the next 20 times over: 3,200,000 paths, in 128 blocks.
#[test]
fn a_walk_over_shared_directories_ends() {
    let mut image = listed();
    for block in LISTED_AREA..LISTED_AREA + 5 {
        for number in 0..20 {
            let name = format!("{number:0>2}");
            put(&mut image, block * BLOCK_SIZE + 4 + 20 * number, &entry(0, block as u32 + 1, 0, 0, name.as_bytes()));
        }
    }
    let items: Vec<_> = VolumeRef::new(&image, K, CODE).walk("/").unwrap().collect();
    assert_eq!(items.last(), Some(&Err(Refusal::Damaged)));
    assert!((100..20 * 130).contains(&items.len()), "{} items", items.len());
}

/// Directories that hold themselves, once and many times: the walk ends all the same.
#[test]
fn a_walk_in_a_circle_ends() {
    let mut once = listed();
    let root = LISTED_AREA * BLOCK_SIZE + 4;
    put(&mut once, root + 20, &entry(0, LISTED_AREA as u32, 0, 0, b"old"));
    let mut many = listed();
    for number in 0..20 {
        put(&mut many, root + 20 * number, &entry(0, LISTED_AREA as u32, 0, 0, format!("{number:0>2}").as_bytes()));
    }
    for (image, at_most) in [(once, 2 * (DEPTH + 1)), (many, 20 * 128)] {
        let mut walk = VolumeRef::new(&image, K, CODE).walk("/").unwrap();
        let items: Vec<_> = walk.by_ref().collect();
        assert_eq!(items.last(), Some(&Err(Refusal::Damaged)));
        assert!(items.len() <= at_most + 1, "{} items", items.len());
        assert_eq!(walk.next(), None);
    }
}

#[test]
fn a_file_is_read_whole() {
    let mut image = formatted(ROOMY);
    let mut volume = Volume::new(&mut image, K, CODE);
    for len in [0, 1, 508, 509, 100_000] {
        let bytes: Vec<u8> = (0..len).map(|at| (at % 251) as u8).collect();
        volume.write_file(format!("/{len}"), &bytes, 1).unwrap();
        assert_eq!(volume.read_file(format!("/{len}")), Ok(bytes));
    }
    assert_eq!(volume.read_file("/none"), Err(Refusal::NotFound));
    assert_eq!(volume.read_file("/"), Err(Refusal::NotFound));
    assert_eq!(volume.check(), Ok(()));
}

/// A size of 2 GiB in the entry of a small volume is damage, and not a demand for 2 GiB of memory.
#[test]
fn a_damaged_size_is_not_allocated() {
    for size in [600, 128 * 512, 128 * 512 + 1, mfs::FILE_LEN] {
        let mut image = listed();
        put(&mut image, M1_SIZE_AT, &size.to_be_bytes());
        assert_eq!(VolumeRef::new(&image, K, CODE).read_file("/m1"), Err(Refusal::Damaged), "{size}");
    }
}

#[test]
fn a_whole_file_is_written_over_what_is_there() {
    let mut image = with_file();
    let mut volume = Volume::new(&mut image, K, CODE);
    for bytes in [&b"longer than before"[..], b"x", &[7; 2000], b"end"] {
        assert_eq!(volume.write_file("/d/f", bytes, 9), Ok(()));
        assert_eq!(volume.read_file("/d/f").as_deref(), Ok(bytes));
        assert_eq!(volume.info("/d/f").unwrap().time, 9);
        assert_eq!(volume.check(), Ok(()));
    }
    assert_eq!(volume.write_file("/d/f", b"", 9), Err(Refusal::EmptyWrite));
    assert_eq!(volume.read_file("/d/f").as_deref(), Ok(&b"end"[..]));
    assert_eq!(volume.write_file("/d/new", b"", 9), Ok(()));
    assert_eq!(volume.write_file("/d/new", b"", 10), Ok(()));
    assert_eq!(volume.read_file("/d/new"), Ok(Vec::new()));
    assert_eq!(volume.write_file("/d", b"x", 9), Err(Refusal::WrongKind));
    assert_eq!(volume.write_file("/none/f", b"x", 9), Err(Refusal::NotFound));
    assert_eq!(volume.write_file("/", b"x", 9), Err(Refusal::BadName));
}

/// The room that a create leaves is too little for the bytes: the new file goes again, an old one stays as it was.
#[test]
fn a_whole_file_that_does_not_fit_leaves_none() {
    let mut image = with_file();
    let all = (4096 - 3) * 508; // the root and /d have one block each, and so has /d/f
    let mut volume = Volume::new(&mut image, K, CODE);
    let used = volume.usage();
    assert_eq!(volume.write_file("/d/g", &vec![1; all + 1], 9), Err(Refusal::NoRoom));
    assert_eq!(volume.exists("/d/g"), Ok(false));
    assert_eq!(volume.usage(), used);
    assert_eq!(volume.write_file("/d/f", &vec![1; all + 509], 9), Err(Refusal::NoRoom));
    assert_eq!(volume.read_file("/d/f").as_deref(), Ok(&b"abc"[..]));
    assert_eq!(volume.check(), Ok(()));
    assert_eq!(volume.write_file("/d/g", &vec![1; all], 9), Ok(()));
}
