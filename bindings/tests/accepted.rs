//! Every call where it is accepted: what it answers, and what the volume holds afterwards.
mod common;

use common::*;
use mfs::{Info, Kind, Listed, Refusal, Room, SeekFrom, Usage, Volume, BLOCK_SIZE};

fn info_of(kind: Kind, size: u32, time: u64, name: &[u8]) -> Info {
    Info { kind, size, time, name: name.to_vec() }
}

#[test]
fn a_formatted_image_is_an_empty_volume() {
    let image = formatted(ROOMY);
    let (size, used) = (ROOMY as u64 * 512, u64::from(ROOMY_AREA + 1) * 512);
    assert_eq!(mfs::usage(&image, K, CODE), Ok(Usage { size, used, free: size - used }));
    assert_eq!(mfs::check(&image, K, CODE, &mut work_for(&image)), Ok(()));
    assert_eq!(mfs::info(&image, K, CODE, b"/", b"/"), Ok(info_of(Kind::Dir, 0, 0, b"")));
    let mut buf = [7; 300];
    assert_eq!(mfs::list(&image, K, CODE, b"/", b"/", 0, &mut buf), Ok(Listed { bytes: 0, next: 0 }));
    assert_eq!(buf, [7; 300]);
}

/// Of 4,200 blocks 4,096 are in reach, and the root has the first of them.
#[test]
fn room_is_told_by_the_fewest_bytes() {
    let mut image = formatted(ROOMY);
    for (count, enough, bytes) in [
        (0, true, 0),
        (1, true, 1),
        (7, true, 1),
        (8, true, 2),
        (64, true, 9),
        (65, true, 9),
        (4095, true, 512),
        (4096, false, 512),
        (u32::MAX, false, 512),
    ] {
        assert_eq!(mfs::room(&image, K, CODE, count), Ok(Room { enough, bytes }), "{count}");
    }
    image[10 * BLOCK_SIZE..][..100].fill(0xFF);
    assert_eq!(mfs::room(&image, K, CODE, 1), Ok(Room { enough: true, bytes: 101 }));
    assert_eq!(mfs::room(&image, K, CODE, 4096 - 800), Ok(Room { enough: true, bytes: 512 }));
    assert_eq!(mfs::room(&image, K, CODE, 4096 - 799), Ok(Room { enough: false, bytes: 512 }));
}

#[test]
fn format_keeps_what_is_not_the_volume_s() {
    let mut image = vec![0xEE; ROOMY * BLOCK_SIZE];
    mfs::format(&mut image, K, CODE).unwrap();
    let written = |block: usize| block == 8 || (10..=ROOMY_AREA as usize).contains(&block);
    for (number, block) in image.chunks(BLOCK_SIZE).enumerate() {
        assert_eq!(block.iter().all(|&byte| byte == 0xEE), !written(number), "block {number}");
    }
}

#[test]
fn the_volume_of_the_documents_is_read() {
    let mut image = listed();
    put(&mut image, 12 * BLOCK_SIZE + 4, b"xyz");
    assert_eq!(mfs::check(&image, K, CODE, &mut work_for(&image)), Ok(()));
    assert_eq!(mfs::info(&image, K, CODE, b"/", b"m1"), Ok(info_of(Kind::File, 3, 1_700_000_000, b"m1")));
    assert_eq!(mfs::info(&image, K, CODE, b"/", b"/old/"), Ok(info_of(Kind::Dir, 0, 1_700_000_060, b"old")));
    let mut handle = mfs::open(&image, K, CODE, b"/", b"/m1").unwrap();
    assert_eq!(parts(&handle), (11, 12, 3, 0, b"m1".to_vec()));
    let mut buf = [7; 5];
    assert_eq!(mfs::read(&image, K, CODE, &mut handle, &mut buf), Ok(3));
    assert_eq!(&buf, b"xyz\x07\x07");
    assert_eq!(handle.position(), 3);
    assert_eq!(mfs::read(&image, K, CODE, &mut handle, &mut buf), Ok(0));
}

#[test]
fn a_device_is_listed_and_deleted() {
    let mut image = listed();
    image[LISTED_AREA * BLOCK_SIZE + 4] = 2;
    assert_eq!(mfs::info(&image, K, CODE, b"/", b"m1").unwrap().kind, Kind::Device);
    assert_eq!(mfs::open(&image, K, CODE, b"/", b"m1"), Err(Refusal::WrongKind));
    let mut work = work_for(&image);
    assert_eq!(mfs::delete(&mut image, K, CODE, b"/", b"m1", 9, &mut work), Ok(()));
    assert_eq!(mfs::info(&image, K, CODE, b"/", b"m1"), Err(Refusal::NotFound));
    assert_eq!(mfs::check(&image, K, CODE, &mut work), Ok(()));
}

#[test]
fn a_file_is_created_written_read_and_deleted() {
    let mut image = formatted(ROOMY);
    let empty = image.clone();
    let mut work = work_for(&image);

    assert_eq!(mfs::create_dir(&mut image, K, CODE, b"/", b"d", 10, &mut work), Ok(()));
    let mut file = mfs::create_file(&mut image, K, CODE, b"/d", b"f", 20, &mut work).unwrap();
    assert_eq!(parts(&file), (ROOMY_AREA + 1, ROOMY_AREA + 2, 0, 0, b"f".to_vec()));
    assert_eq!(mfs::info(&image, K, CODE, b"/", b"d"), Ok(info_of(Kind::Dir, 19, 20, b"d")));

    assert_eq!(mfs::write(&mut image, K, CODE, &mut file, &[b'a'; 1000], 30, &mut work), Ok(1000));
    assert_eq!((file.size(), file.position()), (1000, 1000));
    assert_eq!(mfs::info(&image, K, CODE, b"/", b"/d/f"), Ok(info_of(Kind::File, 1000, 30, b"f")));
    assert_eq!(mfs::usage(&image, K, CODE).unwrap().used, u64::from(ROOMY_AREA + 4) * 512);

    assert_eq!(mfs::seek(&mut file, SeekFrom::Start(508)), Ok(()));
    assert_eq!(mfs::write(&mut image, K, CODE, &mut file, b"end", 40, &mut work), Ok(3));
    assert_eq!(mfs::seek(&mut file, SeekFrom::End(-5)), Ok(()));
    let mut buf = [0; 9];
    assert_eq!(mfs::read(&image, K, CODE, &mut file, &mut buf), Ok(5));
    assert_eq!(&buf[..5], b"aaend");

    assert_eq!(mfs::delete(&mut image, K, CODE, b"/", b"/d/f", 50, &mut work), Ok(()));
    assert_eq!(mfs::info(&image, K, CODE, b"/", b"d"), Ok(info_of(Kind::Dir, 0, 50, b"d")));
    assert_eq!(mfs::delete(&mut image, K, CODE, b"/", b"/d", 60, &mut work), Ok(()));
    assert_eq!(mfs::check(&image, K, CODE, &mut work), Ok(()));
    // Only what is free may hold other bytes than before.
    let kept = ROOMY_AREA as usize * BLOCK_SIZE;
    assert!(image[..kept] == empty[..kept]);
}

#[test]
fn seeks_go_from_start_position_and_end() {
    let image = with_file();
    let mut file = mfs::open(&image, K, CODE, b"/", b"/d/f").unwrap();
    for (from, position) in [
        (SeekFrom::Start(3), 3),
        (SeekFrom::Current(-2), 1),
        (SeekFrom::Current(0), 1),
        (SeekFrom::Current(2), 3),
        (SeekFrom::End(-3), 0),
        (SeekFrom::End(0), 3),
        (SeekFrom::Start(0), 0),
    ] {
        assert_eq!(file.seek(from), Ok(()));
        assert_eq!(file.position(), position, "after {from:?}");
    }
}

#[test]
fn the_work_buffer_is_zero_as_far_as_it_is_used() {
    let mut image = with_file();
    let used = (ROOMY - ROOMY_AREA as usize).div_ceil(8);
    let mut work = vec![0xA5; mfs::work_len(image.len()) + 9];
    assert_eq!(mfs::check(&image, K, CODE, &mut work[..used]), Ok(()));
    assert_eq!(mfs::delete(&mut image, K, CODE, b"/", b"/d/f", 4, &mut work), Ok(()));
    assert!(work[..used].iter().all(|&byte| byte == 0));
    assert!(work[used..].iter().all(|&byte| byte == 0xA5));
}

#[test]
fn a_volume_does_what_the_functions_do() {
    let mut by_functions = formatted(ROOMY);
    let mut work = work_for(&by_functions);
    mfs::create_dir(&mut by_functions, K, CODE, b"/", b"/d", 1, &mut work).unwrap();
    let mut file = mfs::create_file(&mut by_functions, K, CODE, b"/d", b"f", 2, &mut work).unwrap();
    mfs::write(&mut by_functions, K, CODE, &mut file, b"abc", 3, &mut work).unwrap();
    mfs::create_file(&mut by_functions, K, CODE, b"/", b"/g", 4, &mut work).unwrap();
    mfs::delete(&mut by_functions, K, CODE, b"/", b"/g", 5, &mut work).unwrap();

    let mut image = vec![0; ROOMY * BLOCK_SIZE];
    let mut volume = Volume::format(&mut image, K, CODE).unwrap();
    assert_eq!(volume.cwd(), "/");
    volume.create_dir("d", 1).unwrap();
    volume.set_cwd("/d");
    assert_eq!(volume.cwd(), "/d");
    let mut same_file = volume.create_file("f", 2).unwrap();
    assert_eq!(volume.write(&mut same_file, b"abc", 3), Ok(3));
    volume.create_file("/g", 4).unwrap();
    volume.delete("/g", 5).unwrap();
    assert_eq!(same_file, file);
    assert!(volume.image() == by_functions);

    let mut again = volume.open("f").unwrap();
    let mut buf = [0; 3];
    assert_eq!(volume.read(&mut again, &mut buf), Ok(3));
    assert_eq!(&buf, b"abc");
    assert_eq!(volume.info("f"), mfs::info(&by_functions, K, CODE, b"/", b"/d/f"));
    assert_eq!(volume.usage(), mfs::usage(&by_functions, K, CODE));
    assert_eq!(volume.list("/d"), Ok(vec![info_of(Kind::File, 3, 3, b"f")]));
    assert_eq!(volume.check(), Ok(()));
    assert_eq!(format!("{volume:?}"), r#"Volume { k: 8, code: 0, cwd: "/d", .. }"#);
}

#[test]
fn a_volume_lists_all_pages() {
    let mut image = vec![0; ROOMY * BLOCK_SIZE];
    let mut volume = Volume::format(&mut image, K, CODE).unwrap();
    // 600 records of 214 bytes: two pages.
    let name_of = |number: usize| format!("{number:0>200}");
    for number in 0..600 {
        volume.create_file(name_of(number), number as u64).unwrap();
    }
    let entries = volume.list("/").unwrap();
    assert_eq!(entries.len(), 600);
    for (number, entry) in entries.iter().enumerate() {
        assert_eq!(*entry, info_of(Kind::File, 0, number as u64, name_of(number).as_bytes()));
    }
    assert_eq!(volume.list("/none"), Err(Refusal::NotFound));
}

#[test]
fn a_name_with_accents_is_text() {
    let mut image = formatted(ROOMY);
    let mut volume = Volume::new(&mut image, K, CODE);
    volume.create_file("/Kérity-ø", 1).unwrap();
    let listed = volume.list("/").unwrap();
    assert_eq!(listed[0].name_str(), Some("Kérity-ø"));
    assert_eq!(volume.info("/Kérity-ø").unwrap().name_str(), Some("Kérity-ø"));
    assert_eq!(volume.create_file("/Kérity-ø", 2).unwrap_err(), Refusal::Exists);
    assert_eq!(volume.check(), Ok(()));
}
