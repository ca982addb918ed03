//! Each refusal by its number, on the calls that give it. Every refused call here is also seen to leave image, handle and buffer.
mod common;

use common::*;
use mfs::{Handle, Refusal, SeekFrom, BLOCK_SIZE, DEPTH, FILE_LEN, NAME_LEN, PATH_LEN};

/// A handle whose own fields are in range.
fn some_handle() -> Handle {
    Handle::from_parts(11, 12, 3, 0, name_array(b"m1"), 2)
}

#[track_caller]
fn assert_open_refused(image: &[u8], cwd: &[u8], path: &[u8], refusal: Refusal) {
    assert_refused(image, refusal, |image| mfs::open(image, K, CODE, cwd, path));
}

#[track_caller]
fn assert_info_refused(image: &[u8], cwd: &[u8], path: &[u8], refusal: Refusal) {
    assert_refused(image, refusal, |image| mfs::info(image, K, CODE, cwd, path));
}

#[track_caller]
fn assert_list_refused(image: &[u8], cwd: &[u8], path: &[u8], refusal: Refusal) {
    let mut buf = [7; 600];
    assert_refused(image, refusal, |image| mfs::list(image, K, CODE, cwd, path, 0, &mut buf));
    assert_eq!(buf, [7; 600]);
}

#[track_caller]
fn assert_read_refused(image: &[u8], handle: &Handle, refusal: Refusal) {
    let (mut kept, mut buf) = (handle.clone(), [7; 600]);
    assert_refused(image, refusal, |image| mfs::read(image, K, CODE, &mut kept, &mut buf));
    assert_eq!(kept, *handle);
    assert_eq!(buf, [7; 600]);
}

#[track_caller]
fn assert_seek_refused(handle: &Handle, from: SeekFrom, refusal: Refusal) {
    let mut kept = handle.clone();
    assert_eq!(mfs::seek(&mut kept, from), Err(refusal));
    assert_eq!(kept, *handle);
}

#[track_caller]
fn assert_create_refused(image: &[u8], cwd: &[u8], path: &[u8], refusal: Refusal) {
    let mut work = work_for(image);
    assert_refused(image, refusal, |image| mfs::create_file(image, K, CODE, cwd, path, 9, &mut work));
    assert_refused(image, refusal, |image| mfs::create_dir(image, K, CODE, cwd, path, 9, &mut work));
}

#[track_caller]
fn assert_delete_refused(image: &[u8], cwd: &[u8], path: &[u8], refusal: Refusal) {
    let mut work = work_for(image);
    assert_refused(image, refusal, |image| mfs::delete(image, K, CODE, cwd, path, 9, &mut work));
}

#[track_caller]
fn assert_write_refused(image: &[u8], handle: &Handle, buf: &[u8], refusal: Refusal) {
    let (mut kept, mut work) = (handle.clone(), work_for(image));
    assert_refused(image, refusal, |image| mfs::write(image, K, CODE, &mut kept, buf, 9, &mut work));
    assert_eq!(kept, *handle);
}

/// The calls that look a path up and change nothing.
#[track_caller]
fn assert_lookups_refused(image: &[u8], cwd: &[u8], path: &[u8], refusal: Refusal) {
    assert_open_refused(image, cwd, path, refusal);
    assert_info_refused(image, cwd, path, refusal);
    assert_list_refused(image, cwd, path, refusal);
}

/// All calls that change nothing but the check; what they ask for is plain.
#[track_caller]
fn assert_reading_refused(image: &[u8], refusal: Refusal) {
    assert_refused(image, refusal, |image| mfs::usage(image, K, CODE));
    assert_refused(image, refusal, |image| mfs::room(image, K, CODE, 0));
    assert_lookups_refused(image, b"/", b"/m1", refusal);
    assert_read_refused(image, &some_handle(), refusal);
}

/// The check and all changing calls, with a work buffer of that length, which is told back.
#[track_caller]
fn assert_checking_refused(image: &[u8], work_len: usize, refusal: Refusal) -> Vec<u8> {
    let mut work = vec![0xA5; work_len];
    assert_refused(image, refusal, |image| mfs::check(image, K, CODE, &mut work));
    assert_refused(image, refusal, |image| mfs::create_file(image, K, CODE, b"/", b"/new", 9, &mut work));
    assert_refused(image, refusal, |image| mfs::create_dir(image, K, CODE, b"/", b"/new", 9, &mut work));
    assert_refused(image, refusal, |image| mfs::delete(image, K, CODE, b"/", b"/m1", 9, &mut work));
    let mut handle = some_handle();
    assert_refused(image, refusal, |image| mfs::write(image, K, CODE, &mut handle, b"abc", 9, &mut work));
    assert_eq!(handle, some_handle());
    work
}

/// A refusal before the check, by every call but format and seek: the work buffer stays too.
#[track_caller]
fn assert_all_refused(image: &[u8], refusal: Refusal) {
    assert_reading_refused(image, refusal);
    assert_eq!(assert_checking_refused(image, 600, refusal), [0xA5; 600]);
}

#[test]
fn refusal_1_an_image_of_no_such_length() {
    for len in [0, 511, 513, 10 * BLOCK_SIZE, 128 * BLOCK_SIZE + 1] {
        let image = vec![0; len];
        assert_all_refused(&image, Refusal::BadImage);
        assert_refused(&image, Refusal::BadImage, |image| mfs::format(image, K, CODE));
    }
    let image = listed();
    for k in [126, 127, 128, u32::MAX - 2, u32::MAX] {
        assert_refused(&image, Refusal::BadImage, |image| mfs::format(image, k, CODE));
        assert_refused(&image, Refusal::BadImage, |image| mfs::usage(image, k, CODE));
    }
}

#[test]
fn refusal_2_no_superblock() {
    assert_all_refused(&vec![0; 128 * BLOCK_SIZE], Refusal::NotMfs);
    for at in [0, 7, 8, 9] {
        let mut image = listed();
        image[K as usize * BLOCK_SIZE + at] ^= 1;
        assert_all_refused(&image, Refusal::NotMfs);
    }
}

/// Ahead of 1: without a size nothing can be said of the image.
#[test]
fn refusal_2_an_unknown_size_code_before_all_others() {
    for image in [listed(), Vec::new(), vec![0; 511]] {
        for code in [2, u32::MAX] {
            let (mut work, mut handle) = (work_for(&image), some_handle());
            assert_refused(&image, Refusal::NotMfs, |image| mfs::format(image, K, code));
            assert_refused(&image, Refusal::NotMfs, |image| mfs::usage(image, K, code));
            assert_refused(&image, Refusal::NotMfs, |image| mfs::room(image, K, code, 0));
            assert_refused(&image, Refusal::NotMfs, |image| mfs::check(image, K, code, &mut work));
            assert_refused(&image, Refusal::NotMfs, |image| mfs::open(image, K, code, b"/", b"/m1"));
            assert_refused(&image, Refusal::NotMfs, |image| mfs::info(image, K, code, b"/", b"/m1"));
            assert_refused(&image, Refusal::NotMfs, |image| mfs::list(image, K, code, b"/", b"/", 0, &mut [0; 300]));
            assert_refused(&image, Refusal::NotMfs, |image| mfs::read(image, K, code, &mut handle, &mut [0; 3]));
            assert_refused(&image, Refusal::NotMfs, |image| mfs::create_file(image, K, code, b"/", b"/new", 9, &mut work));
            assert_refused(&image, Refusal::NotMfs, |image| mfs::create_dir(image, K, code, b"/", b"/new", 9, &mut work));
            assert_refused(&image, Refusal::NotMfs, |image| mfs::delete(image, K, code, b"/", b"/m1", 9, &mut work));
            assert_refused(&image, Refusal::NotMfs, |image| mfs::write(image, K, code, &mut handle, b"abc", 9, &mut work));
            assert_eq!(handle, some_handle());
        }
    }
}

#[test]
fn refusal_3_a_block_count_without_a_layout() {
    for blocks in [11, 4108] {
        let image = vec![0; blocks * BLOCK_SIZE];
        assert_refused(&image, Refusal::BadCount, |image| mfs::format(image, K, CODE));
    }
    for blocks in [0u32, 10, 11, 129, u32::MAX] {
        let mut image = listed();
        put(&mut image, K as usize * BLOCK_SIZE + 10, &blocks.to_be_bytes());
        assert_all_refused(&image, Refusal::BadCount);
    }
}

#[test]
fn refusal_4_a_path() {
    let image = with_file();
    let long = [b'a'; PATH_LEN]; // and the `/` of the working directory
    let cases: [(&[u8], &[u8]); 6] =
        [(b"/", b"/a\x1f"), (b"/", b"/a\x7f"), (b"/", b"/\xe9"), (b"/", &long), (b"x", b"a"), (b"", b"a")];
    for (cwd, path) in cases {
        assert_lookups_refused(&image, cwd, path, Refusal::BadPath);
        assert_create_refused(&image, cwd, path, Refusal::BadPath);
        assert_delete_refused(&image, cwd, path, Refusal::BadPath);
    }
    assert_open_refused(&image, b"/", &long[1..], Refusal::NotFound);
    assert_open_refused(&image, b"/", "/\u{e9}".as_bytes(), Refusal::NotFound);
}

#[test]
fn refusal_5_nothing_there() {
    let image = with_file();
    for path in [&b"/none"[..], b"/none/f", b"/d//f", b"//"] {
        assert_lookups_refused(&image, b"/", path, Refusal::NotFound);
        assert_delete_refused(&image, b"/", path, Refusal::NotFound);
    }
    assert_open_refused(&image, b"/", b"/", Refusal::NotFound);
    assert_delete_refused(&image, b"/", b"/", Refusal::NotFound);
    assert_list_refused(&image, b"/", b"/d/", Refusal::NotFound);
    assert_create_refused(&image, b"/", b"/none/new", Refusal::NotFound);
}

#[test]
fn refusal_6_another_kind() {
    let image = with_file();
    assert_lookups_refused(&image, b"/", b"/d/f/x", Refusal::WrongKind);
    assert_create_refused(&image, b"/", b"/d/f/x", Refusal::WrongKind);
    assert_delete_refused(&image, b"/", b"/d/f/x", Refusal::WrongKind);
    assert_open_refused(&image, b"/", b"/d", Refusal::WrongKind);
    assert_list_refused(&image, b"/", b"/d/f", Refusal::WrongKind);
}

#[test]
fn refusal_7_the_name_is_there() {
    let image = with_file();
    assert_create_refused(&image, b"/", b"/d", Refusal::Exists);
    assert_create_refused(&image, b"/d", b"f/", Refusal::Exists);
}

#[test]
fn refusal_8_no_name_for_an_entry() {
    let image = with_file();
    assert_create_refused(&image, b"/", &[b'n'; NAME_LEN + 1], Refusal::BadName);
    assert_create_refused(&image, b"/", b"/", Refusal::BadName);
    assert_create_refused(&image, b"/d", b"", Refusal::Exists); // not an empty name: `/d/` is `/d`
    let (mut image, mut work) = (image.clone(), work_for(&image));
    let longest = mfs::create_file(&mut image, K, CODE, b"/", &[b'n'; NAME_LEN], 9, &mut work).unwrap();
    assert_eq!(longest.name(), [b'n'; NAME_LEN]);
}

#[test]
fn refusal_9_no_room() {
    // Below 4,096 blocks nothing is within reach.
    let image = listed();
    assert_create_refused(&image, b"/", b"/new", Refusal::NoRoom);
    let m1 = mfs::open(&image, K, CODE, b"/", b"m1").unwrap();
    assert_write_refused(&image, &m1, &[b'x'; 509], Refusal::NoRoom);
    // In a roomy volume one byte more than all blocks within reach hold.
    let image = with_file();
    let file = mfs::open(&image, K, CODE, b"/", b"/d/f").unwrap();
    let all = (4096 - 2) * 508; // the root and /d have one block each
    assert_write_refused(&image, &file, &vec![b'x'; all + 1], Refusal::NoRoom);
    let (mut full, mut file, mut work) = (image.clone(), file, work_for(&image));
    assert_eq!(mfs::write(&mut full, K, CODE, &mut file, &vec![b'x'; all], 9, &mut work), Ok(all));
    assert_create_refused(&full, b"/", b"/new", Refusal::NoRoom);
}

#[test]
fn refusal_10_a_file_over_the_limit() {
    let mut image = listed();
    put(&mut image, M1_SIZE_AT, &(FILE_LEN + 1).to_be_bytes());
    assert_open_refused(&image, b"/", b"m1", Refusal::TooLarge);
    assert_eq!(mfs::info(&image, K, CODE, b"/", b"m1").unwrap().size, FILE_LEN + 1);
    put(&mut image, M1_SIZE_AT, &FILE_LEN.to_be_bytes());
    assert_eq!(mfs::open(&image, K, CODE, b"/", b"m1").unwrap().size(), FILE_LEN);
}

#[test]
fn refusal_11_a_handle_s_own_fields() {
    let image = listed();
    let name = name_array(b"m1");
    let stale = [
        Handle::from_parts(11, 12, 3, 4, name, 2),
        Handle::from_parts(11, 12, FILE_LEN + 1, 0, name, 2),
        Handle::from_parts(11, 12, u32::MAX, u32::MAX, name, 2),
        Handle::from_parts(11, 12, 3, 0, name, 0),
        Handle::from_parts(11, 12, 3, 0, [b'a'; NAME_LEN], NAME_LEN + 1),
        Handle::from_parts(11, 12, 3, 0, [b'a'; NAME_LEN], usize::MAX),
    ];
    for handle in &stale {
        assert_read_refused(&image, handle, Refusal::Stale);
        assert_write_refused(&image, handle, b"abc", Refusal::Stale);
        for from in [SeekFrom::Start(0), SeekFrom::Current(0), SeekFrom::End(0)] {
            assert_seek_refused(handle, from, Refusal::Stale);
        }
    }
}

#[test]
fn refusal_11_a_file_that_is_no_longer_there() {
    let mut image = with_file();
    let mut work = work_for(&image);
    let old = mfs::open(&image, K, CODE, b"/", b"/d/f").unwrap();
    let mut other = old.clone();
    // As many bytes again: the same name, address and size.
    mfs::write(&mut image, K, CODE, &mut other, b"xyz", 4, &mut work).unwrap();
    let mut buf = [0; 3];
    assert_eq!(mfs::read(&image, K, CODE, &mut old.clone(), &mut buf), Ok(3));
    assert_eq!(&buf, b"xyz");

    mfs::write(&mut image, K, CODE, &mut other, b"more", 5, &mut work).unwrap();
    assert_read_refused(&image, &old, Refusal::Stale);
    assert_write_refused(&image, &old, b"lost", Refusal::Stale);
    mfs::delete(&mut image, K, CODE, b"/", b"/d/f", 6, &mut work).unwrap();
    assert_read_refused(&image, &other, Refusal::Stale);
    assert_write_refused(&image, &other, b"lost", Refusal::Stale);
}

#[test]
fn refusal_11_a_directory_that_is_none() {
    // The bytes of /d/f are made to look like a directory with a file of the handle's name, address and size.
    let mut image = with_file();
    let mut work = work_for(&image);
    let mut file = mfs::open(&image, K, CODE, b"/", b"/d/f").unwrap();
    let addr = file.addr();
    mfs::write(&mut image, K, CODE, &mut file, &entry(1, addr, 3, 9, b"x"), 5, &mut work).unwrap();
    let forged = Handle::from_parts(addr, addr, 3, 0, name_array(b"x"), 1);
    assert_write_refused(&image, &forged, b"abc", Refusal::Stale);
    // Blocks outside the volume: a write finds no such directory, a read cannot walk it.
    for dir in [0, 8, ROOMY as u32, u32::MAX] {
        let outside = Handle::from_parts(dir, addr, 3, 0, name_array(b"x"), 1);
        assert_write_refused(&image, &outside, b"abc", Refusal::Stale);
        assert_read_refused(&image, &outside, Refusal::Damaged);
    }
}

#[test]
fn refusal_12_a_target_outside_the_file() {
    let handle = Handle::from_parts(11, 12, 10, 4, name_array(b"m1"), 2);
    for from in [
        SeekFrom::Start(11),
        SeekFrom::Start(2_147_483_648),
        SeekFrom::Start(u32::MAX),
        SeekFrom::Current(-5),
        SeekFrom::Current(7),
        SeekFrom::Current(i32::MAX),
        SeekFrom::Current(i32::MIN),
        SeekFrom::End(1),
        SeekFrom::End(-11),
        SeekFrom::End(i32::MIN),
    ] {
        assert_seek_refused(&handle, from, Refusal::BadSeek);
    }
}

#[test]
fn refusal_13_nothing_to_write() {
    let image = with_file();
    let file = mfs::open(&image, K, CODE, b"/", b"/d/f").unwrap();
    assert_write_refused(&image, &file, b"", Refusal::EmptyWrite);
    // Told before the handle is looked at.
    assert_write_refused(&image, &Handle::from_parts(0, 0, 0, 1, [0; NAME_LEN], 0), b"", Refusal::EmptyWrite);
}

#[test]
fn refusal_14_a_directory_with_entries() {
    assert_delete_refused(&with_file(), b"/", b"/d", Refusal::NotEmpty);
}

#[test]
fn refusal_15_a_directory_too_deep() {
    let mut image = formatted(ROOMY);
    let mut work = work_for(&image);
    let mut path = Vec::new();
    for _ in 0..DEPTH {
        path.extend(b"/a");
        assert_eq!(mfs::create_dir(&mut image, K, CODE, b"/", &path, 1, &mut work), Ok(()));
    }
    path.extend(b"/a");
    assert_refused(&image, Refusal::TooDeep, |image| mfs::create_dir(image, K, CODE, b"/", &path, 1, &mut work));
    assert!(mfs::create_file(&mut image, K, CODE, b"/", &path, 1, &mut work).is_ok());
    // The depth is told before the name is looked for.
    assert_refused(&image, Refusal::TooDeep, |image| mfs::create_dir(image, K, CODE, b"/", &path, 1, &mut work));
}

#[test]
fn refusal_16_a_short_work_buffer() {
    let image = listed();
    let needed = (128 - LISTED_AREA).div_ceil(8);
    assert_eq!(mfs::check(&image, K, CODE, &mut vec![0; needed]), Ok(()));
    for len in [0, needed - 1] {
        assert_eq!(assert_checking_refused(&image, len, Refusal::ShortWork), vec![0xA5; len]);
    }
}

#[test]
fn refusal_17_a_volume_that_is_not_well_formed() {
    let superblock = K as usize * BLOCK_SIZE;
    let damages: [(&str, usize, u8); 6] = [
        ("a byte behind the superblock's fields", superblock + 511, 1),
        ("a used count that is one too high", superblock + 17, 15),
        ("a bit of a block that is not reached", superblock + 2 * BLOCK_SIZE, 0x0f),
        ("a file in a circle", 12 * BLOCK_SIZE + 3, 12),
        ("two entries of one block", LISTED_AREA * BLOCK_SIZE + 4 + 20 + 4, 12),
        ("a byte behind the last entry", 12 * BLOCK_SIZE - 1, 1),
    ];
    for (what, at, byte) in damages {
        let mut image = listed();
        image[at] = byte;
        let work = assert_checking_refused(&image, 600, Refusal::Damaged);
        let used = (128 - LISTED_AREA).div_ceil(8);
        assert!(work[..used].iter().all(|&byte| byte == 0), "{what}");
        assert!(work[used..].iter().all(|&byte| byte == 0xA5), "{what}");
    }
}

#[test]
fn refusal_17_damage_on_the_way() {
    let mut overused = listed();
    put(&mut overused, K as usize * BLOCK_SIZE + 14, &129u32.to_be_bytes());
    assert_refused(&overused, Refusal::Damaged, |image| mfs::usage(image, K, CODE));

    // The root in a circle: what is there is found, what is not there is not searched for ever.
    let mut circle = listed();
    put(&mut circle, LISTED_AREA * BLOCK_SIZE, &(LISTED_AREA as u32).to_be_bytes());
    assert!(mfs::open(&circle, K, CODE, b"/", b"m1").is_ok());
    assert_open_refused(&circle, b"/", b"none", Refusal::Damaged);
    assert_info_refused(&circle, b"/", b"none", Refusal::Damaged);
    assert_info_refused(&circle, b"/", b"/", Refusal::Damaged);
    let mut buf = vec![7; 1 << 16];
    assert_refused(&circle, Refusal::Damaged, |image| mfs::list(image, K, CODE, b"/", b"/", 0, &mut buf));
    assert!(buf.iter().all(|&byte| byte == 7));

    let mut cut = listed();
    put(&mut cut, M1_SIZE_AT, &509u32.to_be_bytes());
    let m1 = mfs::open(&cut, K, CODE, b"/", b"m1").unwrap();
    assert_read_refused(&cut, &m1, Refusal::Damaged);
}
