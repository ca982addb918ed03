//! The examples E1 to E12, the volume of `lsmfs`'s stored case, each clause of W1 to W5, and the life of a file.
use crate::path::{is_text, pieces, split};
use crate::*;

const K: u32 = 8;
const BLOCK_SIZE: usize = 512;

fn formatted(blocks: usize) -> Vec<u8> {
    let mut image = vec![0; blocks * BLOCK_SIZE];
    format(&mut image, K).unwrap();
    image
}

fn work() -> Vec<u8> {
    vec![0xa5; 1024]
}

/// The input of one case of the listing program: 128 blocks, a file and an empty directory.
fn example_volume() -> Vec<u8> {
    let mut image = vec![0; 128 * BLOCK_SIZE];
    image[8 * 512..][..18].copy_from_slice(b"MOROS FS\x02\x00\x00\x00\x00\x80\x00\x00\x00\x0e");
    image[10 * 512] = 0x07;
    let mut root = Vec::new();
    put_entry(&mut root, 1, 12, 3, 1_700_000_000, b"m1");
    put_entry(&mut root, 0, 13, 0, 1_700_000_060, b"old");
    image[11 * 512 + 4..][..root.len()].copy_from_slice(&root);
    image
}

fn put_entry(bytes: &mut Vec<u8>, kind: u8, address: u32, size: u32, time: u64, name: &[u8]) {
    bytes.push(kind);
    bytes.extend(address.to_be_bytes());
    bytes.extend(size.to_be_bytes());
    bytes.extend(time.to_be_bytes());
    bytes.push(name.len() as u8);
    bytes.extend(name);
}

fn handle(size: u32, position: u32) -> Handle {
    Handle { dir: 11, addr: 12, size, position, name: [b'm'; NAME_LEN], len: 1 }
}

fn geometry_of(blocks: usize) -> Answer<(usize, usize)> {
    let mut image = vec![0; blocks * BLOCK_SIZE];
    format(&mut image, K)?;
    let geo = geometry(&image, K)?;
    Ok((geo.d(), geo.reach()))
}

#[test]
fn examples_1_to_5_the_data_area_and_the_reach() {
    assert_eq!(geometry_of(11), Err(Refusal::BadCount));
    assert_eq!(geometry_of(12), Ok((11, 0)));
    assert_eq!(geometry_of(4107), Ok((11, 4096)));
    assert_eq!(geometry_of(4108), Err(Refusal::BadCount));
    assert_eq!(geometry_of(4109), Ok((12, 4096)));
}

#[test]
fn example_6_the_bit_of_an_address() {
    let geo = Geometry { k: 8, version: 2, code: 0, n: 128 };
    assert_eq!(geo.bit(geo.index(24)), (10 * 512 + 1, 0x20));
}

#[test]
fn example_7_the_blocks_of_a_file() {
    let geo = Geometry { k: 8, version: 2, code: 0, n: 128 };
    assert_eq!([0, 508, 509, 1016].map(|size| geo.file_blocks(size)), [1, 1, 2, 2]);
}

#[test]
fn examples_8_and_9_seeks() {
    let sought = |position, from| {
        let mut moved = handle(10, position);
        seek(&mut moved, from).map(|()| moved.position)
    };
    assert_eq!(sought(4, SeekFrom::Current(-4)), Ok(0));
    assert_eq!(sought(4, SeekFrom::Current(-5)), Err(Refusal::BadSeek));
    assert_eq!(sought(4, SeekFrom::Start(10)), Ok(10));
    assert_eq!(sought(4, SeekFrom::Start(11)), Err(Refusal::BadSeek));
    assert_eq!(sought(4, SeekFrom::Start(2_147_483_648)), Err(Refusal::BadSeek));
    assert_eq!(sought(4, SeekFrom::End(i32::MIN)), Err(Refusal::BadSeek));
    assert_eq!(sought(11, SeekFrom::Start(0)), Err(Refusal::Stale));
}

#[test]
fn examples_10_and_11_the_parts_of_a_path() {
    assert_eq!(split(b"//a"), (&b"/"[..], &b"a"[..]));
    assert_eq!(split(b"/a//b"), (&b"/a/"[..], &b"b"[..]));
    assert_eq!(pieces(b"/a/"), [&b"a"[..], b""]);
    let image = example_volume();
    assert_eq!(info(&image, K, b"/", b"/old//b"), Err(Refusal::NotFound));
    assert_eq!(info(&image, K, b"/", b"/m1//b"), Err(Refusal::WrongKind));
    assert_eq!(info(&image, K, b"/", b"//m1").map(|found| found.size), Ok(3));
    assert_eq!(info(&image, K, b"/", b"///m1"), Err(Refusal::NotFound));
}

#[test]
fn example_12_where_an_entry_goes() {
    let root_blocks = |second: usize| {
        let mut image = formatted(4107);
        create_file(&mut image, K, b"/", &[b'a'; 236], 1, &mut work()).unwrap();
        create_file(&mut image, K, b"/", &vec![b'b'; second], 2, &mut work()).unwrap();
        let geo = geometry(&image, K).unwrap();
        let blocks = volume::chain(&image, geo, geo.d()).blocks;
        (directory::used_of_block(&image, geo, blocks[0]), blocks.len())
    };
    assert_eq!(root_blocks(235), (507, 1));
    assert_eq!(root_blocks(236), (254, 2));
}

#[test]
fn the_example_volume_lists_as_it_should() {
    let image = example_volume();
    assert_eq!(check(&image, K, &mut work()), Ok(()));
    let mut buf = [0; 64];
    assert_eq!(list(&image, K, b"/", b"/", 0, &mut buf), Ok(Listed { bytes: 33, next: 2 }));
    let first = [&[1, 0, 0, 0, 3][..], &1_700_000_000u64.to_be_bytes(), b"\x02m1"].concat();
    let second = [&[0, 0, 0, 0, 0][..], &1_700_000_060u64.to_be_bytes(), b"\x03old"].concat();
    assert_eq!(buf[..33], [first, second].concat());
    assert_eq!(list(&image, K, b"/", b"/", 0, &mut buf[..33]), Ok(Listed { bytes: 16, next: 1 }));
    assert_eq!(list(&image, K, b"/", b"/", 7, &mut buf), Ok(Listed { bytes: 0, next: 7 }));
    assert_eq!(usage(&image, K), Ok(Usage { size: 65_536, used: 14 * 512, free: 114 * 512 }));
}

/// The answer of the check to the example volume with some bytes changed.
fn check_with(edits: &[(usize, &[u8])]) -> Answer<()> {
    let mut image = example_volume();
    for (place, bytes) in edits {
        image[*place..][..bytes.len()].copy_from_slice(bytes);
    }
    check(&image, K, &mut work())
}

const SUPERBLOCK: usize = 8 * 512;
const BITMAP: usize = 10 * 512;
const ROOT: usize = 11 * 512;
const M1: usize = ROOT + 4;
const OLD: usize = M1 + 20;
const AFTER: usize = OLD + 21;

#[test]
fn each_clause_of_a_well_formed_volume_decides() {
    let damaged = Err(Refusal::Damaged);
    assert_eq!(check_with(&[]), Ok(()));
    assert_eq!(check_with(&[(SUPERBLOCK + 18, b"x")]), damaged, "W1: the superblock's rest");
    assert_eq!(check_with(&[(12 * 512, &[0, 0, 0, 128])]), damaged, "W2: outside");
    assert_eq!(check_with(&[(12 * 512, &[0, 0, 0, 12])]), damaged, "W2: a circle");
    assert_eq!(check_with(&[(M1 + 4, &[13])]), damaged, "W2: a shared block");
    assert_eq!(check_with(&[(M1 + 18, b"/")]), damaged, "W3: a byte of a name");
    assert_eq!(check_with(&[(M1 + 17, b"\x02ol"), (OLD + 17, b"\x02ol\0")]), damaged, "W3: a name twice");
    assert_eq!(check_with(&[(AFTER + 5, b"x")]), damaged, "W3: a byte after the last entry");
    assert_eq!(check_with(&[(ROOT + 511, b"x")]), damaged, "W3: the last byte of a block");
    assert_eq!(check_with(&[(M1 + 1, &[0; 4])]), damaged, "W3: address 0");
    assert_eq!(check_with(&[(M1 + 5, &509u32.to_be_bytes())]), damaged, "W4: a file of too few blocks");
    assert_eq!(check_with(&[(OLD + 8, &[1])]), damaged, "W4: a directory's sum");
    assert_eq!(check_with(&[(OLD, &[2]), (OLD + 8, &[1])]), Ok(()), "W4: a device of any size");
    assert_eq!(check_with(&[(BITMAP, &[0x0f]), (SUPERBLOCK + 17, &[15])]), damaged, "W5: a bit that no block has");
    assert_eq!(check_with(&[(BITMAP, &[0x03]), (SUPERBLOCK + 17, &[13])]), damaged, "W5: a block that has no bit");
    assert_eq!(check_with(&[(BITMAP + 511, &[0x80]), (SUPERBLOCK + 17, &[15])]), damaged, "W5: a bit past the data");
    assert_eq!(check_with(&[(SUPERBLOCK + 17, &[13])]), damaged, "W5: the used count");
    assert_eq!(check_with(&[(SUPERBLOCK + 512, b"x"), (14 * 512, b"x")]), Ok(()), "block K+1 and free blocks are not looked at");
}

#[test]
fn an_empty_later_directory_block_is_damage() {
    let one_more = [(ROOT, &[0, 0, 0, 14][..]), (BITMAP, &[0x0f]), (SUPERBLOCK + 17, &[15])];
    assert_eq!(check_with(&one_more), Err(Refusal::Damaged));
}

#[test]
fn the_work_buffer_is_cleared_by_the_check_and_by_nothing_before_it() {
    let mut image = example_volume();
    let needed = (128 - 11usize).div_ceil(8);
    let mut buffer = vec![0xff; needed + 1];
    assert_eq!(check(&image, K, &mut buffer[..needed - 1]), Err(Refusal::ShortWork));
    assert_eq!(check(&image, 7, &mut buffer), Err(Refusal::NotMfs));
    assert_eq!(buffer, vec![0xff; needed + 1]);
    assert_eq!(create_file(&mut image, K, b"/", b"/m1", 0, &mut buffer), Err(Refusal::Exists));
    assert_eq!(buffer, [vec![0; needed], vec![0xff]].concat());
}

#[test]
fn walks_end_where_their_answer_is_known() {
    let mut image = example_volume();
    image[ROOT + 3] = 11;
    assert_eq!(info(&image, K, b"/", b"/old").map(|found| found.kind), Ok(Kind::Dir));
    assert_eq!(info(&image, K, b"/", b"/new"), Err(Refusal::Damaged));
    assert_eq!(info(&image, K, b"/", b"/"), Err(Refusal::Damaged));
    assert_eq!(list(&image, K, b"/", b"/", 0, &mut [0; 20]), Ok(Listed { bytes: 16, next: 1 }));
    assert_eq!(list(&image, K, b"/", b"/", u32::MAX, &mut []), Err(Refusal::Damaged));
}

#[test]
fn a_directory_at_depth_17_is_refused() {
    let mut image = formatted(4107);
    let mut path = Vec::new();
    for _ in 0..16 {
        path.extend(b"/d");
        assert_eq!(create_dir(&mut image, K, b"/", &path, 1, &mut work()), Ok(()));
    }
    path.extend(b"/d");
    assert_eq!(create_dir(&mut image, K, b"/", &path, 1, &mut work()), Err(Refusal::TooDeep));
    assert!(create_file(&mut image, K, b"/", &path, 1, &mut work()).is_ok());
    assert_eq!(delete(&mut image, K, b"/", &path[..4], 1, &mut work()), Err(Refusal::NotEmpty));
}

#[test]
fn a_file_is_written_read_cut_and_deleted() {
    let mut image = formatted(4107);
    create_dir(&mut image, K, b"/", b"d", 1, &mut work()).unwrap();
    let before = image.clone();
    let mut file = create_file(&mut image, K, b"/d", b"f", 2, &mut work()).unwrap();
    let text: Vec<u8> = (0..1200u32).map(|i| i as u8).collect();
    assert_eq!(write(&mut image, K, &mut file, &text, 3, &mut work()), Ok(1200));
    assert_eq!(write(&mut image, K, &mut file, b"", 3, &mut work()), Err(Refusal::EmptyWrite));
    seek(&mut file, SeekFrom::Start(500)).unwrap();
    let mut buf = [0xee; 800];
    assert_eq!(read(&image, K, &mut file, &mut buf), Ok(700));
    assert_eq!(buf[..700], text[500..]);
    assert_eq!(buf[700..], [0xee; 100]);

    let stale = file.clone();
    seek(&mut file, SeekFrom::Start(4)).unwrap();
    assert_eq!(write(&mut image, K, &mut file, b"end", 4, &mut work()), Ok(3));
    assert_eq!((file.size, file.position), (7, 7));
    assert_eq!(read(&image, K, &mut stale.clone(), &mut buf), Err(Refusal::Stale));
    assert_eq!(check(&image, K, &mut work()), Ok(()));
    assert_eq!(info(&image, K, b"/", b"/d").map(|dir| (dir.size, dir.time)), Ok((19, 2)));

    assert_eq!(delete(&mut image, K, b"/d/", b"f", 1, &mut work()), Ok(()));
    let data = Geometry { k: 8, version: 2, code: 0, n: 4107 }.d() * BLOCK_SIZE;
    assert_eq!(image[..data + 2 * BLOCK_SIZE], before[..data + 2 * BLOCK_SIZE]);
    assert_eq!(check(&image, K, &mut work()), Ok(()));
}

/// The standard library's test of UTF-8 judges the model's own: every two bytes, and three and four bytes around each first byte.
#[test]
fn text_is_what_the_standard_library_takes_without_controls() {
    const AROUND: [u8; 9] = [0x2f, 0x7f, 0x80, 0x8f, 0x90, 0x9f, 0xa0, 0xbf, 0xc0];
    let judge = |bytes: &[u8]| {
        let controls = bytes.iter().any(|&byte| byte < 0x20 || byte == 0x7f);
        assert_eq!(is_text(bytes), std::str::from_utf8(bytes).is_ok() && !controls, "{bytes:x?}");
    };
    judge(b"");
    for first in 0..=255 {
        judge(&[first]);
        for second in 0..=255 {
            judge(&[first, second]);
        }
        for second in AROUND {
            for third in AROUND {
                judge(&[first, second, third]);
                AROUND.iter().for_each(|&fourth| judge(&[first, second, third, fourth]));
            }
        }
    }
}

/// Volumes whose reach is 0, whole bytes, and one that ends inside a byte; bitmaps at random.
#[test]
fn room_is_the_full_count_by_the_fewest_bytes() {
    let mut seed: u32 = 1;
    for blocks in [128, 4096, 4107, 8192] {
        let mut image = vec![0; blocks * 512];
        format(&mut image, K).unwrap();
        let geo = geometry(&image, K).unwrap();
        let bitmap = 512 * geo.a()..512 * geo.d();
        for byte in &mut image[bitmap] {
            seed = seed.wrapping_mul(1_664_525).wrapping_add(1_013_904_223);
            *byte = (seed >> 24) as u8 | (seed >> 16) as u8;
        }
        let clear: Vec<usize> = (0..geo.reach()).filter(|&x| !volume::is_set(&image, geo, x)).collect();
        for count in 0..=clear.len() {
            let bytes = if count == 0 { 0 } else { clear[count - 1] / 8 + 1 };
            assert_eq!(room(&image, K, count as u32), Ok(Room { enough: true, bytes: bytes as u32 }));
        }
        let all = geo.reach().div_ceil(8) as u32;
        for count in [clear.len() as u32 + 1, u32::MAX] {
            assert_eq!(room(&image, K, count), Ok(Room { enough: false, bytes: all }));
        }
    }
    assert_eq!(room(&[], K, 0), Err(Refusal::BadImage));
    assert_eq!(room(&[0; 512 * 128], K, 0), Err(Refusal::NotMfs));
}
