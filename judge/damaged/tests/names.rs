//! Every sequence of one and two bytes, and of three and four at the edges of UTF-8's table, as a name on a card (the check, 17) and in a
//! path (open, 4): the library answers what the model does, and takes what RFC 3629's table allows.
use mfs::raw;
use model::{Answer, Refusal, NAME_LEN};
use volumes::{Geometry, Rng, Style, Tree, BLOCK_SIZE, HEADER, ROOT};

/// The size code of the images: blocks of 512 bytes.
const CODE: u32 = mfs::CODE_512;

const K: u32 = 8;

/// The edges of the ranges that a first byte may be in, with a byte before and behind.
const FIRST: [u8; 27] = [
    0x1f, 0x20, 0x2e, 0x2f, 0x30, 0x7e, 0x7f, 0x80, 0xbf, 0xc0, 0xc1, 0xc2, 0xdf, 0xe0, 0xe1, 0xec, 0xed, 0xee, 0xef, 0xf0, 0xf1,
    0xf3, 0xf4, 0xf5, 0xf7, 0xf8, 0xff,
];
/// The same of the bytes that follow.
const LATER: [u8; 11] = [0x00, 0x2f, 0x41, 0x7f, 0x80, 0x8f, 0x90, 0x9f, 0xa0, 0xbf, 0xc0];

/// A card with one file, whose name may be overwritten.
struct Card {
    image: Vec<u8>,
    name_at: usize,
}

impl Card {
    fn new(name_len: usize, blocks: u32) -> Card {
        let mut tree = Tree::new();
        tree.file(ROOT, &vec![b'x'; name_len], 1, 3);
        let geometry = Geometry::new(K, blocks).expect("a volume of that size");
        let image = tree.lay(geometry, Style::PLAIN, &mut Rng::new(1)).expect("the tree fits").image;
        Card { image, name_at: geometry.data() as usize * BLOCK_SIZE + 4 + HEADER }
    }

    /// Gives the file that name; the check and an open of its path say the same as the model. Whether the check takes it.
    fn judge(&mut self, name: &[u8]) -> bool {
        self.image[self.name_at..][..name.len()].copy_from_slice(name);
        let (mut ours, mut theirs) = ([0; 1024], [0; 1024]);
        let checked = unsafe { raw::mfs_c_check(self.image.as_ptr(), self.image.len(), K, CODE, ours.as_mut_ptr(), ours.len()) };
        assert_eq!(checked, number(&model::check(&self.image, K, &mut theirs)), "the check of a card with the name {name:x?}");
        assert_eq!(ours, theirs, "the work buffer for the name {name:x?}");
        let path = [b"/", name].concat();
        let opened = model::open(&self.image, K, b"/", &path);
        assert_eq!(self.open(b"/", &path), number(&opened), "open of {path:x?}");
        checked == 0
    }

    fn open(&self, cwd: &[u8], path: &[u8]) -> u32 {
        let (mut handle, mut name, mut len) = ([0; 4], [0; NAME_LEN], 0);
        let (image, size) = (self.image.as_ptr(), self.image.len());
        unsafe {
            raw::mfs_c_open(
                image,
                size,
                K,
                CODE,
                cwd.as_ptr(),
                cwd.len(),
                path.as_ptr(),
                path.len(),
                &mut handle,
                &mut name,
                &mut len,
            )
        }
    }

    fn create(&mut self, path: &[u8]) -> u32 {
        let (mut work, mut handle, mut name, mut len) = ([0; 1024], [0; 4], [0; NAME_LEN], 0);
        let (image, size) = (self.image.as_mut_ptr(), self.image.len());
        let (root, time) = (b"/", 1_700_000_000);
        unsafe {
            raw::mfs_c_create_file(
                image,
                size,
                K,
                CODE,
                root.as_ptr(),
                1,
                path.as_ptr(),
                path.len(),
                time,
                work.as_mut_ptr(),
                work.len(),
                &mut handle,
                &mut name,
                &mut len,
            )
        }
    }
}

fn number<T>(answer: &Answer<T>) -> u32 {
    answer.as_ref().err().map_or(0, |refusal| refusal.number())
}

/// How many of these sequences are names.
fn taken(len: usize, sequences: impl Iterator<Item = Vec<u8>>) -> usize {
    let mut card = Card::new(len, 16);
    sequences.filter(|sequence| card.judge(sequence)).count()
}

fn longer(sequences: Vec<Vec<u8>>, bytes: &[u8]) -> Vec<Vec<u8>> {
    sequences.iter().flat_map(|sequence| bytes.iter().map(move |&byte| [&sequence[..], &[byte]].concat())).collect()
}

#[test]
fn every_name_of_one_and_of_two_bytes() {
    let all: Vec<u8> = (0..=255).collect();
    let one = longer(vec![Vec::new()], &all);
    assert_eq!(taken(1, one.clone().into_iter()), 94, "0x20 to 0x7E but for the slash");
    assert_eq!(taken(2, longer(one, &all).into_iter()), 94 * 94 + 30 * 64, "two plain bytes, or 0xC2 to 0xDF and a tail byte");
}

#[test]
fn names_of_three_and_of_four_bytes_at_the_edges() {
    let plain = |byte: &u8| (0x20..0x7f).contains(byte) && *byte != b'/';
    let allowed = |name: &Vec<u8>| std::str::from_utf8(name).is_ok() && name.iter().all(|byte| *byte >= 0x80 || plain(byte));
    let three = longer(longer(longer(vec![Vec::new()], &FIRST), &LATER), &LATER);
    let four = longer(three.clone(), &LATER);
    let after_a_letter = longer(longer(longer(vec![b"a".to_vec()], &FIRST), &LATER), &LATER);
    for names in [three, four, after_a_letter] {
        let good = names.iter().filter(|name| allowed(name)).count();
        assert!(good > 20);
        assert_eq!(taken(names[0].len(), names.into_iter()), good);
    }
}

#[test]
fn a_name_of_255_bytes_may_not_end_inside_a_character() {
    let whole = ["x".repeat(253).as_bytes(), b"\xc3\xa9"].concat();
    let cut = ["x".repeat(254).as_bytes(), b"\xc3"].concat();
    let mut card = Card::new(255, 16);
    assert!(card.judge(&whole));
    assert!(!card.judge(&cut));
    for (name, refusal) in [
        (whole.clone(), 0),
        (cut.clone(), Refusal::BadPath.number()),
        // One byte more: the path is text, and the name too long; or the path is no text, which comes first.
        ([&cut[..], b"\xa9"].concat(), Refusal::BadName.number()),
        ([&whole[..], b"\xc3"].concat(), Refusal::BadPath.number()),
    ] {
        assert_eq!(Card::new(1, 4107).create(&[b"/", &name[..]].concat()), refusal, "a name of {} bytes", name.len());
    }
}

#[test]
fn a_character_does_not_go_on_from_the_working_directory_into_the_path() {
    let card = Card::new(1, 16);
    let bad = Refusal::BadPath.number();
    for (cwd, path, refusal) in [
        (&b"/\xc3"[..], &b"\xa9"[..], bad),
        (b"/\xc3/", b"\xa9", bad),
        (b"/\xc3\xa9", b"x", Refusal::NotFound.number()),
        (b"/\xc3\xa9/", b"x", Refusal::NotFound.number()),
        // It is not looked at where the path starts with a slash.
        (b"/\xc3", b"/x", 0),
        (b"\x7f", b"/x", 0),
    ] {
        assert_eq!(card.open(cwd, path), refusal, "{cwd:x?} {path:x?}");
        assert_eq!(number(&model::open(&card.image, K, cwd, path)), refusal, "{cwd:x?} {path:x?}");
    }
}
