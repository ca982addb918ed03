//! Sizes, positions and buffers at every edge, one after the other: block ends, the file's end, the last free block, the record that just
//! fits, the name that just fits.
use crate::call::{Call, Place, Seek};
use crate::original::{original, Original};
use crate::party::{LIBRARY, MODEL};
use crate::sides::Verdict;
use crate::tally::Tally;
use crate::trial::{Found, Start};
use volumes::{Geometry, Rng, Style, Tree, CAPACITY, HEADER, ROOT};

const K: u32 = 8;
const BLOCKS: u32 = 4107;
const SIZES: [u32; 10] = [0, 1, 507, 508, 509, 1015, 1016, 1017, 1524, 1525];
/// Blocks that are left free in reach.
const FREE: [u32; 5] = [0, 1, 2, 3, 40];
/// Bytes of a listing's record before the name.
const RECORD: usize = 14;
/// Lengths of two names that don't fit into one block.
const FIRST: usize = 230;
const SECOND: usize = 245;

/// Compares reads, writes, listings and creates at their edges.
pub fn compare_edges(tally: &mut Tally) -> Result<(), Box<Found>> {
    let mut original = original(K);
    let mut judge = Judge { original: original.as_mut(), tally };
    judge.reads()?;
    judge.writes()?;
    judge.patches()?;
    judge.listings()?;
    judge.creates()?;
    judge.accents()
}

struct Judge<'a> {
    original: &'a mut dyn Original,
    tally: &'a mut Tally,
}

impl Judge<'_> {
    fn compare(&mut self, start: &Start, calls: Vec<Call>) -> Result<(), Box<Found>> {
        let mut sides = start.sides(self.original);
        for (number, call) in calls.iter().enumerate() {
            let verdict = sides.step(call);
            self.tally.count(call, &verdict);
            if let Verdict::Differs(difference) = verdict {
                return Err(Box::new(start.shorten(calls[..=number].to_vec(), difference, self.original)));
            }
        }
        Ok(())
    }

    /// Names of characters of two, three and four bytes, the longest ones too: created, listed, opened, seen and deleted.
    fn accents(&mut self) -> Result<(), Box<Found>> {
        let mut tree = Tree::new();
        tree.dir(ROOT, b"e", 1);
        let start = laid(tree, None, "an empty directory");
        let long = ["é".repeat(127) + "e", "€".repeat(85), "😀".repeat(63) + "€"];
        let short = [
            "é",
            "ø",
            "ü\u{301}",
            "€",
            "😀",
            "\u{80}",
            "\u{9f}",
            "\u{7ff}",
            "\u{800}",
            "\u{d7ff}",
            "\u{e000}",
            "\u{ffff}",
            "\u{10000}",
            "\u{10ffff}",
        ];
        let names = short.iter().map(|name| name.to_string()).chain(long);
        names.into_iter().try_for_each(|name| self.compare(&start, life_of(name.as_bytes())))
    }

    /// Every size, position and buffer.
    fn reads(&mut self) -> Result<(), Box<Found>> {
        let start = files(0);
        let mut calls = Vec::new();
        for size in SIZES {
            calls.push(Call::Open { slot: 0, place: file_of(size) });
            for position in positions(size) {
                let left = (size - position) as usize;
                for len in lens().into_iter().chain([left.saturating_sub(1), left, left + 1]) {
                    calls.push(Call::Seek { slot: 0, to: Seek::Start(position) });
                    calls.push(Call::Read { slot: 0, len });
                }
            }
        }
        self.compare(&start, calls)
    }

    /// Every size, position and length, and the lengths that take the last free block or one byte more.
    fn writes(&mut self) -> Result<(), Box<Found>> {
        for free in FREE {
            let start = files(free);
            for size in SIZES {
                for position in positions(size) {
                    let blocks = size.div_ceil(CAPACITY as u32).max(1) + free;
                    let all = blocks as usize * CAPACITY - position as usize;
                    for len in lens().into_iter().chain([all.saturating_sub(1), all, all + 1]) {
                        self.compare(&start, write_and_look(size, position, len))?;
                    }
                }
            }
        }
        Ok(())
    }

    /// Bytes inside files of every size, from every position and of every length that ends in the file, and of one byte more.
    fn patches(&mut self) -> Result<(), Box<Found>> {
        let by = if LIBRARY.known().patch { LIBRARY } else { MODEL };
        let start = Start { by, ..files(0) };
        for size in SIZES {
            for position in positions(size) {
                let left = (size - position) as usize;
                for len in lens().into_iter().filter(|&len| len <= left).chain([left + 1]) {
                    self.compare(&start, patch_and_look(size, position, len))?;
                }
            }
        }
        Ok(())
    }

    /// Every first entry, and buffers for so many records, one byte more and less.
    fn listings(&mut self) -> Result<(), Box<Found>> {
        let names: Vec<Vec<u8>> = (0..9).map(|number| vec![b'a' + number; 1 + 30 * number as usize]).collect();
        let mut tree = Tree::new();
        let dir = tree.dir(ROOT, b"d", 1);
        for name in &names {
            tree.file(dir, name, 2, 0);
        }
        let start = laid(tree, None, "a directory of nine entries");
        let mut calls = Vec::new();
        for from in 0..=names.len() {
            for end in from..=names.len() {
                let exact: usize = names[from..end].iter().map(|name| RECORD + name.len()).sum();
                for len in [exact.saturating_sub(1), exact, exact + 1] {
                    calls.push(Call::List { page: 0, place: at(b"/d"), from: from as u32, len });
                    calls.push(Call::ListOn { page: 0, len });
                }
            }
        }
        self.compare(&start, calls)
    }

    /// Names that end just before, at and after a block's end, in a directory of one block and of two, with blocks left or too few.
    fn creates(&mut self) -> Result<(), Box<Found>> {
        for in_second in [0, 30, 236] {
            for free in FREE {
                let start = one_directory(in_second, free);
                for end in 500..512usize {
                    for used in [HEADER + FIRST, HEADER + SECOND, HEADER + in_second] {
                        let len = end.saturating_sub(used + HEADER);
                        if (1..=255).contains(&len) {
                            self.compare(&start, create_and_look(&vec![b'n'; len]))?;
                        }
                    }
                }
            }
        }
        Ok(())
    }
}

/// A directory `e` with a name in its first block, and, if there is to be one in its second, one more before it.
fn one_directory(in_second: usize, free: u32) -> Start {
    let mut tree = Tree::new();
    let dir = tree.dir(ROOT, b"e", 1);
    tree.file(dir, &[b'x'; FIRST], 2, 0);
    if in_second > 0 {
        tree.file(dir, &[b'y'; SECOND], 2, 0);
        tree.file(dir, &vec![b'z'; in_second], 2, 0);
    }
    laid(tree, Some(free), "a directory of one block or two")
}

fn positions(size: u32) -> impl Iterator<Item = u32> {
    SIZES.into_iter().filter(move |&position| position <= size)
}

fn lens() -> Vec<usize> {
    SIZES.iter().map(|&size| size as usize).collect()
}

fn write_and_look(size: u32, position: u32, len: usize) -> Vec<Call> {
    let place = file_of(size);
    vec![
        Call::Open { slot: 0, place: place.clone() },
        Call::Seek { slot: 0, to: Seek::Start(position) },
        Call::Write { slot: 0, len, seed: 1, time: 1_700_000_000 },
        Call::Write { slot: 0, len: 1, seed: 2, time: 1_700_000_001 },
        Call::Seek { slot: 0, to: Seek::Start(0) },
        Call::Read { slot: 0, len: position as usize + len + 2 },
        Call::Info { place },
        Call::Usage,
    ]
}

/// Two patches, one behind the other, and then another handle on the file, which is current all the same.
fn patch_and_look(size: u32, position: u32, len: usize) -> Vec<Call> {
    let place = file_of(size);
    vec![
        Call::Open { slot: 0, place: place.clone() },
        Call::Open { slot: 1, place: place.clone() },
        Call::Seek { slot: 0, to: Seek::Start(position) },
        Call::Patch { slot: 0, len, seed: 1, time: 1_700_000_000 },
        Call::Patch { slot: 0, len: 1, seed: 2, time: 1_700_000_001 },
        Call::Read { slot: 1, len: size as usize + 1 },
        Call::Info { place },
        Call::Usage,
    ]
}

fn create_and_look(name: &[u8]) -> Vec<Call> {
    let place = at(&[b"/e/", name].concat());
    vec![
        Call::CreateFile { slot: 0, place: place.clone(), time: 1_700_000_000 },
        Call::Info { place: at(b"/e") },
        Call::List { page: 0, place: at(b"/e"), from: 0, len: 1000 },
        Call::Delete { place, time: 1_700_000_001 },
    ]
}

/// A file of that name, and then a directory with a file of that name in it.
fn life_of(name: &[u8]) -> Vec<Call> {
    let file = at(&[b"/e/", name].concat());
    let dir = Place { cwd: b"/e".to_vec(), path: [name, b"/"].concat() };
    vec![
        Call::CreateFile { slot: 0, place: file.clone(), time: 1_700_000_000 },
        Call::Write { slot: 0, len: 600, seed: 1, time: 1_700_000_001 },
        Call::CreateDir { place: dir.clone(), time: 1_700_000_002 },
        Call::List { page: 0, place: at(b"/e"), from: 0, len: 1000 },
        Call::Info { place: file.clone() },
        Call::Open { slot: 1, place: Place { cwd: b"/e/".to_vec(), path: name.to_vec() } },
        Call::Read { slot: 1, len: 700 },
        Call::Delete { place: file.clone(), time: 1_700_000_003 },
        Call::CreateDir { place: dir.clone(), time: 1_700_000_004 },
        Call::CreateFile { slot: 0, place: at(&[b"/e/", name, b"/", name].concat()), time: 1_700_000_005 },
        Call::List { page: 0, place: dir.clone(), from: 0, len: 1000 },
        Call::Delete { place: at(&[b"/e/", name, b"/", name].concat()), time: 1_700_000_006 },
        Call::Delete { place: dir, time: 1_700_000_007 },
        Call::List { page: 0, place: at(b"/e"), from: 0, len: 1000 },
        Call::Usage,
    ]
}

/// A volume with a file of each size.
fn files(free: u32) -> Start {
    let mut tree = Tree::new();
    for size in SIZES {
        tree.file(ROOT, size.to_string().as_bytes(), 1, size);
    }
    laid(tree, Some(free), "files of each size")
}

fn file_of(size: u32) -> Place {
    at(format!("/{size}").as_bytes())
}

fn laid(tree: Tree, free: Option<u32>, what: &str) -> Start {
    let geometry = Geometry::new(K, BLOCKS).expect("a volume of that size");
    let style = Style { free, stale: true, ..Style::PLAIN };
    let image = tree.lay(geometry, style, &mut Rng::new(1)).expect("the tree fits").image;
    let free = free.map_or(String::new(), |free| format!(", {free} blocks free in reach"));
    Start { by: LIBRARY, k: K, image, what: format!("{what}{free}"), raw: false }
}

fn at(path: &[u8]) -> Place {
    Place { cwd: b"/".to_vec(), path: path.to_vec() }
}
