//! All short paths over a few letters, from several working directories.
use crate::call::{Call, Place};
use crate::original::original;
use crate::party::LIBRARY;
use crate::sides::Verdict;
use crate::tally::Tally;
use crate::trial::{Found, Start};
use volumes::{Geometry, Rng, Style, Tree, Volume, ROOT};

const K: u32 = 8;
const LETTERS: [u8; 4] = *b"/ab.";
/// Working directories: directories in several spellings, a file, one that isn't there, one that doesn't start with a slash.
const DIRS: [&str; 9] = ["/", "/a", "/a/", "/a/a", "/.", "//", "/b", "/none", "a"];

/// Compares the lookups of every path of up to six bytes, and creates and deletes of every path of up to four.
pub fn compare_paths(tally: &mut Tally) -> Result<(), Box<Found>> {
    compare_each(small_volume(128), &all_paths(6), &lookups, tally)?;
    compare_each(small_volume(4107), &all_paths(4), &changes, tally)
}

fn compare_each(
    volume: Volume,
    paths: &[Vec<u8>],
    calls: &dyn Fn(Place) -> Vec<Call>,
    tally: &mut Tally,
) -> Result<(), Box<Found>> {
    let mut original = original(K);
    let what = "the volume of short names".to_string();
    let start = Start { by: LIBRARY, k: K, image: volume.image, what, raw: false };
    let mut sides = start.sides(original.as_mut());
    let mut changed = Vec::new();
    for cwd in DIRS {
        for path in paths {
            for call in calls(Place { cwd: cwd.into(), path: path.clone() }) {
                let verdict = sides.step(&call);
                tally.count(&call, &verdict);
                if let Verdict::Differs(difference) = verdict {
                    changed.push(call);
                    return Err(Box::new(start.shorten(changed, difference, original.as_mut())));
                }
                if call.changes() {
                    changed.push(call);
                }
            }
        }
    }
    Ok(())
}

fn lookups(place: Place) -> Vec<Call> {
    vec![
        Call::Open { slot: 0, place: place.clone() },
        Call::Info { place: place.clone() },
        Call::List { page: 0, place, from: 0, len: 400 },
    ]
}

/// What was vacant is so again after these, and a file that was there is not.
fn changes(place: Place) -> Vec<Call> {
    vec![
        Call::CreateDir { place: place.clone(), time: 1 },
        Call::CreateFile { slot: 0, place: place.clone(), time: 2 },
        Call::Delete { place: place.clone(), time: 3 },
        Call::CreateFile { slot: 0, place, time: 4 },
    ]
}

/// All byte strings over the letters of up to `longest` bytes.
fn all_paths(longest: usize) -> Vec<Vec<u8>> {
    let mut paths = vec![Vec::new()];
    let mut start = 0;
    for _ in 0..longest {
        let end = paths.len();
        for shorter in start..end {
            for letter in LETTERS {
                paths.push([&paths[shorter][..], &[letter]].concat());
            }
        }
        start = end;
    }
    paths
}

/// A volume with entries of such names: dots are plain names.
fn small_volume(blocks: u32) -> Volume {
    let mut tree = Tree::new();
    let a = tree.dir(ROOT, b"a", 1);
    let aa = tree.dir(a, b"a", 2);
    let aab = tree.dir(aa, b"b", 3);
    let a_dot = tree.dir(a, b".", 4);
    let dot = tree.dir(ROOT, b".", 5);
    let dots = tree.dir(ROOT, b"..", 6);
    let ab = tree.dir(ROOT, b"ab", 7);
    for (dir, names) in [
        (ROOT, &["b", ".a", "aa", "..."][..]),
        (a, &["b", "..", "ab"]),
        (aa, &["a", ".", "bb"]),
        (aab, &["a", "b"]),
        (a_dot, &["a", "."]),
        (dot, &["a", "b", "."]),
        (dots, &["a", ".."]),
        (ab, &["a", "b."]),
    ] {
        for (number, name) in names.iter().enumerate() {
            tree.file(dir, name.as_bytes(), 10 + number as u64, 300 * number as u32);
        }
    }
    tree.device(ROOT, b"a.", 20, 4, 2);
    let geometry = Geometry::new(K, blocks).expect("a volume of that size");
    tree.lay(geometry, Style::PLAIN, &mut Rng::new(1)).expect("the small tree fits")
}

#[cfg(test)]
mod tests {
    use super::*;

    #[test]
    fn every_path_once() {
        let mut paths = all_paths(6);
        assert_eq!(paths.len(), 1 + 4 + 16 + 64 + 256 + 1024 + 4096);
        paths.sort();
        paths.dedup();
        assert_eq!(paths.len(), 5461);
        assert!(paths.contains(&b"/a/../".to_vec()));
    }
}
