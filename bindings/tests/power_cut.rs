//! What a cut in the middle of storing a call's changed blocks leaves, as the documentation of the crate says it: each
//! set of the changed blocks is stored and the others are not, a block whole or not at all.
mod common;

use common::*;
use mfs::{Refusal, Volume, VolumeRef, BLOCK_SIZE};

/// Files that no call here changes, with what they hold, in the root, beside the changed file and in other directories.
fn others() -> Vec<(String, Vec<u8>)> {
    let bytes = |len: usize, seed: usize| (0..len).map(|at| (at * 7 + seed) as u8).collect();
    let mut files: Vec<(String, Vec<u8>)> =
        [("/a", 3), ("/z", 1000), ("/d/a", 600), ("/d/e/deep", 20)].map(|(path, len)| (path.to_owned(), bytes(len, len))).into();
    // The directory of the changed file has several blocks.
    files.extend((0..60).map(|number| (format!("/d/n{number:0>30}"), bytes(number, number))));
    files
}

fn volume_of_others() -> Vec<u8> {
    let mut image = formatted(ROOMY);
    let mut volume = Volume::new(&mut image, K, CODE);
    volume.create_dir("/d", 1).unwrap();
    volume.create_dir("/d/e", 1).unwrap();
    for (number, (path, bytes)) in others().into_iter().enumerate() {
        if number == 30 {
            volume.write_file("/d/f", &[b'f'; 1200], 3).unwrap();
        }
        volume.write_file(path, &bytes, 2).unwrap();
    }
    image
}

/// The answers of the check, one for each set of the changed blocks that could be stored; all other files are read from each.
fn after_each_cut<T>(call: impl FnOnce(&mut Volume<'_>) -> Result<T, Refusal>) -> Vec<Result<(), Refusal>> {
    let old = volume_of_others();
    let mut new = old.clone();
    assert!(call(&mut Volume::new(&mut new, K, CODE)).is_ok());
    let changed: Vec<usize> = (0..ROOMY).filter(|&block| of(&old, block) != of(&new, block)).collect();
    assert!((1..=10).contains(&changed.len()), "{} blocks are changed", changed.len());
    let others = others();
    let stored_in = |set: usize| {
        let mut image = old.clone();
        for (_, &block) in changed.iter().enumerate().filter(|(place, _)| set >> place & 1 == 1) {
            put(&mut image, block * BLOCK_SIZE, of(&new, block));
        }
        let volume = VolumeRef::new(&image, K, CODE);
        for (path, bytes) in &others {
            assert_eq!(volume.read_file(path).as_ref(), Ok(bytes), "{path} with set {set:b} of {changed:?}");
        }
        volume.check()
    };
    let answers: Vec<_> = (0..1 << changed.len()).map(stored_in).collect();
    assert_eq!((answers[0], answers[answers.len() - 1]), (Ok(()), Ok(())), "nothing stored, and all");
    answers
}

fn of(image: &[u8], block: usize) -> &[u8] {
    &image[block * BLOCK_SIZE..(block + 1) * BLOCK_SIZE]
}

/// Some cuts leave a volume that the check refuses, by no other number than 17.
#[track_caller]
fn assert_may_be_damaged(answers: &[Result<(), Refusal>]) {
    assert!(answers.contains(&Err(Refusal::Damaged)));
    assert!(answers.iter().all(|answer| [Ok(()), Err(Refusal::Damaged)].contains(answer)));
}

#[test]
fn a_create_and_a_delete_may_be_cut_into_damage() {
    assert_may_be_damaged(&after_each_cut(|volume| volume.create_file("/d/new", 9)));
    assert_may_be_damaged(&after_each_cut(|volume| volume.create_dir("/d/e/new", 9)));
    assert_may_be_damaged(&after_each_cut(|volume| volume.delete("/d/f", 9)));
    // A name that wants a block of its own.
    assert_may_be_damaged(&after_each_cut(|volume| volume.create_file(format!("/d/{:x>255}", ""), 9)));
}

#[test]
fn a_write_that_adds_or_frees_blocks_may_be_cut_into_damage() {
    assert_may_be_damaged(&after_each_cut(|volume| volume.write_file("/d/f", &[b'g'; 2000], 9)));
    assert_may_be_damaged(&after_each_cut(|volume| volume.write_file("/d/f", b"short", 9)));
}

#[test]
fn a_write_in_the_blocks_that_are_there_is_never_cut_into_damage() {
    for bytes in [[b'g'; 1200].as_slice(), &[b'g'; 1100], &[b'g'; 1524]] {
        let answers = after_each_cut(|volume| volume.write_file("/d/f", bytes, 9));
        assert!(answers.iter().all(|answer| *answer == Ok(())));
    }
}
