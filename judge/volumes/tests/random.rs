//! Volumes made at random are what they say they are.
use std::collections::HashSet;
use volumes::{entries, fill_of, random, Kind, Rng, Size, Volume, Wish, CAPACITY};

fn made(seed: u64) -> Volume {
    let mut rng = Rng::new(seed);
    let wish = Wish {
        k: *rng.pick(&[1, 8, 8192]),
        size: *rng.pick(&[Size::Small, Size::Usual, Size::Large]),
        entries: rng.below(120) as u32,
        depth: rng.below(17) as u32,
        free: rng.one_in(3).then(|| rng.below(5) as u32),
    };
    random(wish, &mut rng)
}

#[test]
fn the_list_is_what_a_reader_finds() {
    for seed in 0..150 {
        let volume = made(seed);
        assert_eq!(volume.entries, entries(&volume.image, volume.geometry.k()), "seed {seed}");
    }
}

#[test]
fn a_bit_for_each_block_and_no_block_twice() {
    for seed in 0..150 {
        let Volume { image, geometry, entries } = made(seed);
        let root = fill_of(&image, geometry, geometry.data()).len();
        let blocks: Vec<u32> = entries.iter().flat_map(|entry| entry.chain.clone()).collect();
        let distinct: HashSet<u32> = blocks.iter().copied().collect();
        assert_eq!(blocks.len(), distinct.len(), "seed {seed}");
        assert!(blocks.iter().all(|&addr| geometry.taken(&image, addr)), "seed {seed}");
        let all = geometry.data()..geometry.blocks();
        assert_eq!(all.filter(|&addr| geometry.taken(&image, addr)).count(), root + blocks.len(), "seed {seed}");
        let at = geometry.k() as usize * 512 + 14;
        let used = geometry.data() as usize + root + blocks.len();
        assert_eq!(image[at..at + 4], (used as u32).to_be_bytes(), "seed {seed}");
    }
}

#[test]
fn as_full_as_asked() {
    for free in 0..5 {
        let wish = Wish { k: 8, size: Size::Usual, entries: 40, depth: 3, free: Some(free) };
        let volume = random(wish, &mut Rng::new(u64::from(free)));
        assert_eq!(volume.geometry.free_in_reach(&volume.image).count(), free as usize);
    }
}

#[test]
fn the_kinds_of_volumes_that_are_wanted_occur() {
    let volumes: Vec<Volume> = (0..150).map(made).collect();
    let some = |found: &dyn Fn(&Volume) -> bool| volumes.iter().any(found);
    assert!(some(&|v| v.geometry.reach() == 0 && v.entries.len() > 20));
    assert!(some(&|v| v.geometry.blocks() > 8200 && v.geometry.reach() < v.geometry.data_blocks()));
    assert!(some(&|v| v.entries.iter().any(|entry| entry.kind == Kind::Dir && entry.depth == 16)));
    assert!(some(&|v| v.entries.iter().any(|entry| entry.kind == Kind::Device && entry.chain.len() == 4)));
    assert!(some(&|v| v.image.len() > v.geometry.blocks() as usize * 512));
    let first_block_empty = |v: &Volume| {
        let fill = fill_of(&v.image, v.geometry, v.geometry.data());
        fill.len() > 1 && fill[0] == 0
    };
    assert!(some(&first_block_empty));
    let filled_to_the_end = |v: &Volume| fill_of(&v.image, v.geometry, v.geometry.data()).contains(&(CAPACITY - 1));
    assert!(some(&filled_to_the_end));
}
