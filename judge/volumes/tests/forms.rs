//! Cards of version 1 and of 1,024-byte blocks are what they say they are.
use std::collections::HashSet;
use volumes::{blank, entries_of, fill_of, random_of, Form, Geometry, Kind, Rng, Size, Style, Tree, Volume, Wish, ROOT};

fn made(form: Form, seed: u64) -> Volume {
    let mut rng = Rng::new(seed);
    let wish = Wish {
        k: *rng.pick(&[1, 8, 8192]),
        size: *rng.pick(&[Size::Small, Size::Usual, Size::Large]),
        entries: rng.below(60) as u32,
        depth: rng.below(17) as u32,
        free: rng.one_in(3).then(|| rng.below(5) as u32),
    };
    random_of(form, wish, &mut rng)
}

/// The superblock says the form, a reader finds the list, and just the blocks of the list and of the root have their bits set.
fn judge(volume: &Volume) {
    let Volume { image, geometry, entries } = volume;
    let form = geometry.form();
    assert_eq!(Geometry::read(image, geometry.k(), u32::from(form.code())), Some(*geometry));
    assert_eq!(entries_of(image, *geometry), *entries);
    let root = volumes::chain(image, *geometry, geometry.data());
    let blocks: Vec<u32> = entries.iter().flat_map(|entry| entry.chain.clone()).chain(root).collect();
    let distinct: HashSet<u32> = blocks.iter().copied().collect();
    assert_eq!(blocks.len(), distinct.len());
    let set: HashSet<u32> = (geometry.data()..geometry.blocks()).filter(|&addr| geometry.taken(image, addr)).collect();
    assert_eq!(set, distinct.iter().copied().filter(|&addr| geometry.has_bit(addr)).collect());
    let at = geometry.place(geometry.k()) + 14;
    assert_eq!(image[at..at + 4], (geometry.data() + set.len() as u32).to_be_bytes());
    let too_full = |entry: &&volumes::Entry| entry.kind == Kind::Dir && fills(volume, entry.chain[0]) >= form.capacity();
    assert_eq!(entries.iter().find(too_full), None);
}

/// The fullest block of a directory.
fn fills(volume: &Volume, dir: u32) -> usize {
    fill_of(&volume.image, volume.geometry, dir).into_iter().max().unwrap_or(0)
}

#[test]
fn cards_at_random() {
    for form in [Form::V1, Form::Large] {
        let cards: Vec<Volume> = (0..40).map(|seed| made(form, seed)).collect();
        for volume in &cards {
            judge(volume);
            let Volume { geometry, entries, .. } = volume;
            assert!(entries.iter().flat_map(|entry| &entry.chain).all(|&addr| geometry.has_bit(addr)));
        }
        let some = |found: &dyn Fn(Geometry) -> bool| cards.iter().any(|card| found(card.geometry));
        assert!(some(&|g| g.reach() == g.data_blocks()));
        assert!(some(&|g| g.reach() < g.data_blocks()));
        assert!(some(&|g| g.data() > g.bitmap() + 1));
        assert_eq!(some(&|g| g.with_bit() + 4000 < g.data_blocks()), form == Form::V1);
        assert_eq!(some(&|g| g.reach() == 0), form == Form::Large);
    }
}

#[test]
fn a_block_is_moved_with_all_that_leads_to_it() {
    let mut tree = Tree::new();
    let dir = tree.dir(ROOT, b"d", 1);
    tree.file(dir, b"a", 2, 1200);
    tree.file(ROOT, b"b", 3, 0);
    let geometry = Geometry::of_form(Form::V1, 8, 8203).unwrap();
    let mut volume = tree.lay(geometry, Style::PLAIN, &mut Rng::new(1)).unwrap();
    for (entry, place, to) in [(1, 1, 4106), (1, 2, 4107), (1, 0, 8202), (0, 0, 5000), (2, 0, 5001)] {
        volume.move_block(entry, place, to);
        assert_eq!(volume.entries[entry].chain[place], to);
        judge(&volume);
    }
}

#[test]
fn a_superblock_may_say_anything() {
    let image = blank(Form::Large, 8, 8204, 40);
    assert_eq!(image.len(), 40 * 1024);
    assert_eq!(image[8 * 1024..8 * 1024 + 18], *b"MOROS FS\x02\x01\x00\x00\x20\x0c\x00\x00\x00\x00");
    assert_eq!(blank(Form::V1, 0, 7, 1)[..14], *b"MOROS FS\x01\x00\x00\x00\x00\x07");
}
