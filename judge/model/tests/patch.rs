//! The call that changes bytes inside a file: the buffer over what is there, the entry's time, and nothing else.
mod common;

use common::*;
use model::{Handle, Refusal};
use volumes::{chain, Form, Tree, Volume, ROOT};

const FORMS: [Form; 3] = [Form::V1, Form::V2, Form::Large];
const LATER: u64 = 0x0102_0304_0506_0708;

/// A file of more than three blocks, one of a block, one of no bytes, one in a directory.
fn card(form: Form) -> Volume {
    let mut tree = Tree::new();
    let capacity = form.capacity() as u32;
    tree.file(ROOT, b"long", 1, 3 * capacity + 100);
    tree.file(ROOT, b"block", 2, capacity);
    tree.file(ROOT, b"none", 3, 0);
    let dir = tree.dir(ROOT, b"old", 4);
    tree.file(dir, b"m1", 5, 20);
    laid(tree, form, if form == Form::V1 { 10 + 4098 } else { 60 })
}

fn patch(image: &mut [u8], form: Form, handle: &mut Handle, buf: &[u8]) -> model::Answer<usize> {
    model::patch(image, mount(form), handle, buf, LATER, &mut work())
}

/// The bytes that may change: those of the buffer's place in the chain, and the time in the entry.
fn expected(volume: &Volume, path: &[u8], position: usize, buf: &[u8]) -> Vec<u8> {
    let mut image = volume.image.clone();
    let (geometry, capacity) = (volume.geometry, volume.geometry.form().capacity());
    let entry = volume.entries.iter().find(|entry| entry.path == path).expect("the file is there");
    for (place, byte) in (position..).zip(buf) {
        image[geometry.place(entry.chain[place / capacity]) + 4 + place % capacity] = *byte;
    }
    let name = entry.name();
    let holder = chain(&image, geometry, entry.dir)[0];
    let block = &mut image[geometry.place(holder)..][..geometry.form().block_size()];
    let at = block.windows(name.len()).position(|bytes| bytes == name).expect("the name is there") - 18;
    block[at + 9..at + 17].copy_from_slice(&LATER.to_be_bytes());
    image
}

/// Positions and ends around the edges of the file's blocks, the file's own end among them.
fn edges(capacity: usize, size: usize) -> Vec<usize> {
    let mut edges = vec![0, 1, size / 2];
    for block in 1..=3 {
        edges.extend([block * capacity - 1, block * capacity, block * capacity + 1]);
    }
    edges.extend([size - 1, size]);
    edges.retain(|&place| place <= size);
    edges
}

#[test]
fn every_byte_is_determined() {
    for form in FORMS {
        let volume = card(form);
        for (path, size) in [(&b"/long"[..], 3 * form.capacity() + 100), (b"/block", form.capacity()), (b"/old/m1", 20)] {
            for position in edges(form.capacity(), size) {
                for end in edges(form.capacity(), size).into_iter().filter(|&end| end > position) {
                    let buf: Vec<u8> = (0..end - position).map(|i| (i % 251) as u8).collect();
                    let mut image = volume.image.clone();
                    let mut handle = opened(&image, mount(form), path, position as u32);
                    let moved = Handle { position: end as u32, ..handle.clone() };
                    assert_eq!(patch(&mut image, form, &mut handle, &buf), Ok(buf.len()), "{position} to {end}");
                    assert!(image == expected(&volume, path, position, &buf), "{position} to {end}");
                    assert_eq!(handle, moved);
                }
            }
        }
    }
}

/// A read after it gives the old bytes, the buffer, the old bytes; every handle of the file goes on.
#[test]
fn handles_stay_current() {
    for form in FORMS {
        let volume = card(form);
        let before = contents(&volume.image, mount(form), b"/long").expect("the file is there");
        let mut image = volume.image.clone();
        let mut other = opened(&image, mount(form), b"/long", 7);
        let mut handle = opened(&image, mount(form), b"/long", 500);
        assert_eq!(patch(&mut image, form, &mut handle, &[9; 600]), Ok(600));
        let after = [&before[..500], &[9; 600], &before[1100..]].concat();
        assert_eq!(contents(&image, mount(form), b"/long"), Ok(after.clone()));
        let mut buf = vec![0; after.len()];
        assert_eq!(model::read(&image, mount(form), &mut other, &mut buf), Ok(after.len() - 7));
        assert_eq!(buf[..after.len() - 7], after[7..]);
        let info = model::info(&image, mount(form), b"/", b"/long").expect("the file is there");
        assert_eq!((info.size as usize, info.time), (before.len(), LATER));
        assert_eq!(model::usage(&image, mount(form)), model::usage(&volume.image, mount(form)));
        let old = model::info(&image, mount(form), b"/", b"/old");
        assert_eq!(old, model::info(&volume.image, mount(form), b"/", b"/old"));
    }
}

#[test]
fn past_the_end() {
    for form in FORMS {
        let volume = card(form);
        let size = 3 * form.capacity() + 100;
        for (path, position, len) in [
            (&b"/long"[..], size, 1),
            (b"/long", size - 1, 2),
            (b"/long", 0, size + 1),
            (b"/none", 0, 1),
            (b"/block", form.capacity(), 1),
            (b"/block", form.capacity() - 1, 2),
            (b"/old/m1", 0, 21),
        ] {
            let mut image = volume.image.clone();
            let mut handle = opened(&image, mount(form), path, position as u32);
            let before = handle.clone();
            assert_eq!(patch(&mut image, form, &mut handle, &vec![1; len]), Err(Refusal::PastEnd), "{position}, {len}");
            assert!(image == volume.image && handle == before);
        }
    }
}

/// 1, 2, 3, 16, 17, 13, 11, 19.
#[test]
fn the_order_of_the_refusals() {
    let (form, volume) = (Form::V2, card(Form::V2));
    let mut image = volume.image.clone();
    let current = opened(&image, mount(form), b"/long", 0);
    let past = Handle { position: current.size, ..current.clone() };
    let stale = Handle { size: current.size + 1, ..past.clone() };
    let mut no_dir = Handle { dir: current.addr, ..past.clone() };
    let mut odd = Handle { position: current.size + 1, ..current.clone() };
    assert_eq!(patch(&mut image, form, &mut past.clone(), b"x"), Err(Refusal::PastEnd));
    assert_eq!(patch(&mut image, form, &mut stale.clone(), b"x"), Err(Refusal::Stale));
    assert_eq!(patch(&mut image, form, &mut no_dir, b"x"), Err(Refusal::Stale));
    assert_eq!(patch(&mut image, form, &mut odd, b"x"), Err(Refusal::Stale));
    assert_eq!(patch(&mut image, form, &mut stale.clone(), b""), Err(Refusal::EmptyWrite));
    assert_eq!(patch(&mut image, form, &mut past.clone(), b""), Err(Refusal::EmptyWrite));
    let short = |image: &mut [u8]| model::patch(image, mount(form), &mut stale.clone(), b"", LATER, &mut []);
    assert_eq!(short(&mut image), Err(Refusal::ShortWork));
    image[8 * 512 + 17] ^= 1;
    assert_eq!(short(&mut image), Err(Refusal::ShortWork));
    assert_eq!(patch(&mut image, form, &mut stale.clone(), b""), Err(Refusal::Damaged));
    assert_eq!(patch(&mut image, form, &mut current.clone(), b"x"), Err(Refusal::Damaged));
    image[8 * 512 + 10..8 * 512 + 14].fill(0xff);
    assert_eq!(short(&mut image), Err(Refusal::BadCount));
    image[8 * 512 + 8] = 3;
    assert_eq!(short(&mut image), Err(Refusal::NotMfs));
    assert_eq!(short(&mut image[..700]), Err(Refusal::BadImage));
}

/// A file whose bytes look like a directory leads no patch astray.
#[test]
fn a_directory_that_is_none() {
    let form = Form::V2;
    let volume = card(form);
    let mut image = volume.image.clone();
    let long = volume.entries.iter().find(|entry| entry.path == b"/long").expect("the file is there");
    let root = volume.geometry.place(volume.geometry.data());
    image.copy_within(root + 4..root + 512, volume.geometry.place(long.chain[0]) + 4);
    assert_eq!(checked(&image, mount(form)), Ok(()));
    let mut handle = opened(&image, mount(form), b"/block", 0);
    handle.dir = long.chain[0];
    assert_eq!(model::read(&image, mount(form), &mut handle.clone(), &mut [0; 3]), Ok(3), "a read does not look");
    assert_eq!(patch(&mut image, form, &mut handle, b"x"), Err(Refusal::Stale));
}

/// Whichever of the changed blocks reach the card: it is well formed, all other files are as they were, and this one's size and
/// chain, too. Its bytes are the old ones in the blocks that did not arrive.
#[test]
fn a_patch_that_is_torn() {
    for form in FORMS {
        let volume = card(form);
        let (geometry, size) = (volume.geometry, form.block_size());
        let mut whole = volume.image.clone();
        let mut handle = opened(&whole, mount(form), b"/long", 10);
        let len = 2 * form.capacity() + 50;
        assert_eq!(patch(&mut whole, form, &mut handle, &vec![0xc3; len]), Ok(len));
        let differs = |addr: &u32| whole[geometry.place(*addr)..][..size] != volume.image[geometry.place(*addr)..][..size];
        let changed: Vec<u32> = (0..geometry.blocks()).filter(differs).collect();
        assert_eq!(changed.len(), 4, "the entry's block and three of the file");
        for subset in 0..1u32 << changed.len() {
            let mut torn = volume.image.clone();
            for (_, &addr) in changed.iter().enumerate().filter(|(i, _)| subset >> i & 1 == 1) {
                let range = geometry.place(addr)..geometry.place(addr) + size;
                torn[range.clone()].copy_from_slice(&whole[range]);
            }
            assert_eq!(checked(&torn, mount(form)), Ok(()));
            let entries = volumes::entries_of(&torn, geometry);
            for (entry, before) in entries.iter().zip(&volume.entries) {
                assert_eq!((&entry.path, entry.size, &entry.chain), (&before.path, before.size, &before.chain));
            }
            for path in [&b"/block"[..], b"/none", b"/old/m1"] {
                assert_eq!(contents(&torn, mount(form), path), contents(&volume.image, mount(form), path));
            }
            assert_eq!(entries.len(), volume.entries.len());
        }
    }
}
