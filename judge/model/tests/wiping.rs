//! A block that is given back is zero afterwards, all of it: from a cut tail, from a deleted entry, from a directory that has a
//! block less. Nothing else is wiped.
mod common;

use common::*;
use model::{Known, Mount, Refusal};
use volumes::{chain, Form, Tree, Volume, ROOT};

const FORMS: [Form; 3] = [Form::V1, Form::V2, Form::Large];

/// Enough blocks for creates, in each form.
fn blocks(form: Form) -> u32 {
    match form {
        Form::V1 => 10 + 4098,
        Form::V2 => 4107,
        Form::Large => 8203,
    }
}

/// A file of four blocks, an empty directory, a device of three blocks, a file of no bytes; random bytes in what is free.
fn card(form: Form) -> Volume {
    let mut tree = Tree::new();
    tree.file(ROOT, b"m1", 1, 3 * form.capacity() as u32 + 1);
    tree.dir(ROOT, b"old", 2);
    tree.device(ROOT, b"clock", 3, 7, 3);
    tree.file(ROOT, b"m2", 4, 0);
    laid(tree, form, blocks(form))
}

fn chain_of(volume: &Volume, path: &[u8]) -> Vec<u32> {
    volume.entries.iter().find(|entry| entry.path == path).expect("the entry is there").chain.clone()
}

fn block<'a>(volume: &Volume, image: &'a [u8], addr: u32) -> &'a [u8] {
    &image[volume.geometry.place(addr)..][..volume.geometry.form().block_size()]
}

/// Exactly these blocks were given back, and are zero; all others that are free have the bytes that they had.
fn given_back(volume: &Volume, after: &[u8], freed: &[u32]) {
    let geometry = volume.geometry;
    for addr in geometry.data()..geometry.blocks() {
        if freed.contains(&addr) {
            assert!(!geometry.taken(after, addr) && geometry.taken(&volume.image, addr), "block {addr}");
            assert!(block(volume, &volume.image, addr).iter().any(|&byte| byte != 0), "something stood in block {addr}");
            assert!(block(volume, after, addr).iter().all(|&byte| byte == 0), "block {addr}");
        } else if !geometry.taken(after, addr) {
            assert!(!geometry.taken(&volume.image, addr), "block {addr} was not to be given back");
            assert!(block(volume, after, addr) == block(volume, &volume.image, addr), "block {addr} was free before");
        }
    }
    assert_eq!(checked(after, mount(geometry.form())), Ok(()));
}

#[test]
fn a_deleted_entry() {
    for form in FORMS {
        let mut volume = card(form);
        // So that there is something to wipe in the blocks of a directory and of an empty file, too.
        let empty = chain_of(&volume, b"/m2")[0];
        let at = volume.geometry.place(empty) + volume.geometry.form().block_size() - 1;
        volume.image[at] = 0x5a;
        for path in [&b"/m1"[..], b"/clock", b"/m2"] {
            let mut image = volume.image.clone();
            assert_eq!(model::delete(&mut image, mount(form), b"/", path, TIME, &mut work()), Ok(()));
            given_back(&volume, &image, &chain_of(&volume, path));
        }
    }
}

/// The first block of an emptied directory has at most the address of a next one; it is zero by then, and stays so.
#[test]
fn a_deleted_directory() {
    for form in FORMS {
        let volume = card(form);
        let mut image = volume.image.clone();
        assert_eq!(model::delete(&mut image, mount(form), b"/", b"/old", TIME, &mut work()), Ok(()));
        let addr = chain_of(&volume, b"/old")[0];
        assert!(block(&volume, &image, addr).iter().all(|&byte| byte == 0));
        assert!(!volume.geometry.taken(&image, addr));
    }
}

#[test]
fn a_cut_tail() {
    for form in FORMS {
        let volume = card(form);
        let blocks = chain_of(&volume, b"/m1");
        let capacity = form.capacity() as u32;
        for (position, kept) in
            [(0, 1), (capacity - 1, 1), (capacity, 2), (2 * capacity - 1, 2), (2 * capacity, 3), (3 * capacity, 4)]
        {
            let mut image = volume.image.clone();
            let mut handle = opened(&image, mount(form), b"/m1", position);
            assert_eq!(model::write(&mut image, mount(form), &mut handle, b"x", TIME, &mut work()), Ok(1));
            given_back(&volume, &image, &blocks[kept..]);
            // Behind the end, in the block that is kept, the old bytes stay.
            let end = (position + 1) as usize % capacity as usize;
            let last = blocks[kept - 1];
            if end > 0 {
                assert!(block(&volume, &image, last)[4 + end..] == block(&volume, &volume.image, last)[4 + end..]);
            }
        }
    }
}

/// A directory of three blocks, whose second is emptied: it is linked past, and its bytes go.
#[test]
fn a_directory_block_that_was_emptied() {
    for form in FORMS {
        let mut tree = Tree::new();
        let dir = tree.dir(ROOT, b"d", 1);
        let names: Vec<Vec<u8>> = (0..form.capacity() / 250 * 3).map(|number| vec![b'a' + number as u8; 230]).collect();
        for name in &names {
            tree.file(dir, name, 2, 0);
        }
        let mut volume = laid(tree, form, blocks(form));
        let dir = chain_of(&volume, b"/d");
        assert_eq!(dir.len(), 3);
        let in_each = names.len() / 3;
        let (last, others) = names[in_each..2 * in_each].split_last().expect("a name");
        for name in others {
            let path = [b"/d/", &name[..]].concat();
            model::delete(&mut volume.image, mount(form), b"/", &path, TIME, &mut work()).expect("the file is there");
        }
        let path = [b"/d/", &last[..]].concat();
        let own = chain_of(&volume, &path)[0];
        let mut image = volume.image.clone();
        // The empty file's block may hold anything.
        let at = volume.geometry.place(own) + 9;
        (image[at], volume.image[at]) = (1, 1);
        assert_eq!(model::delete(&mut image, mount(form), b"/", &path, TIME, &mut work()), Ok(()));
        given_back(&volume, &image, &[dir[1], own]);
        assert_eq!(chain(&image, volume.geometry, dir[0]), [dir[0], dir[2]]);
    }
}

/// What was given back is taken again as any other block.
#[test]
fn blocks_are_used_again() {
    let volume = card(Form::V2);
    let mut image = volume.image.clone();
    let freed = chain_of(&volume, b"/m1");
    model::delete(&mut image, mount(Form::V2), b"/", b"/m1", TIME, &mut work()).expect("the file is there");
    let handle = model::create_file(&mut image, mount(Form::V2), b"/", b"/new", TIME, &mut work()).expect("room");
    assert_eq!(Some(handle.addr), freed.iter().copied().min());
}

#[test]
fn a_refused_call_wipes_nothing_and_neither_does_a_format() {
    let volume = card(Form::V2);
    let handle = opened(&volume.image, mount(Form::V2), b"/m1", 0);
    let mut damaged = volume.image.clone();
    damaged[8 * 512 + 17] ^= 1;
    no_change(&damaged, mount(Form::V2), &handle, Refusal::Damaged);
    let mut image = volume.image.clone();
    assert_eq!(model::format(&mut image, mount(Form::V2)), Ok(()));
    for addr in chain_of(&volume, b"/m1") {
        assert!(block(&volume, &image, addr) == block(&volume, &volume.image, addr), "block {addr}");
    }
}

/// Where wiping is not known the bytes stay.
#[test]
fn without_wiping() {
    let volume = card(Form::V2);
    let old = Mount { known: Known { wiping: false, ..Known::ALL }, ..mount(Form::V2) };
    let mut image = volume.image.clone();
    assert_eq!(model::delete(&mut image, old, b"/", b"/m1", TIME, &mut work()), Ok(()));
    for addr in chain_of(&volume, b"/m1") {
        assert!(block(&volume, &image, addr) == block(&volume, &volume.image, addr), "block {addr}");
        assert!(!volume.geometry.taken(&image, addr));
    }
}
