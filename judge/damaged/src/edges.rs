//! Edges that calls at random seldom meet, on cards of every form: how far a walk goes that has no end, the name that just fits into a
//! directory block, a directory block in the middle that is emptied, and a block without a bit that is reached.
use crate::by_library::Library;
use crate::by_model::Outcome;
use crate::case::{Call, Case};
use crate::forms::forms;
use crate::guard::{fail, Guarded};
use crate::judge::judge;
use crate::tally::Tally;
use crate::vast::empty_case;
use model::{Handle, Known, NAME_LEN};
use volumes::{Form, Geometry, Rng, Style, Tree, Volume, HEADER, ROOT};

const K: u32 = 8;

pub fn compare(library: &mut Library, tally: &mut Tally) {
    for &form in forms(Known::TODAY) {
        circle(form, library, tally);
        names(form, library, tally);
        emptied(form, library, tally);
    }
    if Known::TODAY.version_1 {
        without_bit(library, tally);
    }
}

fn lay(tree: Tree, form: Form, blocks: u32) -> Volume {
    let geometry = Geometry::of_form(form, K, blocks).expect("a volume");
    tree.lay(geometry, Style::PLAIN, &mut Rng::new(3)).expect("room for it")
}

fn ask(case: &Case, library: &mut Library, tally: &mut Tally) -> Outcome {
    match judge(case, Guarded::End, library) {
        Ok(outcome) => {
            tally.add(case.call, &outcome.answer);
            outcome
        }
        Err(why) => {
            println!("{case}");
            fail(&why)
        }
    }
}

/// A file whose block leads to itself: a walk has as many blocks as the data area, also where not all of these have a bit.
fn circle(form: Form, library: &mut Library, tally: &mut Tally) {
    let mut tree = Tree::new();
    tree.file(ROOT, b"m1", 1, 1);
    let mut volume = lay(tree, form, if form == Form::V1 { 10 + 8193 } else { 60 });
    let (addr, geometry) = (volume.entries[0].chain[0], volume.geometry);
    volume.image[geometry.place(addr)..][..4].copy_from_slice(&addr.to_be_bytes());
    let (entry, size) = (geometry.place(geometry.data()) + 4, i32::MAX as u32);
    volume.image[entry + 5..entry + 9].copy_from_slice(&size.to_be_bytes());
    let mut name = [0; NAME_LEN];
    name[..2].copy_from_slice(b"m1");
    let end = geometry.data_blocks() * form.capacity() as u32;
    for (position, len, expected) in [(0, 3, Ok(())), (end - 1, 1, Ok(())), (end - 1, 2, Err(17)), (end, 1, Err(17))] {
        let handle = Handle { dir: geometry.data(), addr, size, position, name, len: 2 };
        let case = Case {
            image: volume.image.clone(),
            code: u32::from(form.code()),
            handle,
            buf: vec![0; len],
            ..empty_case(Call::Read)
        };
        if ask(&case, library, tally).answer.map(|_| ()) != expected {
            fail(&format!("a walk in a circle to byte {position} of {end} is not {expected:?}"));
        }
    }
}

/// Names that end two bytes before the block does, one byte before, and with it; then a listing and a look at each.
fn names(form: Form, library: &mut Library, tally: &mut Tally) {
    let capacity = form.capacity();
    let blocks = form.bits() + 11;
    for last in [capacity - 2, capacity - 1, capacity] {
        let mut tree = Tree::new();
        let mut used = 0;
        for letter in (b'a'..)
            .take_while(|letter| capacity - HEADER * usize::from(letter - b'a' + 2) > 200 * usize::from(letter - b'a' + 1))
        {
            tree.file(ROOT, &[letter; 200], 1, 0);
            used += HEADER + 200;
        }
        let volume = lay(tree, form, blocks);
        let path = [&b"/"[..], &vec![b'z'; last - used - HEADER]].concat();
        let work = vec![0xff; volume.image.len() / 4096 + 1];
        let code = u32::from(form.code());
        let case = Case { image: volume.image, code, path, work, ..empty_case(Call::CreateFile) };
        let image = ask(&case, library, tally).image.expect("a create changes the image");
        let looked =
            |call, path: &[u8]| Case { call, image: image.clone(), path: path.to_vec(), buf: vec![0; 2000], ..case.clone() };
        for case in
            [looked(Call::Info, &case.path), looked(Call::List, b"/"), looked(Call::Info, b"/"), looked(Call::Delete, &case.path)]
        {
            ask(&case, library, tally);
        }
        // The same bytes where they stand, one byte longer: an entry may not end there.
        let mut longer = image.clone();
        let geometry = Geometry::read(&longer, K, code).expect("a volume");
        let entry = geometry.place(geometry.data()) + 4 + used;
        longer[entry + 17] = longer[entry + 17].saturating_add(1);
        ask(&Case { call: Call::List, image: longer, path: b"/".to_vec(), buf: vec![0; 2000], ..case.clone() }, library, tally);
    }
}

/// A directory of three blocks with some long names in each: those of the second are deleted, one after the other. The block then still
/// has the address of the third, until it is given back.
fn emptied(form: Form, library: &mut Library, tally: &mut Tally) {
    let in_each = form.capacity() / 250;
    let mut tree = Tree::new();
    let names: Vec<Vec<u8>> = (0..3 * in_each as u8).map(|number| vec![b'a' + number; 230]).collect();
    names.iter().for_each(|name| {
        tree.file(ROOT, name, 1, 600);
    });
    let volume = lay(tree, form, form.bits() + 11);
    let (code, work) = (u32::from(form.code()), vec![0xff; volume.image.len() / 4096 + 1]);
    let mut case = Case { image: volume.image, code, work, ..empty_case(Call::Delete) };
    for name in &names[in_each..2 * in_each] {
        case.path = [b"/", &name[..]].concat();
        let outcome = ask(&case, library, tally);
        if outcome.answer.is_err() {
            fail("a file in the root is not deleted");
        }
        case.image = outcome.image.expect("a delete changes the image");
    }
}

/// To the check a chain that enters a block without a bit is damage, and to the other calls it is one like any other.
fn without_bit(library: &mut Library, tally: &mut Tally) {
    for (blocks, to) in [(10 + 4098, 11 + 4096), (10 + 8193, 11 + 4096), (10 + 8193, 11 + 8191)] {
        for place in [0, 1] {
            let mut tree = Tree::new();
            tree.file(ROOT, b"m1", 1, 600);
            let mut volume = lay(tree, Form::V1, blocks);
            volume.move_block(0, place, to);
            let handle = model::open(&volume.image, K, b"/", b"/m1").expect("the file is there");
            let (path, work) = (b"/m1".to_vec(), vec![0xff; volume.image.len() / 4096 + 1]);
            let case = Case { image: volume.image, path, handle, work, buf: vec![0; 600], ..empty_case(Call::Check) };
            for (call, expected) in [(Call::Check, Err(17)), (Call::Delete, Err(17)), (Call::Read, Ok(())), (Call::Open, Ok(()))]
            {
                if ask(&Case { call, ..case.clone() }, library, tally).answer.map(|_| ()) != expected {
                    fail(&format!("a chain that enters block {to}, which has no bit: not {expected:?}"));
                }
            }
        }
    }
}
