//! Superblocks that say every version and size code, with counts and images at the edges, asked for by every size code: what is
//! refused by 1, 2 and 3, and which of them comes first.
use crate::by_library::Library;
use crate::case::{Call, Case};
use crate::forms::forms;
use crate::guard::{fail, Guarded};
use crate::judge::judge;
use crate::tally::Tally;
use crate::vast::empty_case;
use model::Known;
use volumes::{blank, Form, Rng};

/// The card's version, its size code, and the size code of the call.
const VERSIONS: [u8; 5] = [0, 1, 2, 3, 255];
const CODES: [u8; 4] = [0, 1, 2, 255];
const CALL_CODES: [u32; 5] = [0, 1, 2, 256, u32::MAX];

pub fn compare(library: &mut Library, tally: &mut Tally) {
    for &form in forms(Known::TODAY) {
        // With K = 0 the superblock stands at the start for every size of a block.
        for k in [0, 8] {
            marks(form, k, library, tally);
            counts(form, k, library, tally);
            lengths(form, k, library, tally);
        }
        formats(form, library, tally);
    }
}

fn ask(image: Vec<u8>, k: u32, code: u32, library: &mut Library, tally: &mut Tally) {
    let mut case = Case { image, k, code, work: vec![0xff; 2048], ..empty_case(Call::Usage) };
    for call in [Call::Usage, Call::Check, Call::Room(1)] {
        case.call = call;
        match judge(&case, Guarded::End, library) {
            Ok(outcome) => tally.add(call, &outcome.answer),
            Err(why) => {
                println!("{case}");
                fail(&why)
            }
        }
    }
}

/// A card of that form whose superblock says something else, or whose caller does.
fn marks(form: Form, k: u32, library: &mut Library, tally: &mut Tally) {
    let blocks = k + 2 + if form == Form::V1 { 4098 } else { 20 };
    for version in VERSIONS {
        for code in CODES {
            for call_code in CALL_CODES {
                let mut image = blank(form, k, blocks, blocks);
                let superblock = k as usize * form.block_size();
                (image[superblock + 8], image[superblock + 9]) = (version, code);
                ask(image, k, call_code, library, tally);
            }
        }
    }
}

/// Counts around each remainder, the fewest blocks, and more than the image has.
fn counts(form: Form, k: u32, library: &mut Library, tally: &mut Tally) {
    let (bitmap, whole) = (k + 2, form.bits() + 1);
    let edges = [0, 1, 2, 3, whole - 1, whole, whole + 1, whole + 2, 2 * whole - 1, 2 * whole, 2 * whole + 1, 2 * whole + 2];
    let image_blocks = bitmap + 2 * whole + 2;
    for count in edges.into_iter().map(|edge| bitmap + edge).chain([0, 1, bitmap - 1, image_blocks + 1, u32::MAX]) {
        ask(blank(form, k, count, image_blocks), k, u32::from(form.code()), library, tally);
    }
}

/// Formats of random bytes, for block counts around each edge and by every size code. Version 1 is made by none.
fn formats(form: Form, library: &mut Library, tally: &mut Tally) {
    let (mut rng, whole) = (Rng::new(19), form.bits() + 1);
    for k in [0, 1, 8] {
        for edge in [0, 1, 2, 3, 20, whole - 1, whole, whole + 1, whole + 2, 2 * whole, 2 * whole + 1] {
            let mut image = vec![0; (k + 2 + edge) as usize * form.block_size()];
            rng.fill(&mut image);
            for code in if edge < whole { &CALL_CODES[..] } else { &CALL_CODES[..2] } {
                let case = Case { image: image.clone(), k, code: *code, ..empty_case(Call::Format) };
                match judge(&case, Guarded::End, library) {
                    Ok(outcome) => tally.add(Call::Format, &outcome.answer),
                    Err(why) => fail(&format!("a format of {} blocks, K = {k}, code {code}: {why}", k + 2 + edge)),
                }
            }
        }
    }
}

/// Images of no whole blocks, and too short ones.
fn lengths(form: Form, k: u32, library: &mut Library, tally: &mut Tally) {
    let blocks = k + 2 + if form == Form::V1 { 4098 } else { 20 };
    let image = blank(form, k, blocks, blocks);
    let (all, block) = (image.len(), form.block_size());
    let short = (k as usize + 2) * block;
    for len in [0, 1, 511, 512, 1024, short, short + 512, short + block, all - block, all - 512, all - 1] {
        for code in CALL_CODES {
            ask(image[..len.min(all)].to_vec(), k, code, library, tally);
        }
    }
}
