//! Room for so many blocks, on volumes at the edges of the reach and with bitmaps of all kinds.
use crate::by_library::Library;
use crate::case::{show, Call, Case};
use crate::forms::forms;
use crate::guard::{fail, Guarded};
use crate::judge::judge;
use crate::tally::Tally;
use crate::vast::empty_case;
use model::Known;
use volumes::{blank, Form, Geometry, Rng};

/// Block counts whose reach, with K = 8, is 0, whole bytes, words of eight and some bytes, and one that ends inside a byte.
const BLOCKS: [u32; 8] = [12, 4095, 4096, 4097, 4103, 4107, 8192, 12_290];
/// The same in version 1, where the reach ends with the bitmap.
const OLD_BLOCKS: [u32; 6] = [4107, 4108, 8203, 8204, 8205, 12_300];
/// The same for blocks of 1,024 bytes.
const LARGE_BLOCKS: [u32; 8] = [12, 8191, 8192, 8193, 8199, 8203, 8205, 16_400];

pub fn compare(library: &mut Library, tally: &mut Tally) {
    let mut rng = Rng::new(18);
    for &form in forms(Known::TODAY) {
        let counts = match form {
            Form::V1 => &OLD_BLOCKS[..],
            Form::V2 => &BLOCKS,
            Form::Large => &LARGE_BLOCKS,
        };
        for &blocks in counts {
            let geometry = Geometry::of_form(form, 8, blocks).expect("a volume");
            (0..6).for_each(|kind| ask_all(geometry, kind, &mut rng, library, tally));
        }
    }
}

/// For numbers of blocks around how many are free.
fn ask_all(geometry: Geometry, kind: u32, rng: &mut Rng, library: &mut Library, tally: &mut Tally) {
    let image = draw_image(geometry, kind, rng);
    let all = geometry.free_in_reach(&image).count() as u32;
    for count in [0, 1, 2, 8, 64, 65, all / 3, all / 2, all.saturating_sub(1), all, all + 1, all + 64, u32::MAX] {
        ask(geometry.form(), &image, count, library, tally);
    }
}

/// A superblock, and in the bitmap no bit, every bit, all but the last one in reach, the first bytes' and then few, or noise.
fn draw_image(geometry: Geometry, kind: u32, rng: &mut Rng) -> Vec<u8> {
    let mut image = blank(geometry.form(), geometry.k(), geometry.blocks(), geometry.blocks());
    let bitmap = &mut image[geometry.place(geometry.bitmap())..geometry.place(geometry.data())];
    match kind {
        0 => bitmap.fill(0),
        1 | 2 => bitmap.fill(0xff),
        3 => rng.fill(bitmap),
        _ => {
            bitmap.fill(0xff);
            let full = rng.below(bitmap.len() as u64) as usize;
            rng.fill(&mut bitmap[full..]);
        }
    }
    if kind == 2 && geometry.reach() > 0 {
        let last = geometry.reach() as usize - 1;
        bitmap[last / 8] &= !(1 << (last % 8));
    }
    image
}

fn ask(form: Form, image: &[u8], count: u32, library: &mut Library, tally: &mut Tally) {
    let case = Case { image: image.to_vec(), code: u32::from(form.code()), ..empty_case(Call::Room(count)) };
    match judge(&case, Guarded::End, library) {
        Ok(outcome) => tally.add(case.call, &outcome.answer),
        Err(why) => {
            let blocks = image.len() / form.block_size();
            println!(
                "room for {count} on {blocks} blocks, where the model answers {}",
                show(&crate::by_model::run(&case, Known::TODAY).answer)
            );
            fail(&why)
        }
    }
}
