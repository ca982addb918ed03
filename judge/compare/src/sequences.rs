//! Sequences of calls at random, each on a volume of its own.
use crate::call::Call;
use crate::draw::Drawer;
use crate::original::{original, Original, KS};
use crate::party::{for_old_cards, LIBRARY};
use crate::sides::{Difference, Verdict};
use crate::tally::Tally;
use crate::trial::{Found, Start};
use crate::watch;
use volumes::{random, random_of, Form, Geometry, Rng, Size, Wish, BLOCK_SIZE};

/// The longest read, write or listing in a sequence.
const LONGEST: usize = 40_000;

/// How the start of a sequence is drawn.
type Draw = fn(u64, &mut Rng) -> Start;

/// Compares sequences until so many calls were compared: that of the first seed, that of the next, and so on. Answers their number.
pub fn compare_sequences(first_seed: u64, calls: u64, tally: &mut Tally) -> Result<u64, Box<Found>> {
    compare_each(draw_start, first_seed, calls, tally)
}

/// The same on cards of version 1, which the original reads and never makes.
pub fn compare_old_cards(first_seed: u64, calls: u64, tally: &mut Tally) -> Result<u64, Box<Found>> {
    compare_each(draw_old_card, first_seed, calls, tally)
}

fn compare_each(draw: Draw, first_seed: u64, calls: u64, tally: &mut Tally) -> Result<u64, Box<Found>> {
    let mut originals: Vec<Box<dyn Original>> = KS.iter().map(|&k| original(k)).collect();
    let mut seed = first_seed;
    let mut done = 0;
    while done < calls {
        let part = compare_one(draw, seed, &mut originals)?;
        done += part.compared();
        tally.add(part);
        seed += 1;
    }
    Ok(seed - first_seed)
}

fn compare_one(draw: Draw, seed: u64, originals: &mut [Box<dyn Original>]) -> Result<Tally, Box<Found>> {
    watch::at(seed);
    let mut rng = Rng::new(seed);
    let start = draw(seed, &mut rng);
    let original = side(originals, start.k);
    let mut sides = start.sides(original);
    let mut tally = Tally::default();
    let mut made = Vec::new();
    let length = rng.between(50, 400);
    let mut drawer = Drawer::new(rng, LONGEST).with_accents().with_patches(start.by.known().patch);
    for step in 0..length {
        let call = if start.raw && step == 0 { Call::Format } else { drawer.draw(&sides) };
        let verdict = sides.step(&call);
        tally.count(&call, &verdict);
        made.push(call);
        if let Verdict::Differs(difference) = verdict {
            return Err(Box::new(start.shorten(made, difference, original)));
        }
    }
    match sides.ours.check() {
        Ok(()) => Ok(tally),
        Err(refusal) => {
            let ours = format!("the check refuses the volume at the end, {}", refusal.number());
            let original = "the same image".to_string();
            let difference = Difference { by: start.by.name(), ours, original, block: None };
            Err(Box::new(Found { start: start.what, number: made.len(), calls: made, difference }))
        }
    }
}

fn side(originals: &mut [Box<dyn Original>], k: u32) -> &mut dyn Original {
    let place = KS.iter().position(|&known| known == k).expect("a build for this place of the superblock");
    originals[place].as_mut()
}

fn draw_start(seed: u64, rng: &mut Rng) -> Start {
    let k = *rng.pick(&[8, 8, 8, 8, 8, 1, 1, 1, 1, 8192]);
    let size = match rng.below(20) {
        0..=3 => Size::Small,
        4 => Size::Large,
        _ => Size::Usual,
    };
    let wish = Wish {
        k,
        size,
        entries: *rng.pick(&[0, 3, 10, 30, 30, 60, 120]),
        depth: if rng.one_in(4) { rng.between(8, 16) as u32 } else { rng.below(4) as u32 },
        free: rng.one_in(3).then(|| *rng.pick(&[0, 1, 1, 2, 2, 3, 4, 6, 20])),
    };
    let mut image = random(wish, rng).image;
    let blocks = image.len() / BLOCK_SIZE;
    let raw = rng.one_in(6) && Geometry::new(k, blocks as u32).is_some();
    if raw {
        rng.fill(&mut image);
    }
    let kind = if raw { "random bytes".to_string() } else { format!("the volume of {wish:?}") };
    Start { by: LIBRARY, k, image, what: format!("{kind}, {blocks} blocks, seed {seed}"), raw }
}

/// A card of version 1, often with few blocks free in reach.
fn draw_old_card(seed: u64, rng: &mut Rng) -> Start {
    let k = *rng.pick(&[8, 8, 8, 8, 8, 1, 1, 1, 1, 8192]);
    let wish = Wish {
        k,
        size: *rng.pick(&[Size::Small, Size::Usual, Size::Usual, Size::Large]),
        entries: *rng.pick(&[0, 3, 10, 30, 60]),
        depth: if rng.one_in(4) { rng.between(8, 16) as u32 } else { rng.below(4) as u32 },
        free: rng.one_in(3).then(|| *rng.pick(&[0, 1, 1, 2, 2, 3, 4, 6, 20])),
    };
    let volume = random_of(Form::V1, wish, rng);
    let what = format!("the version 1 card of {wish:?}, {:?}, seed {seed}", volume.geometry);
    Start { by: for_old_cards(), k, image: volume.image, what, raw: false }
}
