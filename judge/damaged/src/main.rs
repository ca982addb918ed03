//! Compares the proved library with the model over damaged images, odd paths, handles and buffers: the same answer by number, the same
//! image, handle, read buffer and work buffer after every call. Each buffer stands at a guard page.
mod by_library;
mod by_model;
mod case;
mod damage;
mod draw;
mod edges;
mod forms;
mod guard;
mod handles;
mod judge;
mod patches;
mod paths;
mod rooms;
mod scene;
mod shrink;
mod supers;
mod tally;
mod vast;

use by_library::Library;
use case::Case;
use guard::{fail, Guarded};
use model::Known;
use std::time::Instant;
use tally::Tally;
use volumes::Rng;

const USAGE: &str = "usage: damaged [--calls N] [--seed S] [--round R]
  --calls N  how many calls to compare (60000)
  --seed S   which random calls (1)
  --round R  only the calls of one round, each printed before it is made";

/// Enough calls for every answer to be met.
const DEFAULT_CALLS: u64 = 60_000;

struct Options {
    calls: u64,
    seed: u64,
    round: Option<u64>,
}

fn main() {
    let options = options();
    guard::watch();
    let started = Instant::now();
    let mut library = Library::new();
    let mut tally = Tally::new();
    if let Some(round) = options.round {
        guard::now_at(options.seed, round);
        play(&options, round, &mut library, &mut tally);
        return;
    }
    let mut round = 0;
    while tally.calls() < options.calls {
        guard::now_at(options.seed, round);
        play(&options, round, &mut library, &mut tally);
        round += 1;
    }
    rooms::compare(&mut library, &mut tally);
    supers::compare(&mut library, &mut tally);
    edges::compare(&mut library, &mut tally);
    if Known::TODAY.patch {
        patches::compare(&mut library, &mut tally);
    }
    println!("{round} rounds done; now images and buffers of some GiB");
    vast::compare(&mut library, &mut tally);
    println!("{tally}");
    println!("{} calls, seed {}, {:.1} s: no difference", tally.calls(), options.seed, started.elapsed().as_secs_f64());
    let missed = tally.missed();
    if !missed.is_empty() && options.calls >= DEFAULT_CALLS {
        fail(&format!("answers that no call got: {}", missed.join(", ")));
    }
}

fn options() -> Options {
    let mut options = Options { calls: DEFAULT_CALLS, seed: 1, round: None };
    let mut arguments = std::env::args().skip(1);
    while let Some(name) = arguments.next() {
        let value = arguments.next().and_then(|text| text.parse().ok());
        match (name.as_str(), value) {
            ("--calls", Some(calls)) => options.calls = calls,
            ("--seed", Some(seed)) => options.seed = seed,
            ("--round", Some(round)) => options.round = Some(round),
            _ => fail(USAGE),
        }
    }
    options
}

/// Draws an image and makes some calls on it, one after the other. Seed and number of a round determine it.
fn play(options: &Options, round: u64, library: &mut Library, tally: &mut Tally) {
    let mut rng = Rng::new(Rng::new(options.seed).next_u64() ^ Rng::new(round).next_u64());
    let mut scene = scene::draw(Known::TODAY, &mut rng);
    for number in 0..scene.calls() {
        let case = if number == 0 { draw::draw_check(&mut scene, &mut rng) } else { draw::draw_case(&mut scene, &mut rng) };
        let guarded = if rng.one_in(2) { Guarded::Start } else { Guarded::End };
        if options.round.is_some() {
            println!("call {number} on {}, {guarded:?} guarded\n{case}", scene.made);
        }
        match judge::judge(&case, guarded, library) {
            Ok(outcome) => {
                tally.add(case.call, &outcome.answer);
                scene.go_on(case, outcome);
            }
            Err(why) => {
                println!("seed {}, round {round}, call {number} on {}, {guarded:?} guarded:\n{why}", options.seed, scene.made);
                report(&case, guarded, library)
            }
        }
    }
}

/// Prints the smallest case that can be found, and ends the program.
fn report(case: &Case, guarded: Guarded, library: &mut Library) -> ! {
    let smallest = shrink::shrink(case, guarded, library);
    let wrong = judge::judge(&smallest, guarded, library).err().unwrap_or_default();
    println!("on the smallest inputs found:\n{smallest}{wrong}");
    fail("the library and the model differ")
}
