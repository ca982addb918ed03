//! Format, for many block counts.
use crate::call::{Call, Place};
use crate::original::{original, KS};
use crate::party::LIBRARY;
use crate::sides::Verdict;
use crate::tally::Tally;
use crate::trial::{Found, Start};
use volumes::{Geometry, Rng, BLOCK_SIZE};

/// Compares format, and some calls on what it makes, for block counts around each edge and at random.
pub fn compare_formats(seed: u64, tally: &mut Tally) -> Result<(), Box<Found>> {
    let mut rng = Rng::new(seed);
    for k in KS {
        let mut original = original(k);
        for blocks in block_counts(k, &mut rng) {
            let mut image = vec![0; blocks as usize * BLOCK_SIZE];
            rng.fill(&mut image);
            let what = format!("{blocks} blocks of random bytes, K = {k}");
            let start = Start { by: LIBRARY, k, image, what, raw: true };
            let mut sides = start.sides(original.as_mut());
            let calls = calls();
            for (number, call) in calls.iter().enumerate() {
                let verdict = sides.step(call);
                tally.count(call, &verdict);
                if let Verdict::Differs(difference) = verdict {
                    return Err(Box::new(start.shorten(calls[..=number].to_vec(), difference, original.as_mut())));
                }
            }
        }
    }
    Ok(())
}

/// Block counts for which there is a volume: the smallest, those where a bitmap block or the reach begins, some at random, one large.
fn block_counts(k: u32, rng: &mut Rng) -> Vec<u32> {
    let bitmap = k + 2;
    let mut counts: Vec<u32> = (bitmap..bitmap + 40).collect();
    for edge in [4096, 8192, 12_288, 16_384] {
        counts.extend(bitmap + edge - 3..bitmap + edge + 8);
        counts.extend((edge - 2..edge + 3).filter(|&blocks| blocks > bitmap));
    }
    counts.extend((0..20).map(|_| bitmap + rng.below(20_000) as u32));
    counts.push(bitmap + 70_000 + rng.below(9000) as u32);
    counts.retain(|&blocks| Geometry::new(k, blocks).is_some());
    counts
}

fn calls() -> Vec<Call> {
    let at = |path: &str| Place { cwd: b"/".to_vec(), path: path.as_bytes().to_vec() };
    vec![
        Call::Format,
        Call::Usage,
        Call::Info { place: at("/") },
        Call::List { page: 0, place: at("/"), from: 0, len: 64 },
        Call::Open { slot: 0, place: at("/m1") },
        Call::CreateFile { slot: 0, place: at("/m1"), time: 1_700_000_000 },
        Call::CreateDir { place: at("/old"), time: 1_700_000_060 },
        Call::List { page: 0, place: at("/"), from: 0, len: 64 },
        Call::Usage,
    ]
}
