//! Inside the domain the original ends every call. This ends the program where one doesn't.
use std::process::exit;
use std::sync::atomic::{AtomicU64, Ordering};
use std::thread;
use std::time::Duration;

const PATIENCE: Duration = Duration::from_secs(120);

static SEED: AtomicU64 = AtomicU64::new(0);
static CALLS: AtomicU64 = AtomicU64::new(0);

/// A sequence begins.
pub fn at(seed: u64) {
    SEED.store(seed, Ordering::Relaxed);
}

/// A call begins.
pub fn call() {
    CALLS.fetch_add(1, Ordering::Relaxed);
}

/// From now on a call that doesn't end is a difference.
pub fn start() {
    thread::spawn(|| loop {
        let before = CALLS.load(Ordering::Relaxed);
        thread::sleep(PATIENCE);
        if CALLS.load(Ordering::Relaxed) == before {
            let seed = SEED.load(Ordering::Relaxed);
            println!("DIFFERENCE: call {before} of this run, in the sequence of seed {seed}, does not end");
            exit(1);
        }
    });
}
