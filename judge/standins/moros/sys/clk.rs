//! The clock, which stands at what it was set to.
use core::sync::atomic::{AtomicU64, Ordering};

static TIME: AtomicU64 = AtomicU64::new(0);

pub fn set_time(time: u64) {
    TIME.store(time, Ordering::Relaxed);
}

pub fn epoch_time() -> u64 {
    TIME.load(Ordering::Relaxed)
}
