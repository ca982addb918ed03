//! The free memory, half of which the original takes for its memory device.
use core::sync::atomic::{AtomicUsize, Ordering};

static FREE: AtomicUsize = AtomicUsize::new(0);

pub fn set_memory_free(bytes: usize) {
    FREE.store(bytes, Ordering::Relaxed);
}

pub fn memory_free() -> usize {
    FREE.load(Ordering::Relaxed)
}
