//! A stand-in for the crate `spin`: its mutex, as far as the original uses it.
use std::sync::{self, MutexGuard, PoisonError};

/// A mutex that a panic does not close for ever.
pub struct Mutex<T>(sync::Mutex<T>);

impl<T> Mutex<T> {
    pub const fn new(value: T) -> Mutex<T> {
        Mutex(sync::Mutex::new(value))
    }

    pub fn lock(&self) -> MutexGuard<'_, T> {
        self.0.lock().unwrap_or_else(PoisonError::into_inner)
    }
}

#[cfg(test)]
mod tests {
    use super::Mutex;
    use std::panic::catch_unwind;

    #[test]
    fn stays_open_after_a_panic() {
        static NUMBER: Mutex<u32> = Mutex::new(1);
        *NUMBER.lock() += 1;
        assert!(catch_unwind(|| {
            let _held = NUMBER.lock();
            panic!("while it is held");
        })
        .is_err());
        assert_eq!(*NUMBER.lock(), 2);
    }
}
