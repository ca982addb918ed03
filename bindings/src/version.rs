//! Whether the library that the program got is the one that these bindings were written for.
use crate::{raw, Refusal};
use core::sync::atomic::{AtomicBool, Ordering};

/// The version of the exports that these bindings call: `MFS_C_VERSION` of include/mfs_c.h.
pub const EXPORTS_VERSION: u32 = 2;

/// Whether the versions were compared and are the same. Another thread that does not see it yet compares once more.
static SAME: AtomicBool = AtomicBool::new(false);

/// Refuses a call of a library with other exports, before any of them is called. The versions are compared at the first call.
pub(crate) fn same_version() -> Result<(), Refusal> {
    if SAME.load(Ordering::Relaxed) {
        Ok(())
    } else {
        first_comparison()
    }
}

#[cold]
fn first_comparison() -> Result<(), Refusal> {
    // SAFETY: it takes nothing and answers a constant, in every version.
    compare(unsafe { raw::mfs_c_version() })?;
    SAME.store(true, Ordering::Relaxed);
    Ok(())
}

fn compare(library: u32) -> Result<(), Refusal> {
    if library == EXPORTS_VERSION {
        Ok(())
    } else {
        Err(Refusal::OtherVersion(library))
    }
}

#[cfg(test)]
mod tests {
    use super::*;

    #[test]
    fn the_library_has_the_version_of_these_bindings() {
        assert_eq!(same_version(), Ok(()));
        assert!(SAME.load(Ordering::Relaxed));
    }

    #[test]
    fn another_version_is_refused() {
        for library in [0, EXPORTS_VERSION + 1, u32::MAX] {
            assert_eq!(compare(library), Err(Refusal::OtherVersion(library)));
        }
    }
}
