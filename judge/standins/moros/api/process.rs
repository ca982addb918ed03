//! The working directory, for programs: the same as the kernel's.
use alloc::string::String;

pub fn dir() -> String {
    crate::sys::process::dir()
}
