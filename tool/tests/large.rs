//! A card of 4 GiB, of which the host stores next to nothing: no command needs 4 GiB of memory.
#[path = "tool/support.rs"]
#[allow(dead_code)]
mod support;

use std::ffi::c_int;
use std::process::Stdio;
use support::Bench;

extern "C" {
    fn wait4(pid: c_int, status: *mut c_int, options: c_int, usage: *mut [i64; 18]) -> c_int;
}

/// KiB of memory that a run needed at most.
#[allow(clippy::zombie_processes)] // wait4 waits for it
fn memory(bench: &Bench, words: &[&str]) -> i64 {
    let child = bench.command(words).stdin(Stdio::null()).stdout(Stdio::null()).spawn().expect("the tool runs");
    let (mut status, mut usage) = (0, [0; 18]);
    // SAFETY: the host's structure has two pairs of numbers, the largest resident size in KiB, and 13 numbers more.
    let waited = unsafe { wait4(child.id() as c_int, &mut status, 0, &mut usage) };
    assert_eq!((waited, status), (child.id() as c_int, 0), "{words:?}");
    usage[4]
}

#[test]
fn a_card_of_4_gib_needs_little_memory() {
    let bench = Bench::new();
    bench.ok(&["format", "--blocks", "8388608", "card.img"]);
    bench.file("f", &vec![b'x'; 3 << 20]);
    let limit = 64 << 10;
    for words in [
        &["put", "card.img", "f"][..],
        &["ls", "-l", "card.img"],
        &["cat", "card.img", "/f"],
        &["df", "card.img"],
        &["check", "card.img"],
        &["rm", "card.img", "/f"],
    ] {
        let used = memory(&bench, words);
        assert!(used < limit, "{words:?} needed {used} KiB");
    }
    // The superblock is found at the card's far end, through a hole of 4 GiB.
    bench.ok(&["-k", "8380000", "format", "--blocks", "8388608", "far.img"]);
    assert_eq!(bench.run(&["ls", "far.img"]).err, "mfs: far.img: superblock found at block 8380000\n");
}
