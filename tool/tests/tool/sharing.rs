//! Two at once, and logs that are found.
use crate::support::{Bench, Run};
use std::ffi::c_int;
use std::fs::File;
use std::io::{BufRead, BufReader, Write};
use std::os::fd::AsRawFd;
use std::process::Child;
use std::thread::sleep;
use std::time::Duration;

extern "C" {
    fn flock(fd: c_int, operation: c_int) -> c_int;
}

const SHARED_AT_ONCE: c_int = 1 | 4;
const UNLOCK: c_int = 8;

/// Returns when somebody has the card to himself.
fn await_lock(bench: &Bench) {
    let card = File::open(bench.path("card.img")).expect("the card");
    // SAFETY: the descriptor is open as long as the file.
    while unsafe { flock(card.as_raw_fd(), SHARED_AT_ONCE) } == 0 {
        unsafe { flock(card.as_raw_fd(), UNLOCK) };
        sleep(Duration::from_millis(5));
    }
}

/// Returns when a run has said that it waits.
fn await_waiting(child: &mut Child) {
    let mut line = String::new();
    BufReader::new(child.stderr.take().expect("a pipe")).read_line(&mut line).expect("a line");
    assert_eq!(line, "mfs: card.img: another mfs is at work on it: waiting\n");
}

#[test]
fn the_second_waits_for_the_first() {
    let bench = Bench::with_card();
    bench.file("b", b"second");
    // The first holds the lock while it waits for its standard input.
    let mut first = bench.start(&["put", "card.img", "-", "/a"]);
    await_lock(&bench);
    let mut second = bench.start(&["put", "card.img", "b", "/b"]);
    let mut reader = bench.start(&["ls", "card.img"]);
    await_waiting(&mut second);
    await_waiting(&mut reader);
    assert!(second.try_wait().expect("a child").is_none() && reader.try_wait().expect("a child").is_none(), "one did not wait");
    let mut pipe = first.stdin.take().expect("a pipe");
    pipe.write_all(b"first").expect("the first reads");
    drop(pipe);
    assert_eq!(Run::of(first.wait_with_output().expect("an end")).code, 0);
    assert_eq!(Run::of(second.wait_with_output().expect("an end")).code, 0);
    let listed = Run::of(reader.wait_with_output().expect("an end"));
    assert!(listed.code == 0 && listed.out.starts_with("a\n"), "{listed:?}");
    assert_eq!(bench.ok(&["cat", "card.img", "/a", "/b"]), "firstsecond");
}

#[test]
fn a_log_without_its_end_was_never_followed_by_a_store() {
    let bench = Bench::with_street();
    let before = bench.read("card.img");
    bench.file("card.img.mfs-undo", b"MFSUNDO1\0\0\0");
    let run = bench.run(&["--quiet", "ls", "card.img"]);
    let said = "mfs: card.img: a change was interrupted before it began: nothing to roll back\n";
    assert_eq!((run.code, run.out.as_str(), run.err.as_str()), (0, "street\n", said));
    assert!(!bench.has("card.img.mfs-undo") && bench.read("card.img") == before);
}
