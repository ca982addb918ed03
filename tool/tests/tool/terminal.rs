//! The progress bar, which only a terminal gets, and only for work that takes more than a second.
use crate::support::Bench;
use std::ffi::{c_char, c_int, CStr};
use std::fs::File;
use std::io::Read;
use std::os::fd::FromRawFd;
use std::process::{Command, Stdio};
use std::thread::{sleep, spawn};
use std::time::Duration;

extern "C" {
    fn posix_openpt(flags: c_int) -> c_int;
    fn grantpt(fd: c_int) -> c_int;
    fn unlockpt(fd: c_int) -> c_int;
    fn ptsname_r(fd: c_int, name: *mut c_char, len: usize) -> c_int;
}

/// For reading and writing, and not as this process's own terminal.
const FLAGS: c_int = 2 | 0o400;

/// The two ends of a terminal: what is written into the second is read from the first.
fn terminal() -> (File, File) {
    let mut name = [0; 128];
    // SAFETY: the descriptor is new and becomes a file's, and the name's length is given.
    let (first, name) = unsafe {
        let fd = posix_openpt(FLAGS);
        assert!(
            fd >= 0 && grantpt(fd) == 0 && unlockpt(fd) == 0 && ptsname_r(fd, name.as_mut_ptr(), name.len()) == 0,
            "no terminal"
        );
        (File::from_raw_fd(fd), CStr::from_ptr(name.as_ptr()))
    };
    let second = File::options().read(true).write(true).open(name.to_str().expect("a path")).expect("the terminal");
    (first, second)
}

/// Puts a pipe that is filled after a while, then a file; answers what the terminal has shown.
fn shown(bench: &Bench, options: &[&str], pause: Duration) -> String {
    let _ = std::fs::remove_file(bench.path("slow"));
    assert!(Command::new("mkfifo").arg(bench.path("slow")).status().expect("mkfifo").success());
    let (mut first, second) = terminal();
    let words = [options, &["put", "card.img", "slow", "quick", "/d/"]].concat();
    let mut child = bench.command(&words).stdin(Stdio::null()).stderr(second).spawn().expect("the tool runs");
    let pipe = bench.path("slow");
    let writer = spawn(move || {
        let mut pipe = File::options().write(true).open(pipe).expect("the pipe");
        sleep(pause);
        std::io::Write::write_all(&mut pipe, b"late").expect("the tool reads");
    });
    assert!(child.wait().expect("an end").success());
    writer.join().expect("the writer ends");
    let mut bytes = Vec::new();
    // The terminal's other end is closed by now, which a read tells by a failure.
    let _ = first.read_to_end(&mut bytes);
    String::from_utf8(bytes).expect("text")
}

#[test]
fn a_bar_is_drawn_and_taken_away() {
    let bench = Bench::with_card();
    bench.file("quick", b"q");
    bench.ok(&["mkdir", "card.img", "/d"]);
    let late = Duration::from_millis(1200);
    assert_eq!(shown(&bench, &[], late), "\rput [###############...............]  50%\r\x1b[K");
    assert_eq!(shown(&bench, &["--no-progress"], late), "");
    assert_eq!(shown(&bench, &["--quiet"], late), "");
    // A machine that stands still for a second may draw a bar; it does not do so every time.
    assert!((0..5).any(|_| shown(&bench, &[], Duration::ZERO).is_empty()), "quick work has a bar");
    assert_eq!(bench.ok(&["cat", "card.img", "/d/slow", "/d/quick"]), "lateq");
}
