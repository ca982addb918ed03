//! Nothing lost: the real binary is killed at every system call of a put, of a recursive put and of a removal. Whatever it was
//! about to do, the next run finds the old image or the new one.
use crate::support::Bench;
use std::ffi::{c_int, c_long, c_void};
use std::fs;
use std::os::unix::process::CommandExt;
use std::process::{Command, Stdio};

extern "C" {
    fn ptrace(request: c_long, pid: c_int, at: *mut c_void, data: *mut c_void) -> c_long;
    fn waitpid(pid: c_int, status: *mut c_int, options: c_int) -> c_int;
    fn kill(pid: c_int, signal: c_int) -> c_int;
}

const TRACEME: c_long = 0;
const SYSCALL: c_long = 24;
const SETOPTIONS: c_long = 0x4200;
/// Stops at system calls are told from others, and the child dies with this process.
const OPTIONS: usize = 1 | 1 << 20;
const SYSCALL_STOP: c_int = 5 | 0x80;
const SIGTRAP: c_int = 5;
const SIGKILL: c_int = 9;
const WALL: c_int = 0x4000_0000;

/// Runs a command, and kills it when it enters its n-th system call, which is then not made. False where the command ended
/// before.
#[allow(clippy::zombie_processes)] // `wait` below waits for it, as its tracer
fn killed_at(mut command: Command, n: u32) -> bool {
    // SAFETY: the call between fork and exec is one that may be made there.
    unsafe {
        command.pre_exec(|| match ptrace(TRACEME, 0, std::ptr::null_mut(), std::ptr::null_mut()) {
            -1 => Err(std::io::Error::last_os_error()),
            _ => Ok(()),
        });
    }
    let child = command.stdin(Stdio::null()).stdout(Stdio::null()).stderr(Stdio::null()).spawn().expect("the tool runs, traced");
    let pid = child.id() as c_int;
    let (mut stops, mut signal) = (0, None);
    loop {
        let status = wait(pid);
        if status & 0x7f == 0 {
            assert_eq!(status >> 8, 0, "the tool failed by itself");
            return false;
        }
        assert_eq!(status & 0xff, 0x7f, "the tool died by itself");
        match status >> 8 {
            SYSCALL_STOP => stops += 1,
            SIGTRAP if signal.is_none() => trace(SETOPTIONS, pid, OPTIONS),
            other => panic!("the tool got signal {other}"),
        }
        signal = Some(SIGTRAP);
        // Entering a call and leaving it stop the tool alike.
        if stops == 2 * n - 1 {
            // SAFETY: the child is stopped, and nobody but this function waits for it.
            unsafe { kill(pid, SIGKILL) };
            assert_eq!(wait(pid) & 0x7f, SIGKILL);
            return true;
        }
        trace(SYSCALL, pid, 0);
    }
}

fn wait(pid: c_int) -> c_int {
    let mut status = 0;
    // SAFETY: the status is ours.
    let waited = unsafe { waitpid(pid, &mut status, WALL) };
    assert_eq!(waited, pid);
    status
}

fn trace(request: c_long, pid: c_int, data: usize) {
    // SAFETY: both requests take a number and change nothing here.
    let answer = unsafe { ptrace(request, pid, std::ptr::null_mut(), data as *mut c_void) };
    assert_eq!(answer, 0, "ptrace: {}", std::io::Error::last_os_error());
}

/// What was found after a kill.
#[derive(Default, Debug)]
struct Seen {
    old: u32,
    new: u32,
    /// A log stood there, and the image was between old and new.
    between: u32,
    rolled_back: u32,
}

/// Kills a command at each of its system calls, each time on the same card, and looks at the card after the next run.
fn kill_everywhere(bench: &Bench, words: &[&str]) -> Seen {
    let old = bench.read("card.img");
    bench.ok(words);
    let new = bench.read("card.img");
    assert!(old != new, "the command changes nothing");
    let mut seen = Seen::default();
    for n in 1.. {
        bench.file("card.img", &old);
        if !killed_at(bench.command(words), n) {
            assert!(bench.read("card.img") == new, "a traced run makes another image");
            assert!(n > 40, "a run of {n} system calls");
            break;
        }
        let left = bench.read("card.img");
        seen.between += u32::from(left != old && left != new);
        assert!(
            left == old || bench.has("card.img.mfs-undo") || left == new,
            "call {n}: the image is another, and no log is there"
        );
        let next = bench.run(&["ls", "card.img"]);
        assert_eq!(next.code, 0, "call {n}: {next:?}");
        seen.rolled_back += u32::from(next.err.contains("rolled back"));
        let found = bench.read("card.img");
        assert!(found == old || found == new, "call {n}: neither the old image nor the new one");
        assert!(!bench.has("card.img.mfs-undo"), "call {n}: the log is still there");
        if found == old {
            seen.old += 1;
        } else {
            seen.new += 1;
        }
    }
    seen
}

/// The kills met every state there is.
fn all_seen(seen: &Seen) {
    assert!(seen.old > 20 && seen.new > 0 && seen.between > 0 && seen.rolled_back > seen.between, "{seen:?}");
}

#[test]
fn a_put_is_done_or_not() {
    let bench = Bench::with_street();
    bench.file("new", &[b'n'; 3000]);
    all_seen(&kill_everywhere(&bench, &["put", "--time", "9", "card.img", "new", "/street/old/gas"]));
}

#[test]
fn a_recursive_put_is_done_or_not() {
    let bench = Bench::with_street();
    bench.file("more/a", &[b'a'; 700]);
    bench.file("more/b/c", &[b'c'; 1600]);
    bench.file("more/b/d", b"");
    all_seen(&kill_everywhere(&bench, &["put", "-r", "--time", "9", "card.img", "more", "/street"]));
}

#[test]
fn a_recursive_removal_is_done_or_not() {
    let bench = Bench::with_street();
    bench.ok(&["mkdir", "card.img", "/last"]);
    all_seen(&kill_everywhere(&bench, &["rm", "-r", "--time", "9", "card.img", "/street"]));
}

#[test]
fn a_format_is_done_or_not() {
    let bench = Bench::with_street();
    let seen = kill_everywhere(&bench, &["format", "--force", "card.img"]);
    assert!(seen.old > 20 && seen.new > 0 && seen.rolled_back > 0, "{seen:?}");
}

#[test]
fn a_new_card_is_there_or_not() {
    let bench = Bench::new();
    let words = ["format", "--blocks", "4200", "card.img"];
    bench.ok(&words);
    let new = bench.read("card.img");
    let mut made = 0;
    for n in 1.. {
        let _ = fs::remove_file(bench.path("card.img"));
        if !killed_at(bench.command(&words), n) {
            break;
        }
        made += u32::from(bench.has("card.img"));
        assert!(!bench.has("card.img") || bench.read("card.img") == new, "call {n}: a card half made");
    }
    assert!(made > 0);
}

#[test]
fn a_roll_back_can_be_killed_too() {
    let bench = Bench::with_street();
    bench.file("new", &[b'n'; 3000]);
    let old = bench.read("card.img");
    let words = ["put", "--time", "9", "card.img", "new", "/street/new"];
    // The first kill that leaves an image between old and new.
    let interrupted = (1..).find(|&n| {
        bench.file("card.img", &old);
        let _ = fs::remove_file(bench.path("card.img.mfs-undo"));
        assert!(killed_at(bench.command(&words), n), "no kill left an image between");
        bench.has("card.img.mfs-undo") && bench.read("card.img") != old
    });
    assert!(interrupted.is_some());
    let (between, log) = (bench.read("card.img"), bench.read("card.img.mfs-undo"));
    for n in 1.. {
        bench.file("card.img", &between);
        bench.file("card.img.mfs-undo", &log);
        if !killed_at(bench.command(&["ls", "card.img"]), n) {
            break;
        }
        bench.run(&["ls", "card.img"]);
        assert!(bench.read("card.img") == old && !bench.has("card.img.mfs-undo"), "call {n}");
    }
    // The log of another image is not followed.
    bench.file("card.img", &between);
    bench.file("card.img.mfs-undo", &log);
    bench.patch("card.img", 8 * 512 + 14, &[9, 9, 9, 9]);
    let run = bench.run(&["ls", "card.img"]);
    assert!(run.code == 3 && run.err.contains("this undo log was not written for card.img as it is now"), "{run:?}");
    assert!(bench.has("card.img.mfs-undo"));
}
