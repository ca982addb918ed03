//! Buffers that stand right before or right after a page that nobody may touch, and what happens when one is touched. The numbers
//! of protections, flags and signals are those of Linux.
use std::ffi::{c_int, c_uint, c_void};
use std::sync::atomic::{AtomicU64, Ordering};

extern "C" {
    fn mmap(addr: *mut c_void, len: usize, protection: c_int, flags: c_int, file: c_int, offset: i64) -> *mut c_void;
    fn mprotect(addr: *mut c_void, len: usize, protection: c_int) -> c_int;
    fn munmap(addr: *mut c_void, len: usize) -> c_int;
    fn signal(number: c_int, handler: extern "C" fn(c_int)) -> usize;
    fn alarm(seconds: c_uint) -> c_uint;
    fn write(file: c_int, bytes: *const u8, len: usize) -> isize;
    fn _exit(status: c_int) -> !;
}

const PROT_NONE: c_int = 0;
const PROT_READ_WRITE: c_int = 3;
const MAP_PRIVATE_ANONYMOUS_NORESERVE: c_int = 0x4022;
const SIGNALS: [c_int; 5] = [SIGILL, SIGBUS, SIGFPE, SIGSEGV, SIGALRM];
const SIGILL: c_int = 4;
const SIGBUS: c_int = 7;
const SIGFPE: c_int = 8;
const SIGSEGV: c_int = 11;
const SIGALRM: c_int = 14;

/// A multiple of the page size of every machine.
const PAGE: usize = 65_536;
/// Bytes on a buffer's open side that are looked at after a call.
const MARGIN: usize = 256;
const CANARY: u8 = 0xc5;

/// Which of a buffer's ends stands at a guard page.
#[derive(Clone, Copy, Debug, PartialEq, Eq)]
pub enum Guarded {
    Start,
    End,
}

/// Memory between two guard pages, with one buffer at a time in it.
pub struct Area {
    mapped: *mut u8,
    /// Bytes between the guard pages.
    room: usize,
    start: *mut u8,
    len: usize,
    guarded: Guarded,
}

impl Area {
    /// Memory for buffers of up to `room` bytes, which costs nothing before it is touched.
    pub fn new(room: usize) -> Area {
        let room = (room + MARGIN).next_multiple_of(PAGE);
        let mapped = unsafe { mmap(std::ptr::null_mut(), room + 2 * PAGE, PROT_NONE, MAP_PRIVATE_ANONYMOUS_NORESERVE, -1, 0) };
        if mapped as isize == -1 {
            fail(&format!("no {room} bytes of address space to be had: raise the limit (ulimit -v unlimited)"));
        }
        let mapped = mapped.cast::<u8>();
        let start = unsafe { mapped.add(PAGE) };
        if unsafe { mprotect(start.cast(), room, PROT_READ_WRITE) } != 0 {
            fail("memory between guard pages can't be made writable");
        }
        Area { mapped, room, start, len: 0, guarded: Guarded::Start }
    }

    /// Makes room for a buffer, whose bytes are what stood there; the bytes on its open side become known ones.
    pub fn stand(&mut self, len: usize, guarded: Guarded) {
        if len + MARGIN > self.room {
            *self = Area::new(2 * len);
        }
        let first = unsafe { self.mapped.add(PAGE) };
        self.start = match guarded {
            Guarded::Start => first,
            Guarded::End => unsafe { first.add(self.room - len) },
        };
        (self.len, self.guarded) = (len, guarded);
        unsafe { self.margin().write_bytes(CANARY, MARGIN) };
    }

    /// Puts a buffer with these bytes at a guard page.
    pub fn place(&mut self, bytes: &[u8], guarded: Guarded) {
        self.stand(bytes.len(), guarded);
        unsafe { self.start.copy_from_nonoverlapping(bytes.as_ptr(), bytes.len()) };
    }

    /// For the library: the buffer's first byte. An empty buffer's is not to be touched either.
    pub fn ptr<T>(&self) -> *mut T {
        self.start.cast()
    }

    pub fn len(&self) -> usize {
        self.len
    }

    pub fn bytes(&self) -> &[u8] {
        unsafe { std::slice::from_raw_parts(self.start, self.len) }
    }

    pub fn bytes_mut(&mut self) -> &mut [u8] {
        unsafe { std::slice::from_raw_parts_mut(self.start, self.len) }
    }

    /// Whether the bytes on the open side are as they were.
    pub fn margin_is_whole(&self) -> bool {
        let margin = unsafe { std::slice::from_raw_parts(self.margin(), MARGIN) };
        margin.iter().all(|&byte| byte == CANARY)
    }

    fn margin(&self) -> *mut u8 {
        match self.guarded {
            Guarded::Start => unsafe { self.start.add(self.len) },
            Guarded::End => unsafe { self.start.sub(MARGIN) },
        }
    }
}

impl Drop for Area {
    fn drop(&mut self) {
        unsafe { munmap(self.mapped.cast(), self.room + 2 * PAGE) };
    }
}

/// Ends the program with one line.
pub fn fail(why: &str) -> ! {
    eprintln!("damaged: {why}");
    std::process::exit(1)
}

/// Seconds after which a call counts as one that never ends.
const PATIENCE: c_uint = 60;

static SEED: AtomicU64 = AtomicU64::new(0);
static ROUND: AtomicU64 = AtomicU64::new(0);

/// Says what is being done, for the line that is printed if the program ends there.
pub fn now_at(seed: u64, round: u64) {
    SEED.store(seed, Ordering::Relaxed);
    ROUND.store(round, Ordering::Relaxed);
}

/// From here on a touched guard page, another crash, a call that doesn't end, and a panic of the model say where they happened.
pub fn watch() {
    for number in SIGNALS {
        unsafe { signal(number, on_signal) };
    }
    let usual = std::panic::take_hook();
    std::panic::set_hook(Box::new(move |panic| {
        usual(panic);
        say(b"the program panicked");
        say_where();
    }));
}

/// Gives the next call its time.
pub fn start_clock() {
    unsafe { alarm(PATIENCE) };
}

/// Nothing here allocates or locks: the program may have stopped anywhere.
extern "C" fn on_signal(number: c_int) {
    say(match number {
        SIGSEGV | SIGBUS => b"a byte outside its buffers was touched",
        SIGALRM => b"a call gave no answer in 60 seconds",
        _ => b"a call crashed",
    });
    say_where();
    unsafe { _exit(1) }
}

fn say_where() {
    say(b"; see its inputs with --seed ");
    say_number(SEED.load(Ordering::Relaxed));
    say(b" --round ");
    say_number(ROUND.load(Ordering::Relaxed));
    say(b"\n");
}

fn say(text: &[u8]) {
    unsafe { write(2, text.as_ptr(), text.len()) };
}

fn say_number(number: u64) {
    if number >= 10 {
        say_number(number / 10);
    }
    say(&[b'0' + (number % 10) as u8]);
}

#[cfg(test)]
mod tests {
    use super::*;

    extern "C" {
        fn fork() -> c_int;
        fn waitpid(child: c_int, status: *mut c_int, options: c_int) -> c_int;
    }

    /// The signal that ends a process which reads a byte, 0 if none does.
    fn signal_of_reading(byte: *const u8) -> c_int {
        let mut status = 0;
        unsafe {
            let child = fork();
            if child == 0 {
                byte.read_volatile();
                _exit(0);
            }
            assert_eq!(waitpid(child, &mut status, 0), child);
        }
        status & 0x7f
    }

    #[test]
    fn a_byte_beside_the_guarded_end_cannot_be_touched() {
        let mut area = Area::new(0);
        for len in [0, 1, 255, 4096, 70_000] {
            area.place(&vec![7; len], Guarded::End);
            assert_eq!(signal_of_reading(area.start.wrapping_add(len)), SIGSEGV);
            area.place(&vec![7; len], Guarded::Start);
            assert_eq!(signal_of_reading(area.start.wrapping_sub(1)), SIGSEGV);
            assert_eq!(signal_of_reading(area.start), 0);
            assert_eq!(area.bytes(), vec![7; len]);
        }
    }

    #[test]
    fn a_byte_beside_the_open_end_is_noticed() {
        for guarded in [Guarded::Start, Guarded::End] {
            let mut area = Area::new(100);
            area.place(b"bytes", guarded);
            assert!(area.margin_is_whole());
            unsafe { area.margin().add(MARGIN / 2).write(0) };
            assert!(!area.margin_is_whole());
        }
    }
}
