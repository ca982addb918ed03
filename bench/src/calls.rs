//! How one measurement of a call goes, on either side.
use crate::images;
use crate::side::Side;
use crate::timing::{median, once, repeated};
use std::hint::black_box;

/// The length of the long file, and of a write onto an empty one.
pub const LONG: usize = images::LONG as usize;
/// The length of a short file, and of an append.
pub const SHORT: usize = images::SHORT as usize;
/// Above what a listing of 10,000 names of six bytes takes.
const LISTING: usize = 10_000 * 20 + 1;
/// Measurements of a call that runs the check, in one run; the run's time is their median.
const MEASUREMENTS: usize = 15;

/// A call at a path.
pub enum Call {
    Plain(Plain, &'static str),
    Checked(Checked, &'static str),
}

/// The calls that run no check. They can be made again and again.
pub enum Plain {
    Format,
    Usage,
    Open,
    Info,
    List,
    Seek,
    /// From the file's start on, so many bytes in calls of so many.
    Read(usize, usize),
}

/// The calls that run the whole check first. Each is undone after it was timed.
pub enum Checked {
    /// Of the long file's contents into a new file.
    Write,
    Append(Handle),
    /// Over the last bytes of a file, which keeps its length.
    InPlace,
    /// Over the first bytes of a file, whose tail stays.
    Patch,
    Create,
    Delete,
    /// Of a file with the long file's contents.
    DeleteLong,
}

/// What an append goes through.
pub enum Handle {
    /// Just opened.
    New,
    /// Has appended before.
    Kept,
}

/// One measurement: the time of the whole call, that of the check alone just before it, what is left without it, and what the call
/// answered.
pub struct Timed {
    pub whole: f64,
    pub check: f64,
    pub rest: f64,
    pub answer: Vec<u8>,
}

/// The time of a check alone, and that of the call right after it.
struct Pair {
    check: f64,
    whole: f64,
}

impl Call {
    /// Measures the call once. A volume that it changes is afterwards as it was, but for stale bytes of blocks that are free again.
    pub fn time<S: Side>(&self, side: &mut S) -> Timed {
        match self {
            Call::Plain(plain, path) => {
                let (whole, answer) = plain.time(side, path);
                Timed { whole, check: 0.0, rest: whole, answer }
            }
            Call::Checked(checked, path) => {
                let (pairs, answers): (Vec<Pair>, Vec<Vec<u8>>) = (0..MEASUREMENTS).map(|_| checked.time(side, path)).unzip();
                let middle = |figure: fn(&Pair) -> f64| median(pairs.iter().map(figure).collect());
                Timed {
                    whole: middle(|pair| pair.whole),
                    check: middle(|pair| pair.check),
                    rest: middle(|pair| pair.whole - pair.check),
                    answer: answers.concat(),
                }
            }
        }
    }
}

impl Plain {
    fn time<S: Side>(&self, side: &mut S, path: &str) -> (f64, Vec<u8>) {
        match *self {
            Plain::Format => (repeated(|| side.format()), Vec::new()),
            Plain::Usage => (repeated(|| side.usage()), side.usage().into_iter().flat_map(u64::to_be_bytes).collect()),
            Plain::Open => (repeated(|| side.open(path)), place::<S>(&side.open(path))),
            Plain::Info => {
                let entry = side.info(path);
                let numbers = [&[entry.kind][..], &entry.size.to_be_bytes(), &entry.time.to_be_bytes()].concat();
                (repeated(|| side.info(path)), [numbers, entry.name].concat())
            }
            Plain::List => {
                let mut buf = vec![0; LISTING];
                let time = repeated(|| side.list(path, &mut buf));
                let bytes = side.list(path, &mut buf);
                buf.truncate(bytes);
                (time, buf)
            }
            Plain::Seek => {
                let mut file = side.open(path);
                (repeated(|| side.seek(&mut file, black_box(SHORT as u32))), Vec::new())
            }
            Plain::Read(len, step) => {
                let mut file = side.open(path);
                let mut buf = vec![0; len];
                (repeated(|| read_through(side, &mut file, &mut buf, step)), buf)
            }
        }
    }
}

impl Checked {
    fn time<S: Side>(&self, side: &mut S, path: &str) -> (Pair, Vec<u8>) {
        match self {
            Checked::Write => {
                let mut file = side.create(path);
                let contents = contents();
                let (pair, ()) = after_check(side, |side| side.write(&mut file, &contents));
                side.delete(path);
                (pair, place::<S>(&file))
            }
            Checked::Append(handle) => {
                let mut file = at_end(side, path);
                if let Handle::Kept = handle {
                    side.write(&mut file, &[b'-'; SHORT]);
                }
                let (pair, ()) = after_check(side, |side| side.write(&mut file, &[b'+'; SHORT]));
                cut_back(side, path);
                (pair, place::<S>(&file))
            }
            Checked::InPlace => {
                let mut file = side.open(path);
                let [_, size] = S::place(&file);
                side.seek(&mut file, size - SHORT as u32);
                let (pair, ()) = after_check(side, |side| side.write(&mut file, &[b'='; SHORT]));
                (pair, place::<S>(&file))
            }
            Checked::Patch => {
                let mut file = side.open(path);
                let (pair, ()) = after_check(side, |side| side.patch(&mut file, &[b'#'; SHORT]));
                (pair, place::<S>(&file))
            }
            Checked::Create => {
                let (pair, file) = after_check(side, |side| side.create(path));
                side.delete(path);
                (pair, place::<S>(&file))
            }
            Checked::Delete => {
                side.create(path);
                let (pair, ()) = after_check(side, |side| side.delete(path));
                (pair, Vec::new())
            }
            Checked::DeleteLong => {
                let mut file = side.create(path);
                side.write(&mut file, &contents());
                let (pair, ()) = after_check(side, |side| side.delete(path));
                (pair, place::<S>(&file))
            }
        }
    }
}

fn contents() -> Vec<u8> {
    (0..LONG).map(|i| (i % 251) as u8).collect()
}

/// Times a check alone and then a call, with what that answers. One more check comes before both, so that the caches are as warm for
/// the first as for the second.
fn after_check<S: Side, T>(side: &mut S, call: impl FnOnce(&mut S) -> T) -> (Pair, T) {
    side.check();
    let (check, ()) = once(|| side.check());
    let (whole, answer) = once(|| call(side));
    (Pair { check, whole }, answer)
}

/// The file's first address and size, as bytes.
fn place<S: Side>(file: &S::Open) -> Vec<u8> {
    S::place(file).into_iter().flat_map(u32::to_be_bytes).collect()
}

fn read_through<S: Side>(side: &S, file: &mut S::Open, buf: &mut [u8], step: usize) {
    side.seek(file, 0);
    for part in buf.chunks_mut(step) {
        assert_eq!(side.read(file, part), part.len(), "bytes read");
    }
}

fn at_end<S: Side>(side: &S, path: &str) -> S::Open {
    let mut file = side.open(path);
    let [_, size] = S::place(&file);
    side.seek(&mut file, size);
    file
}

/// The long file gets its old length again.
fn cut_back<S: Side>(side: &mut S, path: &str) {
    let mut file = side.open(path);
    side.seek(&mut file, (LONG - SHORT) as u32);
    side.write(&mut file, &[b'.'; SHORT]);
}
