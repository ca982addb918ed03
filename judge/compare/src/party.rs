//! Who makes the calls on our side: the proved library, or the model in its place where the library doesn't take a card yet.
use mfs::{Handle, Info, Kind, Listed, Refusal, SeekFrom, Usage};
use model::{Answer, Known, Mount};

type Made<T> = Result<T, Refusal>;

/// The calls, as the library's bindings have them.
pub trait Party: Sync {
    fn name(&self) -> &'static str;
    /// What it takes, and which rules it follows.
    fn known(&self) -> Known;
    fn format(&self, image: &mut [u8], k: u32) -> Made<()>;
    fn usage(&self, image: &[u8], k: u32) -> Made<Usage>;
    fn check(&self, image: &[u8], k: u32, work: &mut [u8]) -> Made<()>;
    fn open(&self, image: &[u8], k: u32, cwd: &[u8], path: &[u8]) -> Made<Handle>;
    fn info(&self, image: &[u8], k: u32, cwd: &[u8], path: &[u8]) -> Made<Info>;
    fn list(&self, image: &[u8], k: u32, cwd: &[u8], path: &[u8], from: u32, buf: &mut [u8]) -> Made<Listed>;
    fn read(&self, image: &[u8], k: u32, handle: &mut Handle, buf: &mut [u8]) -> Made<usize>;
    fn seek(&self, handle: &mut Handle, from: SeekFrom) -> Made<()>;
    fn create_file(&self, image: &mut [u8], k: u32, cwd: &[u8], path: &[u8], time: u64, work: &mut [u8]) -> Made<Handle>;
    fn create_dir(&self, image: &mut [u8], k: u32, cwd: &[u8], path: &[u8], time: u64, work: &mut [u8]) -> Made<()>;
    fn delete(&self, image: &mut [u8], k: u32, cwd: &[u8], path: &[u8], time: u64, work: &mut [u8]) -> Made<()>;
    fn write(&self, image: &mut [u8], k: u32, handle: &mut Handle, buf: &[u8], time: u64, work: &mut [u8]) -> Made<usize>;
    fn patch(&self, image: &mut [u8], k: u32, handle: &mut Handle, buf: &[u8], time: u64, work: &mut [u8]) -> Made<usize>;
}

pub const LIBRARY: &dyn Party = &Library;
/// The model, with all the versions that it knows.
pub const MODEL: &dyn Party = &Model;

/// Who makes the calls on cards of version 1.
pub fn for_old_cards() -> &'static dyn Party {
    if Known::TODAY.version_1 {
        LIBRARY
    } else {
        MODEL
    }
}

struct Library;

impl Party for Library {
    fn name(&self) -> &'static str {
        "library"
    }

    fn known(&self) -> Known {
        Known::TODAY
    }

    fn format(&self, image: &mut [u8], k: u32) -> Made<()> {
        mfs::format(image, k, mfs::CODE_512)
    }

    fn usage(&self, image: &[u8], k: u32) -> Made<Usage> {
        mfs::usage(image, k, mfs::CODE_512)
    }

    fn check(&self, image: &[u8], k: u32, work: &mut [u8]) -> Made<()> {
        mfs::check(image, k, mfs::CODE_512, work)
    }

    fn open(&self, image: &[u8], k: u32, cwd: &[u8], path: &[u8]) -> Made<Handle> {
        mfs::open(image, k, mfs::CODE_512, cwd, path)
    }

    fn info(&self, image: &[u8], k: u32, cwd: &[u8], path: &[u8]) -> Made<Info> {
        mfs::info(image, k, mfs::CODE_512, cwd, path)
    }

    fn list(&self, image: &[u8], k: u32, cwd: &[u8], path: &[u8], from: u32, buf: &mut [u8]) -> Made<Listed> {
        mfs::list(image, k, mfs::CODE_512, cwd, path, from, buf)
    }

    fn read(&self, image: &[u8], k: u32, handle: &mut Handle, buf: &mut [u8]) -> Made<usize> {
        mfs::read(image, k, mfs::CODE_512, handle, buf)
    }

    fn seek(&self, handle: &mut Handle, from: SeekFrom) -> Made<()> {
        mfs::seek(handle, from)
    }

    fn create_file(&self, image: &mut [u8], k: u32, cwd: &[u8], path: &[u8], time: u64, work: &mut [u8]) -> Made<Handle> {
        mfs::create_file(image, k, mfs::CODE_512, cwd, path, time, work)
    }

    fn create_dir(&self, image: &mut [u8], k: u32, cwd: &[u8], path: &[u8], time: u64, work: &mut [u8]) -> Made<()> {
        mfs::create_dir(image, k, mfs::CODE_512, cwd, path, time, work)
    }

    fn delete(&self, image: &mut [u8], k: u32, cwd: &[u8], path: &[u8], time: u64, work: &mut [u8]) -> Made<()> {
        mfs::delete(image, k, mfs::CODE_512, cwd, path, time, work)
    }

    fn write(&self, image: &mut [u8], k: u32, handle: &mut Handle, buf: &[u8], time: u64, work: &mut [u8]) -> Made<usize> {
        mfs::write(image, k, mfs::CODE_512, handle, buf, time, work)
    }

    fn patch(&self, image: &mut [u8], k: u32, handle: &mut Handle, buf: &[u8], time: u64, work: &mut [u8]) -> Made<usize> {
        mfs::patch(image, k, mfs::CODE_512, handle, buf, time, work)
    }
}

struct Model;

impl Party for Model {
    fn name(&self) -> &'static str {
        "model"
    }

    fn known(&self) -> Known {
        Known::ALL
    }

    fn format(&self, image: &mut [u8], k: u32) -> Made<()> {
        made(model::format(image, mount(k)))
    }

    fn usage(&self, image: &[u8], k: u32) -> Made<Usage> {
        made(model::usage(image, mount(k)).map(|u| Usage { size: u.size, used: u.used, free: u.free }))
    }

    fn check(&self, image: &[u8], k: u32, work: &mut [u8]) -> Made<()> {
        made(model::check(image, mount(k), work))
    }

    fn open(&self, image: &[u8], k: u32, cwd: &[u8], path: &[u8]) -> Made<Handle> {
        made(model::open(image, mount(k), cwd, path).map(handed))
    }

    fn info(&self, image: &[u8], k: u32, cwd: &[u8], path: &[u8]) -> Made<Info> {
        made(model::info(image, mount(k), cwd, path).map(told))
    }

    fn list(&self, image: &[u8], k: u32, cwd: &[u8], path: &[u8], from: u32, buf: &mut [u8]) -> Made<Listed> {
        let listed = model::list(image, mount(k), cwd, path, from, buf);
        made(listed.map(|l| Listed { bytes: l.bytes, next: l.next }))
    }

    fn read(&self, image: &[u8], k: u32, handle: &mut Handle, buf: &mut [u8]) -> Made<usize> {
        through(handle, |theirs| model::read(image, mount(k), theirs, buf))
    }

    fn seek(&self, handle: &mut Handle, from: SeekFrom) -> Made<()> {
        through(handle, |theirs| model::seek(theirs, seek_from(from)))
    }

    fn create_file(&self, image: &mut [u8], k: u32, cwd: &[u8], path: &[u8], time: u64, work: &mut [u8]) -> Made<Handle> {
        made(model::create_file(image, mount(k), cwd, path, time, work).map(handed))
    }

    fn create_dir(&self, image: &mut [u8], k: u32, cwd: &[u8], path: &[u8], time: u64, work: &mut [u8]) -> Made<()> {
        made(model::create_dir(image, mount(k), cwd, path, time, work))
    }

    fn delete(&self, image: &mut [u8], k: u32, cwd: &[u8], path: &[u8], time: u64, work: &mut [u8]) -> Made<()> {
        made(model::delete(image, mount(k), cwd, path, time, work))
    }

    fn write(&self, image: &mut [u8], k: u32, handle: &mut Handle, buf: &[u8], time: u64, work: &mut [u8]) -> Made<usize> {
        through(handle, |theirs| model::write(image, mount(k), theirs, buf, time, work))
    }

    fn patch(&self, image: &mut [u8], k: u32, handle: &mut Handle, buf: &[u8], time: u64, work: &mut [u8]) -> Made<usize> {
        through(handle, |theirs| model::patch(image, mount(k), theirs, buf, time, work))
    }
}

/// The original's blocks have 512 bytes.
fn mount(k: u32) -> Mount {
    Mount { k, code: 0, known: Known::ALL }
}

fn made<T>(answer: Answer<T>) -> Made<T> {
    answer.map_err(|refusal| Refusal::from_number(refusal.number()).expect("a refusal has a number"))
}

fn handed(handle: model::Handle) -> Handle {
    Handle::from_parts(handle.dir, handle.addr, handle.size, handle.position, handle.name, handle.len)
}

fn told(info: model::Info) -> Info {
    let kind = match info.kind {
        model::Kind::Dir => Kind::Dir,
        model::Kind::File => Kind::File,
        model::Kind::Device => Kind::Device,
    };
    Info { kind, size: info.size, time: info.time, name: info.name[..info.len].to_vec() }
}

/// A call of the model with our handle, which it may move.
fn through<T>(handle: &mut Handle, call: impl FnOnce(&mut model::Handle) -> Answer<T>) -> Made<T> {
    let mut name = [0; mfs::NAME_LEN];
    name[..handle.name().len()].copy_from_slice(handle.name());
    let (dir, addr, len) = (handle.dir(), handle.addr(), handle.name().len());
    let mut theirs = model::Handle { dir, addr, size: handle.size(), position: handle.position(), name, len };
    let answer = made(call(&mut theirs));
    *handle = handed(theirs);
    answer
}

fn seek_from(from: SeekFrom) -> model::SeekFrom {
    match from {
        SeekFrom::Start(to) => model::SeekFrom::Start(to),
        SeekFrom::Current(by) => model::SeekFrom::Current(by),
        SeekFrom::End(by) => model::SeekFrom::End(by),
    }
}
