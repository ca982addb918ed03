//! The two sides that are timed, behind one set of calls, so that one driver serves both. Every call is expected to be accepted.
use mfs::{Handle, Kind};
use original_k8::{File, Turn, K};
use std::hint::black_box;
use volumes::{Geometry, BLOCK_SIZE};

/// The time that both clocks show.
const TIME: u64 = 1_700_000_000;
const ROOT: &[u8] = b"/";
/// Bytes of a page of memory, or a part of them.
const PAGE: usize = 4096;

/// What is known of an entry.
pub struct Entry {
    pub kind: u8,
    pub size: u32,
    pub time: u64,
    pub name: Vec<u8>,
}

pub trait Side {
    /// An open file.
    type Open;

    /// The whole check, where the side has one.
    fn check(&mut self);

    fn format(&mut self);

    /// Bytes of the volume, of its used blocks, and the rest.
    fn usage(&self) -> [u64; 3];

    fn info(&self, path: &str) -> Entry;
    fn open(&self, path: &str) -> Self::Open;

    /// Lists a directory from its first entry on, and counts the bytes.
    fn list(&self, path: &str, buf: &mut [u8]) -> usize;

    fn read(&self, file: &mut Self::Open, buf: &mut [u8]) -> usize;
    fn seek(&self, file: &mut Self::Open, position: u32);
    fn write(&mut self, file: &mut Self::Open, bytes: &[u8]);
    /// Puts bytes over those at the position, and keeps the file's tail.
    fn patch(&mut self, file: &mut Self::Open, bytes: &[u8]);
    fn create(&mut self, path: &str) -> Self::Open;
    fn delete(&mut self, path: &str);

    /// The file's first address and its size.
    fn place(file: &Self::Open) -> [u32; 2];
}

/// The proved library on an image of its own.
pub struct Ours {
    image: Vec<u8>,
    work: Vec<u8>,
}

impl Ours {
    /// Writes to every page of the image first, so that no call is the one for which the system finds the memory.
    pub fn new(mut image: Vec<u8>) -> Ours {
        for page in image.chunks_mut(PAGE) {
            page[0] = black_box(page[0]);
        }
        Ours { work: vec![0; mfs::work_len(image.len())], image }
    }

    pub fn image(&self) -> &[u8] {
        &self.image
    }
}

impl Side for Ours {
    type Open = Handle;

    fn check(&mut self) {
        mfs::check(&self.image, K, mfs::CODE_512, &mut self.work).expect("a well-formed volume");
    }

    fn format(&mut self) {
        mfs::format(&mut self.image, K, mfs::CODE_512).expect("format");
    }

    fn usage(&self) -> [u64; 3] {
        let usage = mfs::usage(&self.image, K, mfs::CODE_512).expect("usage");
        [usage.size, usage.used, usage.free]
    }

    fn info(&self, path: &str) -> Entry {
        let info = mfs::info(&self.image, K, mfs::CODE_512, ROOT, path.as_bytes()).expect("info");
        let kind = match info.kind {
            Kind::Dir => 0,
            Kind::File => 1,
            Kind::Device => 2,
        };
        Entry { kind, size: info.size, time: info.time, name: info.name }
    }

    fn open(&self, path: &str) -> Handle {
        mfs::open(&self.image, K, mfs::CODE_512, ROOT, path.as_bytes()).expect("open")
    }

    fn list(&self, path: &str, buf: &mut [u8]) -> usize {
        mfs::list(&self.image, K, mfs::CODE_512, ROOT, path.as_bytes(), 0, buf).expect("list").bytes
    }

    fn read(&self, file: &mut Handle, buf: &mut [u8]) -> usize {
        mfs::read(&self.image, K, mfs::CODE_512, file, buf).expect("read")
    }

    fn seek(&self, file: &mut Handle, position: u32) {
        mfs::seek(file, mfs::SeekFrom::Start(position)).expect("seek");
    }

    fn write(&mut self, file: &mut Handle, bytes: &[u8]) {
        mfs::write(&mut self.image, K, mfs::CODE_512, file, bytes, TIME, &mut self.work).expect("write");
    }

    fn patch(&mut self, file: &mut Handle, bytes: &[u8]) {
        mfs::patch(&mut self.image, K, mfs::CODE_512, file, bytes, TIME, &mut self.work).expect("patch");
    }

    fn create(&mut self, path: &str) -> Handle {
        mfs::create_file(&mut self.image, K, mfs::CODE_512, ROOT, path.as_bytes(), TIME, &mut self.work).expect("create")
    }

    fn delete(&mut self, path: &str) {
        mfs::delete(&mut self.image, K, mfs::CODE_512, ROOT, path.as_bytes(), TIME, &mut self.work).expect("delete");
    }

    fn place(file: &Handle) -> [u32; 2] {
        [file.addr(), file.size()]
    }
}

/// The original Rust on its memory device.
pub struct Original(Turn);

// Where the original is not at hand its types have no values, and the compiler knows what is never reached.
#[allow(unreachable_code, unused_variables)]
impl Original {
    /// The original, if it was at hand when this program was built.
    pub fn at_hand() -> Option<Original> {
        original_k8::PRESENT.then(|| {
            let turn = Turn::take();
            turn.set_time(TIME);
            turn.set_dir("/");
            Original(turn)
        })
    }

    /// Puts a copy of an image on the device.
    pub fn load(&mut self, image: &[u8]) {
        self.0.load(image);
    }

    /// Ends the program where the device is not the other side's image. A block that is given back keeps its bytes on the device and is
    /// zero there: so what is free and zero there becomes zero on the device first.
    pub fn assert_image(&self, image: &[u8], after: &str) {
        let geometry = Geometry::of(image, K).expect("a volume");
        let bytes = |addr: u32| &image[geometry.place(addr)..][..BLOCK_SIZE];
        for addr in (geometry.data()..geometry.blocks()).filter(|&addr| !geometry.taken(image, addr)) {
            if bytes(addr).iter().all(|&byte| byte == 0) {
                self.0.wipe(addr);
            }
        }
        let difference = self.0.first_difference(image);
        assert_eq!(difference, None, "the images differ after: {after}; the number is that of the first block that does");
    }
}

#[allow(unreachable_code, unused_variables)]
impl Side for Original {
    type Open = File;

    fn check(&mut self) {}

    fn format(&mut self) {
        self.0.format();
    }

    fn usage(&self) -> [u64; 3] {
        self.0.usage().map(|bytes| bytes as u64)
    }

    fn info(&self, path: &str) -> Entry {
        let info = self.0.info(path).expect("info");
        Entry { kind: info.kind, size: info.size, time: info.time, name: info.name.into_bytes() }
    }

    fn open(&self, path: &str) -> File {
        self.0.open(path).expect("open")
    }

    fn list(&self, path: &str, buf: &mut [u8]) -> usize {
        self.0.open_dir(path).expect("open").read(&self.0, buf).expect("list")
    }

    fn read(&self, file: &mut File, buf: &mut [u8]) -> usize {
        file.read(&self.0, buf).expect("read")
    }

    fn seek(&self, file: &mut File, position: u32) {
        file.seek(original_k8::SeekFrom::Start(position)).expect("seek");
    }

    fn write(&mut self, file: &mut File, bytes: &[u8]) {
        assert_eq!(file.write(&self.0, bytes), Ok(bytes.len()), "write");
    }

    /// There is no such call: the file's tail is read, and written once more behind the bytes.
    fn patch(&mut self, file: &mut File, bytes: &[u8]) {
        let (start, end) = (file.position(), file.position() + bytes.len() as u32);
        let mut behind = vec![0; file.size() - end as usize];
        self.seek(file, end);
        assert_eq!(file.read(&self.0, &mut behind), Ok(behind.len()), "read");
        self.seek(file, start);
        self.write(file, &[bytes, &behind].concat());
        self.seek(file, end);
    }

    fn create(&mut self, path: &str) -> File {
        self.0.create_file(path).expect("create")
    }

    fn delete(&mut self, path: &str) {
        self.0.delete(path).expect("delete");
    }

    fn place(file: &File) -> [u32; 2] {
        [file.addr(), file.size() as u32]
    }
}
