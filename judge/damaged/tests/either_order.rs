//! Two writes through handles on two files, in the one order and in the other (S12): the library beside the model, at
//! random, and the volume on which one order alone is accepted.
use mfs::raw;
use model::{Handle, SeekFrom};
use volumes::{entries, random, Entry, Geometry, Kind, Rng, Size, Style, Tree, Wish, BLOCK_SIZE, CAPACITY, ROOT};

/// The size code of the images: blocks of 512 bytes.
const CODE: u32 = mfs::CODE_512;

const K: u32 = 8;
const NO_ROOM: u32 = 9;

/// A write that is to come.
struct Write {
    handle: Handle,
    buf: Vec<u8>,
    time: u64,
}

/// The byte count or the refusal's number, and the handle afterwards.
type Outcome = (Result<usize, u32>, Handle);

impl Write {
    /// Of the bytes `buf` at the position, through a handle that a fresh open gives.
    fn new(image: &[u8], path: &[u8], position: u32, buf: Vec<u8>, time: u64) -> Write {
        let mut handle = model::open(image, K, b"/", path).expect("the file is there");
        model::seek(&mut handle, SeekFrom::Start(position)).expect("the position is in the file");
        Write { handle, buf, time }
    }

    /// Makes it on the image, by the model and by the library, which leave the same.
    fn run(&self, image: &mut Vec<u8>) -> Outcome {
        let (mut theirs, mut handle) = (image.clone(), self.handle.clone());
        let mut work = vec![0; mfs::work_len(image.len())];
        let answer = model::write(&mut theirs, K, &mut handle, &self.buf, self.time, &mut work);
        let ours = self.run_library(image);
        assert_eq!(ours, (answer.map_err(|refusal| refusal.number()), handle), "the answer and the handle");
        assert!(*image == theirs, "the image that a write leaves");
        ours
    }

    fn run_library(&self, image: &mut [u8]) -> Outcome {
        let mut handle = self.handle.clone();
        let mut number = [handle.dir, handle.addr, handle.size, handle.position];
        let (mut work, mut bytes) = (vec![0; mfs::work_len(image.len())], 0);
        let (img, img_len, buf, buf_len) = (image.as_mut_ptr(), image.len(), self.buf.as_ptr(), self.buf.len());
        let (work, work_len) = (work.as_mut_ptr(), work.len());
        let refusal = unsafe {
            let (name, len) = (&handle.name, handle.len);
            raw::mfs_c_write(img, img_len, K, CODE, &mut number, name, len, buf, buf_len, self.time, work, work_len, &mut bytes)
        };
        [handle.dir, handle.addr, handle.size, handle.position] = number;
        (if refusal == 0 { Ok(bytes) } else { Err(refusal) }, handle)
    }
}

/// What two writes leave, one after the other.
struct Turn {
    image: Vec<u8>,
    first: Outcome,
    second: Outcome,
}

impl Turn {
    fn new(image: &[u8], first: &Write, second: &Write) -> Turn {
        let mut image = image.to_vec();
        let first = first.run(&mut image);
        let second = second.run(&mut image);
        Turn { image, first, second }
    }

    fn accepted(&self) -> bool {
        self.first.0.is_ok() && self.second.0.is_ok()
    }

    fn refused_by(&self, number: u32) -> bool {
        self.first.0 == Err(number) || self.second.0 == Err(number)
    }

    fn used(&self) -> u64 {
        model::usage(&self.image, K).expect("a volume").used
    }

    fn file(&self, path: &[u8]) -> Entry {
        entries(&self.image, K).into_iter().find(|entry| entry.path == path).expect("the file is still there")
    }

    /// All bytes of a file, along its chain.
    fn contents(&self, entry: &Entry) -> Vec<u8> {
        let data = |block: &u32| &self.image[*block as usize * BLOCK_SIZE + 4..][..CAPACITY];
        let mut bytes: Vec<u8> = entry.chain.iter().flat_map(data).copied().collect();
        bytes.truncate(entry.size as usize);
        bytes
    }
}

/// Both orders were accepted, so they leave the same of both files; whether a block has another address.
fn agree(one: &Turn, other: &Turn, paths: [&[u8]; 2]) -> bool {
    assert_eq!(one.first, other.second, "the answer and the handle of the first write");
    assert_eq!(one.second, other.first, "the answer and the handle of the second write");
    assert_eq!(one.used(), other.used(), "the used count");
    let mut moved = false;
    for path in paths {
        let (a, b) = (one.file(path), other.file(path));
        assert_eq!((a.size, a.time), (b.size, b.time), "size and time of {path:?}");
        assert!(one.contents(&a) == other.contents(&b), "the bytes of {path:?}");
        moved |= a.chain != b.chain;
    }
    moved
}

/// A write somewhere in the file, of up to three blocks; often it ends at the edge of a block.
fn draw(image: &[u8], entry: &Entry, rng: &mut Rng) -> Write {
    let position = rng.below(u64::from(entry.size) + 1) as u32;
    let edge = (CAPACITY as u64).saturating_sub(u64::from(position) % CAPACITY as u64);
    let len = if rng.one_in(3) { edge + rng.below(2) } else { rng.below(3 * CAPACITY as u64) };
    let mut buf = vec![0; len as usize];
    rng.fill(&mut buf);
    Write::new(image, &entry.path, position, buf, rng.next_u64())
}

#[test]
fn two_files_in_either_order() {
    let (mut accepted, mut moved, mut one_alone) = (0, 0, 0);
    for seed in 0..250 {
        let mut rng = Rng::new(seed);
        let free = Some(rng.below(7) as u32);
        let made = random(Wish { k: K, size: Size::Usual, entries: 12, depth: 3, free }, &mut rng);
        let mut files: Vec<&Entry> = made.entries.iter().filter(|e| e.kind == Kind::File && e.chain.len() < 100).collect();
        if files.len() < 2 {
            continue;
        }
        rng.shuffle(&mut files);
        let (a, b) = (draw(&made.image, files[0], &mut rng), draw(&made.image, files[1], &mut rng));
        let (one, other) = (Turn::new(&made.image, &a, &b), Turn::new(&made.image, &b, &a));
        if one.accepted() && other.accepted() {
            accepted += 1;
            moved += u32::from(agree(&one, &other, [&files[0].path, &files[1].path]));
        } else if one.accepted() || other.accepted() {
            one_alone += 1;
            assert!(one.refused_by(NO_ROOM) || other.refused_by(NO_ROOM), "what one order alone is refused by");
        }
    }
    println!("both orders accepted: {accepted}, with other addresses: {moved}; one order alone: {one_alone}");
    assert!(accepted >= 100 && moved >= 10 && one_alone >= 5, "{accepted}, {moved}, {one_alone}");
}

/// No block is free. `/a` gives one back, and `/b` takes one: so `/b` may be written after `/a`, not before.
#[test]
fn one_order_alone() {
    let mut tree = Tree::new();
    tree.file(ROOT, b"a", 1, CAPACITY as u32 + 1);
    tree.file(ROOT, b"b", 1, CAPACITY as u32);
    let geometry = Geometry::new(K, 4096).expect("a volume of that size");
    let made = tree.lay(geometry, Style { free: Some(0), ..Style::PLAIN }, &mut Rng::new(1)).expect("the tree fits");
    let a = Write::new(&made.image, b"/a", 0, vec![b'x'], 2);
    let b = Write::new(&made.image, b"/b", CAPACITY as u32, vec![b'y'], 3);
    let (one, other) = (Turn::new(&made.image, &a, &b), Turn::new(&made.image, &b, &a));
    assert_eq!((one.first.0, one.second.0), (Ok(1), Ok(1)), "/a, then /b");
    assert_eq!((other.first.0, other.second.0), (Err(NO_ROOM), Ok(1)), "/b, then /a");
    assert_ne!(one.file(b"/b").size, other.file(b"/b").size);
    assert_ne!(one.used(), other.used());
}
