//! Changes of bytes inside a file at every edge: of its blocks, of the file itself, and of what a card keeps of them when only
//! some of the changed blocks are stored.
use crate::by_library::Library;
use crate::by_model::Outcome;
use crate::case::{Call, Case};
use crate::forms::forms;
use crate::guard::{fail, Guarded};
use crate::judge::judge;
use crate::tally::Tally;
use crate::vast::empty_case;
use model::{Handle, Known, Mount, SeekFrom};
use volumes::{Form, Geometry, Rng, Style, Tree, Volume, ROOT};

const K: u32 = 8;

pub fn compare(library: &mut Library, tally: &mut Tally) {
    for &form in forms(Known::TODAY) {
        let mut bench = Bench { volume: card(form), library, tally };
        bench.edges();
        bench.odd_handles();
        bench.torn();
    }
}

/// Files of some blocks, of one, of none and in a directory, on a card where not all blocks have a bit if it is of version 1.
fn card(form: Form) -> Volume {
    let capacity = form.capacity() as u32;
    let mut tree = Tree::new();
    tree.file(ROOT, b"long", 9, 3 * capacity + 100);
    tree.file(ROOT, b"block", 2, capacity);
    tree.file(ROOT, b"none", 3, 0);
    let dir = tree.dir(ROOT, b"old", 4);
    tree.file(dir, b"m1", 5, capacity + 1);
    let blocks = if form == Form::V1 { 10 + 4098 } else { 60 };
    let geometry = Geometry::of_form(form, K, blocks).expect("a volume");
    tree.lay(geometry, Style { stale: true, ..Style::PLAIN }, &mut Rng::new(2)).expect("room for four files")
}

struct Bench<'a> {
    volume: Volume,
    library: &'a mut Library,
    tally: &'a mut Tally,
}

impl Bench<'_> {
    fn form(&self) -> Form {
        self.volume.geometry.form()
    }

    fn mount(&self) -> Mount {
        Mount { k: K, code: u32::from(self.form().code()), known: Known::TODAY }
    }

    fn open(&self, path: &[u8], position: usize) -> Handle {
        let mut handle = model::open(&self.volume.image, self.mount(), b"/", path).expect("the file is there");
        model::seek(&mut handle, SeekFrom::Start(position as u32)).expect("the position is in the file");
        handle
    }

    /// Makes a call on an image on both sides.
    fn judge(&mut self, image: &[u8], call: Call, handle: Handle, buf: Vec<u8>) -> Outcome {
        let (code, work) = (u32::from(self.form().code()), vec![0xff; image.len() / 4096 + 1]);
        let case = Case { image: image.to_vec(), code, handle, buf, work, ..empty_case(call) };
        match judge(&case, Guarded::End, self.library) {
            Ok(outcome) => {
                self.tally.add(call, &outcome.answer);
                outcome
            }
            Err(why) => {
                println!("{case}");
                fail(&why)
            }
        }
    }

    fn patch(&mut self, handle: Handle, len: usize) -> Outcome {
        let buf = (0..len).map(|j| (j % 251) as u8).collect();
        let image = self.volume.image.clone();
        self.judge(&image, Call::Patch, handle, buf)
    }

    /// From every edge to every edge, and to one byte behind the file's end.
    fn edges(&mut self) {
        for entry in self.volume.entries.clone().iter().filter(|entry| entry.kind == volumes::Kind::File) {
            let places = places(self.form().capacity(), entry.size as usize);
            for &position in places.iter().filter(|&&place| place <= entry.size as usize) {
                for end in places.iter().copied().filter(|&end| end >= position) {
                    let handle = self.open(&entry.path, position);
                    let outcome = self.patch(handle, end - position);
                    let expected = if end == position {
                        Err(13)
                    } else if end > entry.size as usize {
                        Err(19)
                    } else {
                        Ok(())
                    };
                    if outcome.answer.map(|_| ()) != expected {
                        fail(&format!("from {position} to {end} in {} bytes: not {expected:?}", entry.size));
                    }
                }
            }
        }
    }

    /// A handle that is none of a file's, or no longer, with buffers that would fit and that would not.
    fn odd_handles(&mut self) {
        let good = self.open(b"/long", 7);
        let (size, dir) = (good.size, self.volume.entries.iter().find(|entry| entry.path == b"/old").expect("it").chain[0]);
        let odd = [
            Handle { position: size + 1, ..good.clone() },
            Handle { size: size + 1, ..good.clone() },
            Handle { size: size - 1, ..good.clone() },
            Handle { size: u32::MAX, ..good.clone() },
            Handle { addr: good.addr + 1, ..good.clone() },
            Handle { dir, ..good.clone() },
            Handle { dir: good.addr, ..good.clone() },
            Handle { dir: 0, ..good.clone() },
            Handle { dir: self.volume.geometry.blocks(), ..good.clone() },
            Handle { len: 0, ..good.clone() },
            Handle { len: 3, ..good.clone() },
            Handle { len: usize::MAX, ..good.clone() },
        ];
        for handle in odd {
            for (len, expected) in [(0, 13), (3, 11), (9000, 11)] {
                let outcome = self.patch(handle.clone(), len);
                if outcome.answer != Err(expected) {
                    fail(&format!("an odd handle and {len} bytes are not refused by {expected}"));
                }
            }
        }
    }

    /// Whichever of the changed blocks are stored: the check passes, and every other file reads as it did.
    fn torn(&mut self) {
        let (geometry, size) = (self.volume.geometry, self.form().block_size());
        let handle = self.open(b"/long", 10);
        let before = self.volume.image.clone();
        let after = self.patch(handle, 2 * self.form().capacity() + 50).image.expect("a patch changes the image");
        let differs = |addr: &u32| after[geometry.place(*addr)..][..size] != before[geometry.place(*addr)..][..size];
        let changed: Vec<u32> = (0..geometry.blocks()).filter(differs).collect();
        if changed.len() != 4 {
            fail(&format!("a patch over three blocks changed the blocks {changed:?}"));
        }
        for subset in 0..1u32 << changed.len() {
            let mut torn = before.clone();
            for (_, &addr) in changed.iter().enumerate().filter(|(number, _)| subset >> number & 1 == 1) {
                let range = geometry.place(addr)..geometry.place(addr) + size;
                torn[range.clone()].copy_from_slice(&after[range]);
            }
            self.look_at(&torn, &before);
        }
    }

    fn look_at(&mut self, torn: &[u8], before: &[u8]) {
        let handle = self.open(b"/long", 0);
        let size = handle.size as usize;
        if self.judge(torn, Call::Check, handle.clone(), Vec::new()).answer.is_err() {
            fail("a card with some of a patch's blocks does not pass the check");
        }
        if self.judge(torn, Call::Read, handle, vec![0; size]).answer.is_err() {
            fail("a handle is not current on a card with some of a patch's blocks");
        }
        for path in [&b"/block"[..], b"/none", b"/old/m1"] {
            let handle = self.open(path, 0);
            let read = |bench: &mut Self, image: &[u8]| bench.judge(image, Call::Read, handle.clone(), vec![0; 2000]).buf;
            if read(self, torn) != read(self, before) {
                fail("another file is not what it was on a card with some of a patch's blocks");
            }
        }
    }
}

/// The edges of a file's blocks, with a byte before and behind, the middle, the file's end and one byte more.
fn places(capacity: usize, size: usize) -> Vec<usize> {
    let edges = (1..=3).flat_map(|block| [block * capacity - 1, block * capacity, block * capacity + 1]);
    let mut places: Vec<usize> = [0, 1, size / 2].into_iter().chain(edges).filter(|&place| place < size).collect();
    places.extend([size, size + 1]);
    places
}
