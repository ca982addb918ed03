//! Calls at random on a card, with a plain map beside it of what the card holds. What each call must answer follows from the
//! map and from the plain reader of `volumes`, which knows the geometry by itself.
use super::{checked, contents, work, TIME};
use model::{Answer, Mount, Refusal};
use std::collections::BTreeMap;
use volumes::{draw_accented, entries_of, fill_of, Entry, Geometry, Kind, Rng, Volume, HEADER};

pub struct Life {
    pub image: Vec<u8>,
    pub mount: Mount,
    pub geometry: Geometry,
    /// The files' bytes by their paths.
    files: BTreeMap<Vec<u8>, Vec<u8>>,
    rng: Rng,
    /// How many calls were accepted, and how many refused by 9.
    pub accepted: u32,
    pub no_room: u32,
}

impl Life {
    pub fn new(volume: Volume, mount: Mount, seed: u64) -> Life {
        let Volume { image, geometry, entries } = volume;
        let files = entries.iter().filter(|entry| entry.kind == Kind::File);
        let files = files.map(|entry| (entry.path.clone(), bytes_of(&image, geometry, entry))).collect();
        Life { image, mount, geometry, files, rng: Rng::new(seed), accepted: 0, no_room: 0 }
    }

    fn entries(&self) -> Vec<Entry> {
        entries_of(&self.image, self.geometry)
    }

    /// Makes one call and looks at all that it left.
    pub fn step(&mut self) {
        let before = self.image.clone();
        let answer = match self.rng.below(12) {
            0..=2 => self.create(Kind::File),
            3 => self.create(Kind::Dir),
            4 | 5 => self.delete(),
            6 | 7 => self.patch(),
            _ => self.write(),
        };
        match answer {
            Ok(()) => {
                self.accepted += 1;
                self.look_at_free(&before);
            }
            Err(refusal) => {
                assert!(self.image == before, "a refused call changed the card");
                self.no_room += u32::from(refusal == Refusal::NoRoom);
            }
        }
        self.look();
    }

    /// The check passes, the plain reader finds the files of the map, and the used count is true.
    fn look(&self) {
        assert_eq!(checked(&self.image, self.mount), Ok(()));
        let entries = self.entries();
        let found = entries.iter().filter(|entry| entry.kind == Kind::File);
        let found: BTreeMap<&[u8], usize> = found.map(|entry| (&entry.path[..], entry.size as usize)).collect();
        let known: BTreeMap<&[u8], usize> = self.files.iter().map(|(path, bytes)| (&path[..], bytes.len())).collect();
        assert_eq!(found, known);
        let root = fill_of(&self.image, self.geometry, self.geometry.data()).len();
        let blocks = root + entries.iter().map(|entry| entry.chain.len()).sum::<usize>();
        let used = (self.geometry.data() as usize + blocks) as u64;
        let size = self.geometry.form().block_size() as u64;
        assert_eq!(model::usage(&self.image, self.mount).map(|usage| usage.used), Ok(used * size));
    }

    /// What a call gave back is zero, and what was free before it and is free after it has the bytes that it had.
    fn look_at_free(&self, before: &[u8]) {
        let (geometry, size) = (self.geometry, self.geometry.form().block_size());
        for addr in (geometry.data()..geometry.blocks()).filter(|&addr| !geometry.taken(&self.image, addr)) {
            let bytes = &self.image[geometry.place(addr)..][..size];
            if geometry.taken(before, addr) {
                assert!(bytes.iter().all(|&byte| byte == 0), "block {addr} was given back");
            } else {
                assert!(*bytes == before[geometry.place(addr)..][..size], "block {addr} was free before");
            }
        }
    }

    fn free(&self) -> usize {
        self.geometry.free_in_reach(&self.image).count()
    }

    /// Success, or 9 where fewer blocks are free in reach.
    fn expected(&self, blocks: usize) -> Answer<()> {
        if self.free() < blocks {
            return Err(Refusal::NoRoom);
        }
        Ok(())
    }

    fn blocks_of(&self, size: usize) -> usize {
        size.div_ceil(self.geometry.form().capacity()).max(1)
    }

    fn create(&mut self, kind: Kind) -> Answer<()> {
        let entries = self.entries();
        let mut dirs = vec![(Vec::new(), self.geometry.data(), 0)];
        let inner = entries.iter().filter(|entry| entry.kind == Kind::Dir);
        dirs.extend(inner.map(|entry| (entry.path.clone(), entry.chain[0], entry.depth)));
        let (dir, addr, depth) = self.rng.pick(&dirs).clone();
        let fills = fill_of(&self.image, self.geometry, addr);
        let name = self.draw_name(&fills);
        let path = [&dir[..], b"/", &name].concat();
        if path.len() > 1024 || (kind == Kind::Dir && depth == 16) || entries.iter().any(|entry| entry.path == path) {
            return Ok(());
        }
        let fits = fills.iter().any(|used| used + HEADER + name.len() < self.geometry.form().capacity());
        let expected = self.expected(if fits { 1 } else { 2 });
        let answer = match kind {
            Kind::Dir => model::create_dir(&mut self.image, self.mount, b"/", &path, TIME, &mut work()),
            _ => model::create_file(&mut self.image, self.mount, b"/", &path, TIME, &mut work()).map(|_| ()),
        };
        assert_eq!(answer, expected, "create {:?}", path.escape_ascii().to_string());
        if kind == Kind::File && answer.is_ok() {
            self.files.insert(path, Vec::new());
        }
        answer
    }

    /// A name at random, or one that just fits into a block of the directory, or just doesn't.
    fn draw_name(&mut self, fills: &[usize]) -> Vec<u8> {
        let end = self.geometry.form().capacity() - self.rng.below(3) as usize;
        let len = end.saturating_sub(self.rng.pick(fills) + HEADER);
        if self.rng.one_in(2) && (1..=255).contains(&len) {
            return vec![b'a' + self.rng.below(26) as u8; len];
        }
        draw_accented(&mut self.rng)
    }

    fn delete(&mut self) -> Answer<()> {
        let entries = self.entries();
        let gone: Vec<&Entry> = entries.iter().filter(|entry| entry.kind != Kind::Dir || entry.size == 0).collect();
        if gone.is_empty() {
            return Ok(());
        }
        let path = self.rng.pick(&gone).path.clone();
        assert_eq!(model::delete(&mut self.image, self.mount, b"/", &path, TIME, &mut work()), Ok(()));
        self.files.remove(&path);
        assert_eq!(model::info(&self.image, self.mount, b"/", &path), Err(Refusal::NotFound));
        Ok(())
    }

    fn write(&mut self) -> Answer<()> {
        let paths: Vec<Vec<u8>> = self.files.keys().cloned().collect();
        if paths.is_empty() {
            return Ok(());
        }
        let path = self.rng.pick(&paths).clone();
        let old = self.files[&path].clone();
        let position = self.rng.below(old.len() as u64 + 1) as usize;
        let buf = self.draw_buffer(old.len(), position);
        let expected = self.expected(self.blocks_of(position + buf.len()).saturating_sub(self.blocks_of(old.len())));
        let mut handle = super::opened(&self.image, self.mount, &path, position as u32);
        let answer = model::write(&mut self.image, self.mount, &mut handle, &buf, TIME, &mut work());
        assert_eq!(answer, expected.map(|()| buf.len()), "write {} bytes at {position}", buf.len());
        if answer.is_ok() {
            assert_eq!((handle.size, handle.position), ((position + buf.len()) as u32, (position + buf.len()) as u32));
            self.files.insert(path.clone(), [&old[..position], &buf].concat());
        }
        assert_eq!(contents(&self.image, self.mount, &path).as_ref(), Ok(&self.files[&path]));
        answer.map(|_| ())
    }

    /// Some bytes in the middle of a file; one byte too many at times.
    fn patch(&mut self) -> Answer<()> {
        let paths: Vec<Vec<u8>> = self.files.keys().cloned().collect();
        if paths.is_empty() {
            return Ok(());
        }
        let path = self.rng.pick(&paths).clone();
        let old = self.files[&path].clone();
        let position = self.rng.below(old.len() as u64 + 1) as usize;
        let len = self.rng.between(1, (old.len() - position + 1) as u64) as usize;
        let buf: Vec<u8> = (0..len).map(|_| self.rng.next_u64() as u8).collect();
        let mut handle = super::opened(&self.image, self.mount, &path, position as u32);
        let mut other = handle.clone();
        let answer = model::patch(&mut self.image, self.mount, &mut handle, &buf, TIME, &mut work());
        let past = position + len > old.len();
        assert_eq!(answer, if past { Err(Refusal::PastEnd) } else { Ok(len) }, "{len} bytes at {position}");
        if answer.is_ok() {
            self.files.insert(path.clone(), [&old[..position], &buf, &old[position + len..]].concat());
            let (size, position) = (old.len() as u32, (position + len) as u32);
            assert_eq!((handle.size, handle.position), (size, position));
            assert_eq!(
                model::read(&self.image, self.mount, &mut other, &mut vec![0; len]),
                Ok(len),
                "the other handle is current"
            );
            assert_eq!(other, handle);
        }
        assert_eq!(contents(&self.image, self.mount, &path).as_ref(), Ok(&self.files[&path]));
        answer.map(|_| ())
    }

    /// Up to a block's edge, to the last free block or one byte more where these are few, and any length.
    fn draw_buffer(&mut self, size: usize, position: usize) -> Vec<u8> {
        let capacity = self.geometry.form().capacity();
        let all = (self.blocks_of(size) + self.free()) * capacity - position;
        let len = match self.rng.below(4) {
            0 if all < 40_000 => all + self.rng.below(2) as usize,
            0 | 1 => capacity * self.rng.between(1, 3) as usize - position % capacity + self.rng.below(2) as usize,
            _ => self.rng.between(1, 3000) as usize,
        };
        let mut buf = vec![0; len];
        self.rng.fill(&mut buf);
        buf
    }
}

/// The bytes of a file by its chain.
fn bytes_of(image: &[u8], geometry: Geometry, entry: &Entry) -> Vec<u8> {
    let data = |&addr: &u32| image[geometry.place(addr)..][4..geometry.form().block_size()].to_vec();
    let mut bytes: Vec<u8> = entry.chain.iter().flat_map(data).collect();
    bytes.truncate(entry.size as usize);
    bytes
}
