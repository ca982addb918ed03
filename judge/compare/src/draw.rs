//! Calls at random, aimed at what the volume holds.
use crate::call::{Call, FileState, Place, Seek, SLOTS};
use crate::sides::Sides;
use std::collections::VecDeque;
use volumes::{draw_accented, draw_name, fill_of, names_by_block, Entry, Kind, Rng, CAPACITY, HEADER};

/// Lengths at the edges of a block.
const LENS: [usize; 12] = [0, 1, 2, 506, 507, 508, 509, 1015, 1016, 1017, 1524, 2540];
/// Paths that name nothing as they should.
const ODD_PATHS: [&[u8]; 20] = [
    b"", b"/", b"//", b"///", b".", b"..", b"/.", b"/..", b"//a", b"a//b", b"/a//b", b"a/", b"/a/", b"a/b/", b" ", b"/ /",
    b"/\x1f", b"/a\x7f", b"/\xff", b"a\n",
];
const ODD_DIRS: [&[u8]; 8] = [b"/", b"//", b"/a", b"/a/", b"", b"x", b"/none", b"/\x01"];

/// Draws calls for the volume that both sides are on.
pub struct Drawer {
    rng: Rng,
    /// The longest read, write or listing.
    longest: usize,
    /// Whether new names may have characters of more than one byte.
    accents: bool,
    /// Whether bytes inside files are changed.
    patches: bool,
    /// Calls that belong together and come next.
    queue: VecDeque<Call>,
}

impl Drawer {
    pub fn new(rng: Rng, longest: usize) -> Drawer {
        Drawer { rng, longest, accents: false, patches: false, queue: VecDeque::new() }
    }

    /// With characters of two to four bytes in new names.
    pub fn with_accents(self) -> Drawer {
        Drawer { accents: true, ..self }
    }

    /// With changes of bytes inside files.
    pub fn with_patches(self, patches: bool) -> Drawer {
        Drawer { patches, ..self }
    }

    /// The next call.
    pub fn draw(&mut self, sides: &Sides) -> Call {
        if let Some(call) = self.queue.pop_front() {
            return call;
        }
        match self.rng.below(1000) {
            0 => Call::Format,
            1..=9 => self.draw_regrown(sides),
            10..=14 => self.draw_paged(sides),
            15..=19 => Call::Usage,
            20..=129 => self.draw_open(sides),
            130..=209 => Call::Info { place: self.draw_place(sides) },
            210..=309 => self.draw_list(sides),
            310..=459 => self.draw_read(sides),
            460..=579 => self.draw_seek(sides),
            580..=679 => self.draw_create_file(sides),
            680..=739 => Call::CreateDir { place: self.draw_new_place(sides), time: self.draw_time() },
            740..=839 => Call::Delete { place: self.draw_doomed(sides), time: self.draw_time() },
            _ if self.patches && self.rng.one_in(3) => self.draw_patch(sides),
            _ => self.draw_write(sides),
        }
    }

    fn slot(&mut self) -> usize {
        self.rng.below(SLOTS as u64) as usize
    }

    fn draw_time(&mut self) -> u64 {
        match self.rng.below(4) {
            0 => self.rng.next_u64(),
            1 => self.rng.below(2),
            _ => self.rng.between(1_700_000_000, 1_800_000_000),
        }
    }

    /// One of the lengths, and sometimes one byte more or less than `exact`.
    fn draw_len(&mut self, exact: usize) -> usize {
        let len = match self.rng.below(8) {
            0..=2 => *self.rng.pick(&LENS),
            3 | 4 => (exact + self.rng.below(3) as usize).saturating_sub(1),
            5 => self.rng.below(64) as usize,
            6 => self.rng.below(3000) as usize,
            _ => self.rng.below(self.longest as u64 + 1) as usize,
        };
        len.min(self.longest)
    }

    fn draw_open(&mut self, sides: &Sides) -> Call {
        let slot = self.slot();
        let other = sides.ours.file(self.slot()).map(|file| file.addr);
        let same_file = sides.entries().iter().find(|entry| Some(entry.chain[0]) == other);
        let files: Vec<&Entry> = sides.entries().iter().filter(|entry| entry.kind == Kind::File).collect();
        let place = match (self.rng.below(10), same_file) {
            // Often the file that another handle is open on.
            (0..=2, Some(entry)) => self.spell(&entry.path, sides),
            (0..=7, _) if !files.is_empty() => {
                let path = &self.rng.pick(&files).path;
                self.spell(path, sides)
            }
            _ if files.is_empty() => return self.draw_create_file(sides),
            _ => self.draw_place(sides),
        };
        Call::Open { slot, place }
    }

    fn draw_create_file(&mut self, sides: &Sides) -> Call {
        Call::CreateFile { slot: self.slot(), place: self.draw_new_place(sides), time: self.draw_time() }
    }

    /// One handle reads a file while another cuts it and lets it grow to its old size, often with blocks from elsewhere.
    fn draw_regrown(&mut self, sides: &Sides) -> Call {
        let long = |entry: &&Entry| entry.kind == Kind::File && (CAPACITY..self.longest).contains(&(entry.size as usize));
        let files: Vec<&Entry> = sides.entries().iter().filter(long).collect();
        if files.is_empty() {
            return self.draw_create_file(sides);
        }
        let file = *self.rng.pick(&files);
        let (path, size) = (file.path.clone(), file.size as usize);
        let reader = self.slot();
        let writer = (reader + 1) % SLOTS;
        let cut = self.rng.below(size as u64) as usize;
        let first = self.rng.between(1, (size - cut) as u64) as usize;
        let len = self.rng.between(CAPACITY as u64, size as u64) as usize;
        let place = self.spell(&path, sides);
        self.queue.push_back(Call::Read { slot: reader, len });
        self.queue.push_back(Call::Open { slot: writer, place });
        self.queue.push_back(Call::Seek { slot: writer, to: Seek::Start(cut as u32) });
        self.push_write(writer, first);
        if self.rng.one_in(2) {
            let place = self.draw_vacant(sides);
            let time = self.draw_time();
            self.queue.push_back(Call::CreateDir { place, time });
        }
        self.push_write(writer, size - cut - first);
        if self.rng.one_in(2) {
            self.push_write(reader, 1);
        } else {
            let len = self.draw_len(size);
            self.queue.push_back(Call::Read { slot: reader, len });
        }
        Call::Open { slot: reader, place: self.spell(&path, sides) }
    }

    fn push_write(&mut self, slot: usize, len: usize) {
        if len > 0 {
            let (seed, time) = (self.rng.below(251) as u8, self.draw_time());
            self.queue.push_back(Call::Write { slot, len, seed, time });
        }
    }

    /// A listing goes on after entries before its place were deleted.
    fn draw_paged(&mut self, sides: &Sides) -> Call {
        let (path, addr) = self.draw_dir(sides);
        let page = self.slot();
        let mut inside: Vec<&Entry> = sides.entries().iter().filter(|e| e.dir == addr && e.kind != Kind::Dir).collect();
        self.rng.shuffle(&mut inside);
        for entry in inside.iter().take(3) {
            let place = self.spell(&entry.path, sides);
            let time = self.draw_time();
            self.queue.push_back(Call::Delete { place, time });
            self.queue.push_back(Call::ListOn { page, len: self.longest });
        }
        Call::List { page, place: self.spell(&path, sides), from: 0, len: self.draw_list_len(sides, addr).max(300) }
    }

    fn draw_list(&mut self, sides: &Sides) -> Call {
        let page = self.slot();
        if self.rng.one_in(2) && sides.ours.page(page).is_some() {
            return Call::ListOn { page, len: self.draw_list_len(sides, sides.geometry().data()) };
        }
        if self.rng.one_in(6) {
            return Call::List { page, place: self.draw_place(sides), from: 0, len: self.longest };
        }
        let (path, addr) = self.draw_dir(sides);
        let count = names_by_block(&sides.ours.image, sides.geometry(), addr).concat().len() as u64;
        let from = if self.rng.one_in(2) { 0 } else { self.rng.below(count + 1) as u32 };
        let len = self.draw_list_len(sides, addr);
        Call::List { page, place: self.spell(&path, sides), from, len }
    }

    /// Often just the records of some entries, one byte more or less.
    fn draw_list_len(&mut self, sides: &Sides, dir: u32) -> usize {
        let names = names_by_block(&sides.ours.image, sides.geometry(), dir).concat();
        let count = self.rng.below(names.len() as u64 + 1) as usize;
        let first = self.rng.below(count as u64 + 1) as usize;
        let exact = names[first..count].iter().map(|name| 14 + name.len()).sum();
        self.draw_len(exact)
    }

    /// An open slot and its file.
    fn draw_opened(&mut self, sides: &Sides) -> Option<(usize, FileState)> {
        let open: Vec<usize> = (0..SLOTS).filter(|&slot| sides.ours.file(slot).is_some()).collect();
        if open.is_empty() {
            return None;
        }
        let slot = *self.rng.pick(&open);
        sides.ours.file(slot).map(|file| (slot, file))
    }

    fn draw_read(&mut self, sides: &Sides) -> Call {
        let Some((slot, file)) = self.draw_opened(sides) else { return self.draw_open(sides) };
        let exact = (file.size - file.position) as usize;
        Call::Read { slot, len: self.draw_len(exact) }
    }

    fn draw_seek(&mut self, sides: &Sides) -> Call {
        let Some((slot, file)) = self.draw_opened(sides) else { return self.draw_open(sides) };
        let (size, position) = (i64::from(file.size), i64::from(file.position));
        let target = match self.rng.below(8) {
            0 => 0,
            1 => size,
            2 => size + self.rng.below(3) as i64 - 1,
            3 => self.rng.below(3) as i64 - 1,
            4 => self.rng.below(4) as i64 * CAPACITY as i64 + self.rng.below(3) as i64 - 1,
            5 => *self.rng.pick(&[i64::from(i32::MAX), i64::from(i32::MIN), 1 << 31, (1 << 32) - 1, 1 << 40]),
            _ => self.rng.below(file.size as u64 + 1) as i64,
        };
        let offset = |from: i64| (target - from).clamp(i64::from(i32::MIN), i64::from(i32::MAX)) as i32;
        let to = match self.rng.below(3) {
            0 => Seek::Start(target.clamp(0, i64::from(u32::MAX)) as u32),
            1 => Seek::Current(offset(position)),
            _ => Seek::End(offset(size)),
        };
        Call::Seek { slot, to }
    }

    fn draw_write(&mut self, sides: &Sides) -> Call {
        let Some((slot, file)) = self.draw_opened(sides) else { return self.draw_open(sides) };
        let len = match self.rng.below(8) {
            0 | 1 => self.len_to_fill(sides, file),
            // To the end of the block, or of the file.
            2 => self.draw_len(CAPACITY - file.position as usize % CAPACITY),
            3 => self.draw_len((file.size - file.position) as usize),
            _ => self.draw_len(1),
        };
        Call::Write { slot, len, seed: self.rng.below(251) as u8, time: self.draw_time() }
    }

    /// To the end of the block, to the file's end or one byte behind, or shorter.
    fn draw_patch(&mut self, sides: &Sides) -> Call {
        let Some((slot, file)) = self.draw_opened(sides) else { return self.draw_open(sides) };
        let position = self.rng.below(u64::from(file.size) + 1) as usize;
        let left = file.size as usize - position;
        let len = match self.rng.below(4) {
            0 => self.draw_len(CAPACITY - position % CAPACITY),
            1 => (left + 1).saturating_sub(self.rng.below(3) as usize),
            _ => self.rng.below(left as u64 + 1) as usize,
        };
        let (len, seed, time) = (len.min(self.longest), self.rng.below(251) as u8, self.draw_time());
        self.queue.push_back(Call::Patch { slot, len, seed, time });
        Call::Seek { slot, to: Seek::Start(position as u32) }
    }

    /// A length that takes all free blocks in reach, one byte more, or less, where these are few.
    fn len_to_fill(&mut self, sides: &Sides, file: FileState) -> usize {
        let free = sides.geometry().free_in_reach(&sides.ours.image).count();
        let has = (file.size as usize).div_ceil(CAPACITY).max(1);
        let all = (has + free) * CAPACITY - file.position as usize;
        let cut = *self.rng.pick(&[0, 1, CAPACITY, CAPACITY - 1, CAPACITY + 1]);
        let exact = (all + 1).saturating_sub(cut);
        if exact <= self.longest {
            exact
        } else {
            self.draw_len(1)
        }
    }

    /// A directory's path and first address.
    fn draw_dir(&mut self, sides: &Sides) -> (Vec<u8>, u32) {
        let root = (b"/".to_vec(), sides.geometry().data());
        let dirs: Vec<&Entry> = sides.entries().iter().filter(|entry| entry.kind == Kind::Dir).collect();
        if dirs.is_empty() || self.rng.one_in(3) {
            return root;
        }
        let deepest = dirs.iter().max_by_key(|entry| entry.depth).filter(|_| self.rng.one_in(6));
        let entry = deepest.unwrap_or_else(|| self.rng.pick(&dirs));
        (entry.path.clone(), entry.chain[0])
    }

    /// Where something is, mostly.
    fn draw_place(&mut self, sides: &Sides) -> Place {
        match self.rng.below(16) {
            0..=11 if !sides.entries().is_empty() => {
                let path = &self.rng.pick(sides.entries()).path;
                self.spell(path, sides)
            }
            12 => Place { cwd: self.rng.pick(&ODD_DIRS).to_vec(), path: self.rng.pick(&ODD_PATHS).to_vec() },
            13 => self.draw_astray(sides),
            _ => self.draw_vacant(sides),
        }
    }

    /// What shall be deleted: often an entry of a directory whose listing was begun.
    fn draw_doomed(&mut self, sides: &Sides) -> Place {
        if let Some((place, _)) = sides.ours.page(self.slot()) {
            let dir = sides.dir_at(place);
            let inside: Vec<&Entry> = sides.entries().iter().filter(|entry| Some(entry.dir) == dir).collect();
            if !inside.is_empty() && self.rng.one_in(3) {
                let path = &self.rng.pick(&inside).path;
                return self.spell(path, sides);
            }
        }
        self.draw_place(sides)
    }

    /// Where something new shall be, mostly.
    fn draw_new_place(&mut self, sides: &Sides) -> Place {
        match self.rng.below(12) {
            0 => self.draw_place(sides),
            1 => Place { cwd: self.rng.pick(&ODD_DIRS).to_vec(), path: self.rng.pick(&ODD_PATHS).to_vec() },
            _ => self.draw_vacant(sides),
        }
    }

    /// A new name in a directory.
    fn draw_vacant(&mut self, sides: &Sides) -> Place {
        let (mut path, addr) = self.draw_dir(sides);
        if path.len() > 1 {
            path.push(b'/');
        }
        let name = self.draw_fitting(sides, addr).unwrap_or_else(|| self.draw_name());
        path.extend(name);
        if self.rng.one_in(80) {
            path.resize(path.len() + 256, b'n');
        }
        self.spell(&path, sides)
    }

    fn draw_name(&mut self) -> Vec<u8> {
        if self.accents {
            draw_accented(&mut self.rng)
        } else {
            draw_name(&mut self.rng)
        }
    }

    /// A name that just fits into a block of the directory, or just doesn't.
    fn draw_fitting(&mut self, sides: &Sides, dir: u32) -> Option<Vec<u8>> {
        if !self.rng.one_in(3) {
            return None;
        }
        let used = *self.rng.pick(&fill_of(&sides.ours.image, sides.geometry(), dir));
        let end = if self.rng.one_in(5) { CAPACITY } else { *self.rng.pick(&[505, 506, 507, 509, 510]) };
        let len = end.checked_sub(used + HEADER).filter(|len| (1..=255).contains(len))?;
        let letter = self.rng.between(u64::from(b'a'), u64::from(b'z')) as u8;
        Some(vec![letter; len])
    }

    /// A path that goes through a file, a device or nothing.
    fn draw_astray(&mut self, sides: &Sides) -> Place {
        let mut path = match sides.entries() {
            [] => b"/none".to_vec(),
            entries => self.rng.pick(entries).path.clone(),
        };
        path.push(b'/');
        path.extend(self.draw_name());
        self.spell(&path, sides)
    }

    /// The path in one of its spellings: from the root or from a directory above, with slashes too many.
    fn spell(&mut self, path: &[u8], sides: &Sides) -> Place {
        let mut path = path.to_vec();
        match self.rng.below(24) {
            0 => path.push(b'/'),
            1 => path.extend(b"//"),
            2 => path.insert(0, b'/'),
            3 => {
                let slashes: Vec<usize> = (0..path.len()).filter(|&i| path[i] == b'/').collect();
                let at = *self.rng.pick(&slashes);
                path.insert(at, b'/');
            }
            _ => {}
        }
        let cuts: Vec<usize> = (0..path.len()).filter(|&i| path[i] == b'/').collect();
        if self.rng.one_in(3) {
            let cut = *self.rng.pick(&cuts);
            // The working directory with or without a slash at its end.
            let cwd_end = if cut == 0 || self.rng.one_in(4) { cut + 1 } else { cut };
            return Place { cwd: path[..cwd_end].to_vec(), path: path[cut + 1..].to_vec() };
        }
        let cwd = if self.rng.one_in(2) { self.rng.pick(&ODD_DIRS).to_vec() } else { self.draw_dir(sides).0 };
        Place { cwd, path }
    }
}
