//! Edits aimed at the structure of a volume. Most make it a damaged one; some keep all rules but one, and some keep all.
use crate::paths::{ODD_BYTES, SEQUENCES};
use volumes::{chain, Form, Geometry, Kind, Rng, Volume, HEADER};

/// Where the parts of a volume stand before the first edit.
struct Parts {
    geometry: Geometry,
    /// The chains of all directories, the root's first, and how deep each lies.
    dirs: Vec<(Vec<u32>, u32)>,
    /// The chains of files and devices.
    others: Vec<Vec<u32>>,
    free: Vec<u32>,
    /// The place in the image of each entry, directory by directory, and of the end of each directory block's entries.
    entries: Vec<Vec<usize>>,
    ends: Vec<usize>,
}

/// The volume with its edits.
struct Editor<'a> {
    image: &'a mut [u8],
    parts: &'a Parts,
    rng: &'a mut Rng,
}

/// Makes some edits at random and says what they are.
pub fn damage(volume: &mut Volume, edits: u64, rng: &mut Rng) -> Vec<String> {
    let parts = Parts::of(volume);
    let mut editor = Editor { image: &mut volume.image, parts: &parts, rng };
    (0..edits).map(|_| editor.edit()).collect()
}

impl Parts {
    fn of(volume: &Volume) -> Parts {
        let Volume { image, geometry, entries } = volume;
        let mut dirs = vec![(chain(image, *geometry, geometry.data()), 0)];
        let mut others = Vec::new();
        for entry in entries {
            match entry.kind {
                Kind::Dir => dirs.push((entry.chain.clone(), entry.depth)),
                _ => others.push(entry.chain.clone()),
            }
        }
        let free = (geometry.data()..geometry.blocks()).filter(|&addr| !geometry.taken(image, addr)).collect();
        let mut parts = Parts { geometry: *geometry, dirs, others, free, entries: Vec::new(), ends: Vec::new() };
        for (blocks, _) in &parts.dirs {
            let mut entries = Vec::new();
            parts.ends.extend(blocks.iter().map(|&addr| push_entries(image, *geometry, addr, &mut entries)));
            parts.entries.push(entries);
        }
        parts.entries.retain(|entries| !entries.is_empty());
        parts
    }
}

/// Finds the entries of one directory block, and where they end.
fn push_entries(image: &[u8], geometry: Geometry, addr: u32, entries: &mut Vec<usize>) -> usize {
    let data = geometry.place(addr) + 4;
    let mut at = data;
    while at < data + geometry.form().capacity() - HEADER && image[at + 17] != 0 {
        entries.push(at);
        at += HEADER + image[at + 17] as usize;
    }
    at
}

impl Editor<'_> {
    fn edit(&mut self) -> String {
        match self.rng.below(12) {
            0 => self.edit_superblock(),
            1 => self.flip_bit(),
            2 | 3 => self.edit_next(),
            4..=6 => self.edit_entry(),
            7 => self.edit_after_last_entry(),
            8 => self.lengthen_chain(),
            9 => self.shorten_chain(),
            10 => self.add_directory(),
            _ => self.edit_anywhere(),
        }
    }

    fn form(&self) -> Form {
        self.parts.geometry.form()
    }

    /// Where a block stands.
    fn place(&self, addr: u32) -> usize {
        self.parts.geometry.place(addr)
    }

    fn superblock(&self) -> usize {
        self.place(self.parts.geometry.k())
    }

    fn number(&self, place: usize) -> u32 {
        u32::from_be_bytes(self.image[place..place + 4].try_into().expect("four bytes"))
    }

    fn put(&mut self, place: usize, bytes: &[u8]) -> String {
        self.image[place..place + bytes.len()].copy_from_slice(bytes);
        let hex: String = bytes.iter().map(|byte| format!(" {byte:02x}")).collect();
        let size = self.form().block_size();
        format!("block {} byte {}:{hex}", place / size, place % size)
    }

    fn put_number(&mut self, place: usize, number: u32) -> String {
        self.put(place, &number.to_be_bytes())
    }

    fn edit_superblock(&mut self) -> String {
        let place = self.superblock();
        match self.rng.below(8) {
            0 => {
                let byte = self.rng.below(8) as usize;
                self.put(place + byte, b"x")
            }
            1 => {
                let other = 3 - self.form().version();
                let version = *self.rng.pick(&[0, other, 3, 255]);
                self.put(place + 8, &[version])
            }
            2 => self.put(place + 9, &[1 - self.form().code()]),
            3 | 4 => {
                let count = self.draw_block_count();
                self.put_number(place + 10, count)
            }
            5 | 6 => {
                let count = self.draw_used_count();
                self.put_number(place + 14, count)
            }
            _ => {
                let any = self.rng.between(18, 511) as usize;
                let byte = *self.rng.pick(&[18, 511, any]);
                self.put(place + byte, &[1])
            }
        }
    }

    /// Counts at the edges of what a volume can have here.
    fn draw_block_count(&mut self) -> u32 {
        let (bitmap, n) = (self.parts.geometry.bitmap(), self.parts.geometry.blocks());
        let image = (self.image.len() / self.form().block_size()) as u32;
        let any = self.rng.below(2 * u64::from(n)) as u32;
        *self.rng.pick(&[0, 1, bitmap, bitmap + 1, bitmap + 2, n - 1, n + 1, image, image + 1, bitmap + 4098, u32::MAX, any])
    }

    fn draw_used_count(&mut self) -> u32 {
        let used = self.number(self.superblock() + 14);
        let (data, n) = (self.parts.geometry.data(), self.parts.geometry.blocks());
        *self.rng.pick(&[0, used.wrapping_sub(1), used.wrapping_add(1), data, n, n + 1, u32::MAX])
    }

    /// Changes a bit of the bitmap; half the time the used count follows.
    fn flip_bit(&mut self) -> String {
        let geometry = self.parts.geometry;
        let bits = u64::from((geometry.data() - geometry.bitmap()) * self.form().bits());
        let index = match self.rng.below(4) {
            0 => self.draw_block() - geometry.data(),
            1 => geometry.data_blocks().min(bits as u32 - 1),
            2 => self.rng.below(bits) as u32,
            _ => self.rng.below(u64::from(geometry.with_bit())) as u32,
        };
        let (place, mask) = geometry.bit(geometry.data() + index);
        let byte = self.image[place] ^ mask;
        if self.rng.one_in(2) {
            self.add_to_used(if byte & mask != 0 { 1 } else { -1 });
        }
        self.put(place, &[byte])
    }

    fn add_to_used(&mut self, change: i32) {
        let place = self.superblock() + 14;
        let used = self.number(place).wrapping_add_signed(change);
        self.put_number(place, used);
    }

    /// A block of some chain.
    fn draw_block(&mut self) -> u32 {
        let chain = self.draw_chain();
        *self.rng.pick(&chain)
    }

    /// The chain of a directory, or of a file or device.
    fn draw_chain(&mut self) -> Vec<u32> {
        if self.parts.others.is_empty() || self.rng.one_in(2) {
            self.rng.pick(&self.parts.dirs).0.clone()
        } else {
            self.rng.pick(&self.parts.others).clone()
        }
    }

    /// Addresses in use, free, and at and past the edges of the data area.
    fn draw_address(&mut self) -> u32 {
        let geometry = self.parts.geometry;
        let (k, data, n) = (geometry.k(), geometry.data(), geometry.blocks());
        match self.rng.below(4) {
            0 => self.draw_block(),
            1 => self.draw_chain()[0],
            2 => data + self.rng.below(u64::from(geometry.data_blocks())) as u32,
            _ => *self.rng.pick(&[0, 1, k, data - 1, data, n - 1, n, n + 1, 0x8000_0000, u32::MAX]),
        }
    }

    /// Makes a circle, leads into another chain, out of the data area, or ends a chain early.
    fn edit_next(&mut self) -> String {
        let addr = self.draw_block();
        let next = if self.rng.one_in(4) { addr } else { self.draw_address() };
        self.put_number(self.place(addr), next)
    }

    fn edit_entry(&mut self) -> String {
        if self.parts.entries.is_empty() {
            return self.edit_after_last_entry();
        }
        let dir = self.rng.pick(&self.parts.entries);
        let at = *self.rng.pick(dir);
        match self.rng.below(8) {
            0 => {
                let kind = *self.rng.pick(&[0, 1, 2, 3, 255]);
                self.put(at, &[kind])
            }
            1 | 2 => {
                let addr = self.draw_address();
                self.put_number(at + 1, addr)
            }
            3 | 4 => {
                let size = self.draw_size(at);
                self.put_number(at + 5, size)
            }
            5 => {
                let len = self.draw_name_length(at);
                self.put(at + 17, &[len])
            }
            6 => {
                let room = self.name_length(at).max(1);
                let place = self.rng.below(room as u64) as usize;
                let byte = *self.rng.pick(&ODD_BYTES);
                match *self.rng.pick(&SEQUENCES) {
                    sequence if self.rng.one_in(2) && place + sequence.len() <= room => self.put(at + HEADER + place, sequence),
                    _ => self.put(at + HEADER + place, &[byte]),
                }
            }
            _ => self.copy_name(at, dir),
        }
    }

    /// The length of an entry's name, as far as it lies in its block.
    fn name_length(&self, at: usize) -> usize {
        let size = self.form().block_size();
        let room = size - at % size - HEADER;
        room.min(self.image[at + 17] as usize)
    }

    fn draw_size(&mut self, at: usize) -> u32 {
        let (size, block) = (self.number(at + 5), self.form().capacity() as u32);
        let near = [size.wrapping_sub(1), size.wrapping_add(1), size.wrapping_sub(block), size.wrapping_add(block)];
        match self.rng.below(4) {
            0 => *self.rng.pick(&near),
            1 => *self.rng.pick(&[0, 1, block, block + 1]),
            2 => self.rng.below(20_000) as u32,
            _ => *self.rng.pick(&[i32::MAX as u32, 0x8000_0000, 0x8000_0001, u32::MAX]),
        }
    }

    /// Lengths near the old one, and those with which the entry ends at the last place where it may, and right after it.
    fn draw_name_length(&mut self, at: usize) -> u8 {
        let len = self.image[at + 17];
        let data = at % self.form().block_size() - 4;
        let room = self.form().capacity() as i64 - 1 - data as i64 - HEADER as i64;
        let to_end = room.clamp(0, 255) as u8;
        *self.rng.pick(&[0, 1, len.wrapping_sub(1), len.wrapping_add(1), to_end, to_end.saturating_add(1), 255])
    }

    /// Gives an entry the name of another one of its directory, if one is as long; else as much of another name as it has room for.
    fn copy_name(&mut self, at: usize, dir: &[usize]) -> String {
        let as_long: Vec<usize> =
            dir.iter().copied().filter(|&other| other != at && self.name_length(other) == self.name_length(at)).collect();
        let other = *self.rng.pick(if as_long.is_empty() { dir } else { &as_long });
        let len = self.name_length(at).min(self.name_length(other));
        let name = self.image[other + HEADER..other + HEADER + len].to_vec();
        self.put(at + HEADER, &name)
    }

    /// A byte between the last entry of a directory block and the block's end.
    fn edit_after_last_entry(&mut self) -> String {
        let end = *self.rng.pick(&self.parts.ends);
        let size = self.form().block_size();
        let last = end / size * size + size - 1;
        let place = *self.rng.pick(&[end, end + 1, end + 17, end + 18, last]);
        let byte = *self.rng.pick(&[1, 2, 3, 255]);
        self.put(place.min(last), &[byte])
    }

    /// Links a free block, counted and marked, at the end of a chain. Of a file half the time the size follows.
    fn lengthen_chain(&mut self) -> String {
        let (chain, Some(new)) = (self.draw_chain(), self.draw_free()) else {
            return self.edit_next();
        };
        self.take(new);
        let own = self.parts.entries.iter().flatten().copied().find(|&at| self.number(at + 1) == chain[0]);
        match own {
            Some(at) if self.image[at] == 1 && self.rng.one_in(2) => {
                self.put_number(at + 5, (chain.len() * self.form().capacity() + 1) as u32);
            }
            _ => {}
        }
        self.put_number(self.place(chain[chain.len() - 1]), new)
    }

    /// A free block; in version 1 often the last one, which may have no bit.
    fn draw_free(&mut self) -> Option<u32> {
        let free = &self.parts.free;
        if self.form() == Form::V1 && self.rng.one_in(3) {
            return free.last().copied();
        }
        (!free.is_empty()).then(|| *self.rng.pick(free))
    }

    /// Marks and counts a free block; its old bytes, but not its old next address, often stay.
    fn take(&mut self, addr: u32) {
        if self.parts.geometry.has_bit(addr) {
            let (place, mask) = self.parts.geometry.bit(addr);
            self.image[place] |= mask;
            self.add_to_used(1);
        }
        let start = self.place(addr);
        let zeros = if self.rng.one_in(3) { 4 } else { self.form().block_size() };
        self.image[start..start + zeros].fill(0);
    }

    /// Takes the last block off a chain, with its bit and from the count.
    fn shorten_chain(&mut self) -> String {
        let chain = self.draw_chain();
        let [.., before, last] = chain[..] else {
            return self.flip_bit();
        };
        let (place, mask) = self.parts.geometry.bit(last);
        self.image[place] &= !mask;
        self.add_to_used(-1);
        self.put_number(self.place(before), 0)
    }

    /// Adds an empty directory, in all but the depth by the rules, most often to the deepest directory.
    fn add_directory(&mut self) -> String {
        let parts = self.parts;
        let deepest = parts.dirs.iter().max_by_key(|(_, depth)| depth).expect("there is a root");
        let (holder, _) = if self.rng.one_in(3) { self.rng.pick(&parts.dirs) } else { deepest };
        let end = push_entries(self.image, parts.geometry, holder[0], &mut Vec::new());
        let has_room = end + HEADER + 1 - (self.place(holder[0]) + 4) < self.form().capacity();
        let (true, Some(new)) = (has_room, self.draw_free()) else {
            return self.edit_next();
        };
        self.take(new);
        let own = parts.entries.iter().flatten().copied().find(|&at| self.number(at + 1) == holder[0]);
        if let Some(at) = own {
            let sum = self.number(at + 5).wrapping_add(HEADER as u32 + 1);
            self.put_number(at + 5, sum);
        }
        self.put_number(end + 1, new);
        self.put(end + 17, b"\x01q")
    }

    /// A byte of the volume or beside it, most often in a block that is not looked at.
    fn edit_anywhere(&mut self) -> String {
        let place = self.rng.below(self.image.len() as u64) as usize;
        let byte = self.rng.next_u64() as u8;
        self.put(place, &[byte])
    }
}

#[cfg(test)]
mod tests {
    use super::*;
    use volumes::{random, Size, Wish};

    #[test]
    fn some_edits_damage_a_volume_and_some_do_not() {
        let mut rng = Rng::new(1);
        let mut answers = [0; 18];
        for _ in 0..500 {
            let mut volume = random(Wish { k: 8, size: Size::Small, entries: 12, depth: 16, free: None }, &mut rng);
            let done = damage(&mut volume, 2, &mut rng);
            assert_eq!(done.len(), 2);
            let mut work = vec![0; volume.image.len() / 4096 + 1];
            let number = model::check(&volume.image, 8, &mut work).err().map_or(0, model::Refusal::number);
            answers[number as usize] += 1;
        }
        assert!(answers[0] > 10 && answers[2] > 5 && answers[3] > 5 && answers[17] > 300, "{answers:?}");
    }
}
