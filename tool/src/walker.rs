//! Why a volume is damaged: a plain walk through all of it, rule by rule, that names every breach it meets. It says nothing on
//! its own: `check` asks the proved library first, and a disagreement is reported as a fault of this walk.
//!
//! The rules, in short: W1 the superblock; W2 chains stay in the data area, end, and share no block; W3 names, addresses and
//! zeros behind a block's last entry; W4 sizes, empty directory blocks and depth; W5 the bitmap and the used count.
use crate::layout::{self, Geometry, Slot, Superblock, HEADER};
use std::collections::HashSet;

/// Directories lie no deeper than this; the root is at 0.
const DEPTH: u32 = 16;
/// Bytes of the largest file.
const FILE_LIMIT: u32 = 2_147_483_647;
/// Node number 0 is the root's; a block that no chain has reached has this owner.
const NOBODY: u32 = u32::MAX;

/// A breach of a rule.
#[derive(Clone, Debug, PartialEq, Eq)]
pub struct Finding {
    /// 1 to 5, for W1 to W5.
    pub rule: u8,
    /// What it concerns; empty for the volume as a whole.
    pub path: Vec<u8>,
    pub block: u32,
    pub what: String,
}

#[derive(Clone, Copy, Debug, PartialEq, Eq)]
pub enum Kind {
    Dir,
    File,
    Device,
}

/// Something that the walk met: the root or an entry.
struct Node {
    parent: u32,
    name: Vec<u8>,
    kind: Kind,
    depth: u32,
    /// What the entry says: the first address and the size. The root's size is never looked at.
    addr: u32,
    size: u32,
    /// The directory block that the entry stands in.
    stands_in: u32,
}

/// Everything the walk found: the breaches, and who has which block.
pub struct Walk<'a> {
    image: &'a [u8],
    geometry: Geometry,
    nodes: Vec<Node>,
    /// The node that reached each block of the data area first.
    owners: Vec<u32>,
    pub findings: Vec<Finding>,
}

/// Walks a volume whose superblock the library has taken.
pub fn walk(image: &[u8], geometry: Geometry) -> Walk<'_> {
    let root = Node {
        parent: 0,
        name: Vec::new(),
        kind: Kind::Dir,
        depth: 0,
        addr: geometry.data(),
        size: 0,
        stands_in: geometry.mount.k,
    };
    let owners = vec![NOBODY; geometry.data_blocks() as usize];
    let mut walk = Walk { image, geometry, nodes: vec![root], owners, findings: Vec::new() };
    walk.look_at_superblock();
    // Directories add their entries behind, so that no nesting, however deep, needs a stack.
    let mut next = 0;
    while next < walk.nodes.len() {
        walk.look_at_node(next as u32);
        next += 1;
    }
    walk.look_at_bitmap();
    walk
}

impl Walk<'_> {
    /// What has a block, by a number that stands for nothing but itself; none for a block outside the data area, or that nothing
    /// has.
    pub fn owner_id(&self, addr: u32) -> Option<u32> {
        let owner = *self.owners.get(addr.checked_sub(self.geometry.data())? as usize)?;
        (owner != NOBODY).then_some(owner)
    }

    pub fn owner_kind(&self, addr: u32) -> Option<Kind> {
        self.owner_id(addr).map(|owner| self.nodes[owner as usize].kind)
    }

    /// The path of what has a block.
    pub fn owner(&self, addr: u32) -> Option<Vec<u8>> {
        self.owner_id(addr).map(|owner| self.path(owner))
    }

    /// Whether the bit of a block of the data area is wrong.
    pub fn has_wrong_bit(&self, addr: u32) -> bool {
        self.wrong_bit(addr - self.geometry.data()).is_some()
    }

    /// How many directories, files and devices there are, the root not counted.
    pub fn counts(&self) -> [u32; 3] {
        let of = |kind| self.nodes[1..].iter().filter(|node| node.kind == kind).count() as u32;
        [of(Kind::Dir), of(Kind::File), of(Kind::Device)]
    }

    fn path(&self, node: u32) -> Vec<u8> {
        let (mut pieces, mut at) = (Vec::new(), node);
        while at != 0 {
            pieces.push(&self.nodes[at as usize].name[..]);
            at = self.nodes[at as usize].parent;
        }
        if pieces.is_empty() {
            return b"/".to_vec();
        }
        pieces.iter().rev().flat_map(|piece| [b"/", *piece].concat()).collect()
    }

    fn find(&mut self, rule: u8, node: u32, block: u32, what: String) {
        let path = self.path(node);
        self.findings.push(Finding { rule, path, block, what });
    }

    fn find_of_volume(&mut self, rule: u8, block: u32, what: String) {
        self.findings.push(Finding { rule, path: Vec::new(), block, what });
    }

    /// W1, what refusals 1, 2 and 3 leave of it: the superblock's other bytes are zero.
    fn look_at_superblock(&mut self) {
        let superblock = Superblock::at(self.image, self.geometry.mount).expect("the library has taken the superblock");
        if let Some(byte) = superblock.first_stray {
            self.find_of_volume(1, self.geometry.mount.k, format!("byte {byte} of the superblock is not zero"));
        }
    }

    fn look_at_node(&mut self, id: u32) {
        let Node { kind, depth, size, stands_in, .. } = self.nodes[id as usize];
        let (blocks, whole) = self.claim(id);
        match kind {
            // What lies below is not walked: paths without a bound would grow without one.
            Kind::Dir if depth > DEPTH => {
                self.find(4, id, stands_in, format!("the directory is at depth {depth}, deeper than {DEPTH}"));
            }
            Kind::Dir => {
                let sum = self.look_at_dir(id, &blocks);
                if whole && id != 0 && sum != u64::from(size) {
                    self.find(4, id, stands_in, format!("the directory's size is {size}, its entries add up to {sum}"));
                }
            }
            Kind::File => self.look_at_file(id, blocks.len() as u64, whole),
            Kind::Device => {}
        }
    }

    /// W2 and, for an entry's own address, W3: walks a chain, and takes each block that nobody has yet. Answers the blocks taken,
    /// and whether that is the whole chain.
    fn claim(&mut self, id: u32) -> (Vec<u32>, bool) {
        let Node { addr: first, stands_in, .. } = self.nodes[id as usize];
        if !self.geometry.holds(first) {
            self.find(3, id, stands_in, format!("the entry's address is {first}, outside the data area"));
            return (Vec::new(), false);
        }
        let (mut blocks, mut addr, mut from) = (Vec::new(), first, stands_in);
        loop {
            if !self.geometry.holds(addr) {
                self.find(2, id, from, format!("the chain leads to block {addr}, outside the data area"));
                return (blocks, false);
            }
            if let Some(what) = self.take(id, addr) {
                self.find(2, id, from, what);
                return (blocks, false);
            }
            blocks.push(addr);
            from = addr;
            addr = self.geometry.mount.next(self.image, addr);
            if addr == 0 {
                return (blocks, true);
            }
        }
    }

    /// Makes a node the owner of a block, or says why it can't be.
    fn take(&mut self, id: u32, addr: u32) -> Option<String> {
        let owner = &mut self.owners[(addr - self.geometry.data()) as usize];
        match *owner {
            NOBODY => {
                *owner = id;
                None
            }
            other if other == id => Some(format!("the chain comes back to its own block {addr}: it never ends")),
            other => Some(format!("the chain leads into block {addr}, which {} has", crate::human::name(&self.path(other)))),
        }
    }

    /// W3 and W4 of a directory's blocks. Its entries join the nodes; answers their sum.
    fn look_at_dir(&mut self, id: u32, blocks: &[u32]) -> u64 {
        let (mut sum, mut names) = (0, HashSet::new());
        for (place, &addr) in blocks.iter().enumerate() {
            let data = self.geometry.mount.data(self.image, addr);
            let slots = layout::slots(data);
            let end = slots.last().map_or(0, Slot::end);
            if let Some(stray) = data[end..].iter().position(|&byte| byte != 0) {
                let byte = 4 + end + stray;
                self.find(3, id, addr, format!("byte {byte}, behind the block's last entry, is not zero"));
            }
            if place > 0 && slots.is_empty() {
                self.find(4, id, addr, "a block of the directory that is not its first has no entry".to_string());
            }
            for slot in &slots {
                sum += slot.len() as u64;
                self.look_at_entry(id, addr, slot, &mut names);
            }
        }
        sum
    }

    /// W3 of an entry; its own chain comes later.
    fn look_at_entry(&mut self, dir: u32, stands_in: u32, slot: &Slot, names: &mut HashSet<Vec<u8>>) {
        let id = self.nodes.len() as u32;
        let kind = [Kind::Dir, Kind::File, Kind::Device][usize::from(slot.kind)];
        let depth = self.nodes[dir as usize].depth + 1;
        let name = slot.name.to_vec();
        self.nodes.push(Node { parent: dir, name: name.clone(), kind, depth, addr: slot.addr, size: slot.size, stands_in });
        let offset = 4 + slot.offset + HEADER;
        if let Some(at) = bad_byte(&name) {
            let what = format!("the name has the byte 0x{:02x}, at byte {}", name[at], offset + at);
            self.find(3, id, stands_in, what);
        }
        if !names.insert(name) {
            self.find(3, id, stands_in, format!("the name at byte {offset} stands twice in its directory"));
        }
    }

    /// W4 of a file.
    fn look_at_file(&mut self, id: u32, has: u64, whole: bool) {
        let Node { size, stands_in, .. } = self.nodes[id as usize];
        if size > FILE_LIMIT {
            self.find(4, id, stands_in, format!("the file's size is {size}, above {FILE_LIMIT}"));
        }
        let needs = self.geometry.mount.file_blocks(u64::from(size));
        if whole && has != needs {
            self.find(4, id, stands_in, format!("the file of {size} bytes has {has} blocks, and should have {needs}"));
        }
    }

    /// W5: bits against the blocks reached, in runs, since one broken chain leaves many blocks unreached. W2: every block that is
    /// reached has a bit.
    fn look_at_bitmap(&mut self) {
        let mut run: Option<(Wrong, u32)> = None;
        let end = self.geometry.bits().max(self.geometry.data_blocks());
        for index in 0..=end {
            let wrong = (index < end).then(|| self.wrong_bit(index)).flatten();
            if run.map(|(kind, _)| kind) != wrong {
                if let Some((kind, first)) = run {
                    self.find_run(kind, first, index - 1);
                }
                run = wrong.map(|kind| (kind, index));
            }
        }
        let set = self.geometry.bits() - self.geometry.clear_bits(self.image);
        let counted = u64::from(self.geometry.data()) + u64::from(set);
        let used = Superblock::at(self.image, self.geometry.mount).map_or(0, |superblock| superblock.used);
        if u64::from(used) != counted {
            self.find_of_volume(5, self.geometry.mount.k, format!("the used count is {used}, and should be {counted}"));
        }
    }

    fn wrong_bit(&self, index: u32) -> Option<Wrong> {
        let set = self.geometry.bit(self.image, index);
        if index >= self.geometry.data_blocks() {
            return set.then_some(Wrong::SetPastTheData);
        }
        match (set, self.owners[index as usize] != NOBODY) {
            (true, false) => Some(Wrong::SetAndNotReached),
            (false, true) if index >= self.geometry.bits() => Some(Wrong::ReachedWithoutBit),
            (false, true) => Some(Wrong::ClearAndReached),
            _ => None,
        }
    }

    fn find_run(&mut self, kind: Wrong, first: u32, last: u32) {
        let data = self.geometry.data();
        let (from, to) = (data + first, data + last);
        let blocks = if first == last { format!("block {from}") } else { format!("blocks {from} to {to}") };
        match kind {
            Wrong::SetAndNotReached => self.find_of_volume(5, from, format!("{blocks}: marked as used, and nothing has it")),
            Wrong::SetPastTheData => {
                self.find_of_volume(5, from, format!("{blocks}: marked as used behind the end of the data area"));
            }
            Wrong::ClearAndReached => {
                let owner = self.owners[first as usize];
                self.find(5, owner, from, format!("{blocks}: marked as free, though a chain has it"));
            }
            Wrong::ReachedWithoutBit => {
                let owner = self.owners[first as usize];
                self.find(2, owner, from, format!("{blocks}: a chain has it, and the bitmap has no bit for it"));
            }
        }
    }
}

/// How a bit of the bitmap can be wrong.
#[derive(Clone, Copy, PartialEq, Eq)]
enum Wrong {
    SetAndNotReached,
    ClearAndReached,
    SetPastTheData,
    /// On a card of version 1, whose bitmap may be too short for the last data blocks.
    ReachedWithoutBit,
}

/// W3: the place of the first byte that no name may have: a slash, a control byte, or one that is no text. An entry's name is
/// never empty.
fn bad_byte(name: &[u8]) -> Option<usize> {
    let is_control = |byte: u8| byte < 0x20 || byte == 0x7f;
    let text = well_formed(name);
    let end = (text < name.len()).then_some(text);
    name[..text].iter().position(|&byte| is_control(byte) || byte == b'/').or(end)
}

/// How many bytes from the start on are well-formed UTF-8.
fn well_formed(name: &[u8]) -> usize {
    std::str::from_utf8(name).map_or_else(|error| error.valid_up_to(), str::len)
}

#[cfg(test)]
mod tests {
    use super::*;

    #[test]
    fn bad_bytes_are_found_where_they_stand() {
        let found = [&b"m1"[..], b"a b~", b"a/b", b"\x1f", b"ab\x7f", b"a\xff/"].map(bad_byte);
        assert_eq!(found, [None, None, Some(1), Some(0), Some(2), Some(1)]);
        assert_eq!([&b"\xc3\xa9"[..], b"a\xc3", b"\xed\xa0\x80"].map(well_formed), [2, 1, 0]);
    }
}
