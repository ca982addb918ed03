//! A tree of directories, files and devices, and how it is laid into a volume.
use crate::geometry::Geometry;
use crate::rng::Rng;
use crate::walk::{Entry, Kind, HEADER};
use std::collections::HashSet;

/// The largest file.
const FILE_LIMIT: u32 = i32::MAX as u32;

/// A node of a [`Tree`].
#[derive(Clone, Copy, Debug, PartialEq, Eq, Hash)]
pub struct NodeId(usize);

/// The root directory of every tree.
pub const ROOT: NodeId = NodeId(0);

struct Node {
    parent: NodeId,
    name: Vec<u8>,
    kind: Kind,
    size: u32,
    time: u64,
    /// Blocks of a device, and of a file once it is laid; a directory's follow from its entries.
    blocks: u32,
    children: Vec<NodeId>,
    depth: u32,
}

/// What a volume shall hold.
pub struct Tree {
    nodes: Vec<Node>,
    names: HashSet<(NodeId, Vec<u8>)>,
}

/// In which order blocks are taken.
#[derive(Clone, Copy, Debug, PartialEq, Eq)]
pub enum Order {
    /// One after the other, from the start of the data area.
    Rising,
    /// From anywhere in the data area.
    Scattered,
}

/// How a tree is laid into a volume.
#[derive(Clone, Copy, Debug, PartialEq, Eq)]
pub struct Style {
    pub order: Order,
    /// Directory blocks may end before they are full, and the first may be empty.
    pub loose: bool,
    /// Every byte that the volume doesn't speak of is random: blocks before and after it, block K+1, free blocks, what follows a
    /// file's end in its last block. Otherwise these are zero.
    pub stale: bool,
    /// Blocks of the image after the volume.
    pub tail: u32,
    /// Exactly so many blocks in reach stay free: one more entry of the root, named `rest`, takes all others in reach.
    pub free: Option<u32>,
}

impl Style {
    /// Blocks in rising order, directories packed, all else zero.
    pub const PLAIN: Style = Style { order: Order::Rising, loose: false, stale: false, tail: 0, free: None };
}

/// A well-formed volume.
#[derive(Clone, Debug)]
pub struct Volume {
    pub image: Vec<u8>,
    pub geometry: Geometry,
    /// Everything in it; a directory's own entry stands before those in it.
    pub entries: Vec<Entry>,
}

impl Default for Tree {
    fn default() -> Tree {
        Tree::new()
    }
}

impl Tree {
    /// The tree of an empty root.
    pub fn new() -> Tree {
        let root =
            Node { parent: ROOT, name: Vec::new(), kind: Kind::Dir, size: 0, time: 0, blocks: 0, children: Vec::new(), depth: 0 };
        Tree { nodes: vec![root], names: HashSet::new() }
    }

    /// Whether a directory has an entry of that name.
    pub fn has(&self, dir: NodeId, name: &[u8]) -> bool {
        self.names.contains(&(dir, name.to_vec()))
    }

    /// 0 for the root, 1 for its entries.
    pub fn depth(&self, node: NodeId) -> u32 {
        self.nodes[node.0].depth
    }

    /// Adds a directory. As for every entry, the name must be a legal one and new in its directory.
    pub fn dir(&mut self, parent: NodeId, name: &[u8], time: u64) -> NodeId {
        self.add(parent, name, Kind::Dir, 0, time, 0)
    }

    /// Adds a file.
    pub fn file(&mut self, parent: NodeId, name: &[u8], time: u64, size: u32) -> NodeId {
        self.add(parent, name, Kind::File, size, time, 0)
    }

    /// Adds a device, whose size says nothing of its chain.
    pub fn device(&mut self, parent: NodeId, name: &[u8], time: u64, size: u32, blocks: u32) -> NodeId {
        assert!(blocks > 0, "a device has a block");
        self.add(parent, name, Kind::Device, size, time, blocks)
    }

    fn add(&mut self, parent: NodeId, name: &[u8], kind: Kind, size: u32, time: u64, blocks: u32) -> NodeId {
        let banned = name.iter().any(|&b| b < 0x20 || b == 0x7f || b == b'/');
        assert!((1..=255).contains(&name.len()) && std::str::from_utf8(name).is_ok() && !banned, "an illegal name");
        assert!(self.names.insert((parent, name.to_vec())), "the name is there already");
        assert!(self.nodes[parent.0].kind == Kind::Dir, "only a directory holds entries");
        let depth = self.depth(parent) + 1;
        assert!(kind != Kind::Dir || depth <= 16, "a directory deeper than 16");
        let id = NodeId(self.nodes.len());
        self.nodes.push(Node { parent, name: name.to_vec(), kind, size, time, blocks, children: Vec::new(), depth });
        self.nodes[parent.0].children.push(id);
        self.nodes[parent.0].size += (HEADER + name.len()) as u32;
        id
    }

    /// Lays the tree into a new image; none where it doesn't fit.
    pub fn lay(mut self, geometry: Geometry, style: Style, rng: &mut Rng) -> Option<Volume> {
        let rest = style.free.map(|_| self.add_rest(rng));
        for node in self.nodes.iter_mut().filter(|node| node.kind == Kind::File) {
            node.blocks = file_blocks(node.size, geometry);
        }
        let packed: Vec<Vec<Vec<NodeId>>> = self.nodes.iter().map(|node| self.pack(node, geometry, style.loose, rng)).collect();
        let mut chains = self.take_blocks(geometry, style.order, &packed, rng)?;
        if let (Some(rest), Some(free)) = (rest, style.free) {
            self.grow_rest(geometry, rest, free, &mut chains, rng)?;
        }
        let mut image = vec![0; geometry.place(geometry.blocks() + style.tail)];
        if style.stale {
            rng.fill(&mut image);
        }
        let mut writer = Writer { image: &mut image, geometry, tree: &self, chains: &chains, packed: &packed };
        writer.write_all(style.stale, rng);
        let entries = self.list(&chains, &packed);
        Some(Volume { image, geometry, entries })
    }

    /// The entry that will take all blocks in reach but a few; one block for now.
    fn add_rest(&mut self, rng: &mut Rng) -> NodeId {
        let mut name = b"rest".to_vec();
        while self.has(ROOT, &name) {
            name.push(b'_');
        }
        let time = rng.next_u64();
        if rng.one_in(2) {
            self.file(ROOT, &name, time, 1)
        } else {
            let size = rng.next_u64() as u32;
            self.device(ROOT, &name, time, size, 1)
        }
    }

    fn grow_rest(&mut self, geometry: Geometry, rest: NodeId, free: u32, chains: &mut [Vec<u32>], rng: &mut Rng) -> Option<()> {
        let taken: HashSet<u32> = chains.iter().flatten().copied().collect();
        let in_reach = geometry.data()..geometry.data() + geometry.reach();
        let mut clear: Vec<u32> = in_reach.filter(|addr| !taken.contains(addr)).collect();
        let more = clear.len().checked_sub(free as usize)?;
        rng.shuffle(&mut clear);
        let chain = &mut chains[rest.0];
        chain.extend(&clear[..more]);
        let node = &mut self.nodes[rest.0];
        node.blocks = chain.len() as u32;
        if node.kind == Kind::File {
            let capacity = geometry.form().capacity() as u64;
            let before_last = (node.blocks as u64 - 1) * capacity;
            let size = before_last + rng.between(1, capacity);
            node.size = u32::try_from(size).ok().filter(|&size| size <= FILE_LIMIT)?;
        }
        Some(())
    }

    /// The entries of a directory, block by block.
    fn pack(&self, node: &Node, geometry: Geometry, loose: bool, rng: &mut Rng) -> Vec<Vec<NodeId>> {
        if node.kind != Kind::Dir {
            return Vec::new();
        }
        let mut blocks = vec![Vec::new()];
        if loose && !node.children.is_empty() && rng.one_in(8) {
            blocks.push(Vec::new());
        }
        let mut used = 0;
        for &child in &node.children {
            let len = HEADER + self.nodes[child.0].name.len();
            let ends_early = loose && used > 0 && rng.one_in(8);
            if used + len >= geometry.form().capacity() || ends_early {
                blocks.push(Vec::new());
                used = 0;
            }
            blocks.last_mut().expect("there is a block").push(child);
            used += len;
        }
        blocks
    }

    fn take_blocks(&self, geometry: Geometry, order: Order, packed: &[Vec<Vec<NodeId>>], rng: &mut Rng) -> Option<Vec<Vec<u32>>> {
        let mut free: Vec<u32> = (geometry.data() + 1..geometry.data() + geometry.with_bit()).collect();
        if order == Order::Scattered {
            rng.shuffle(&mut free);
        }
        let mut free = std::iter::once(geometry.data()).chain(free);
        let mut chains = Vec::with_capacity(self.nodes.len());
        for (node, blocks) in self.nodes.iter().zip(packed) {
            let count = blocks.len().max(node.blocks as usize);
            let chain: Vec<u32> = free.by_ref().take(count).collect();
            if chain.len() < count {
                return None;
            }
            chains.push(chain);
        }
        Some(chains)
    }

    fn list(&self, chains: &[Vec<u32>], packed: &[Vec<Vec<NodeId>>]) -> Vec<Entry> {
        let mut entries = Vec::with_capacity(self.nodes.len());
        self.list_dir(ROOT, b"", chains, packed, &mut entries);
        entries
    }

    fn list_dir(&self, dir: NodeId, path: &[u8], chains: &[Vec<u32>], packed: &[Vec<Vec<NodeId>>], entries: &mut Vec<Entry>) {
        for &id in packed[dir.0].iter().flatten() {
            let node = &self.nodes[id.0];
            let path = [path, b"/", &node.name[..]].concat();
            entries.push(Entry {
                path: path.clone(),
                kind: node.kind,
                size: node.size,
                time: node.time,
                dir: chains[dir.0][0],
                chain: chains[id.0].clone(),
                depth: node.depth,
            });
            if node.kind == Kind::Dir {
                self.list_dir(id, &path, chains, packed, entries);
            }
        }
    }
}

/// Blocks of a file of that size.
fn file_blocks(size: u32, geometry: Geometry) -> u32 {
    size.div_ceil(geometry.form().capacity() as u32).max(1)
}

/// Writes a tree whose blocks are known.
struct Writer<'a> {
    image: &'a mut [u8],
    geometry: Geometry,
    tree: &'a Tree,
    chains: &'a [Vec<u32>],
    packed: &'a [Vec<Vec<NodeId>>],
}

impl Writer<'_> {
    fn write_all(&mut self, stale: bool, rng: &mut Rng) {
        self.write_counts();
        for id in 0..self.tree.nodes.len() {
            let id = NodeId(id);
            self.link(id);
            match self.tree.nodes[id.0].kind {
                Kind::Dir => self.write_dir(id),
                _ => self.write_contents(id, stale, rng),
            }
        }
    }

    /// The superblock and the bitmap.
    fn write_counts(&mut self) {
        let geometry = self.geometry;
        let used = geometry.data() as usize + self.chains.iter().map(Vec::len).sum::<usize>();
        let super_block = self.block(geometry.k());
        super_block.fill(0);
        super_block[..8].copy_from_slice(b"MOROS FS");
        super_block[8] = geometry.form().version();
        super_block[9] = geometry.form().code();
        super_block[10..14].copy_from_slice(&geometry.blocks().to_be_bytes());
        super_block[14..18].copy_from_slice(&(used as u32).to_be_bytes());
        for addr in geometry.bitmap()..geometry.data() {
            self.block(addr).fill(0);
        }
        for &addr in self.chains.iter().flatten() {
            let (place, mask) = geometry.bit(addr);
            self.image[place] |= mask;
        }
    }

    /// The next addresses of a node's blocks.
    fn link(&mut self, id: NodeId) {
        let chain = &self.chains[id.0];
        for (i, &addr) in chain.iter().enumerate() {
            let next = chain.get(i + 1).copied().unwrap_or(0);
            self.block(addr)[..4].copy_from_slice(&next.to_be_bytes());
        }
    }

    fn write_dir(&mut self, id: NodeId) {
        for (block, &addr) in self.chains[id.0].iter().enumerate() {
            let data = self.dir_data(id, block);
            self.block(addr)[4..].copy_from_slice(&data);
        }
    }

    /// The bytes of a directory's block after the next address.
    fn dir_data(&self, dir: NodeId, block: usize) -> Vec<u8> {
        let mut data = vec![0; self.geometry.form().capacity()];
        let mut at = 0;
        for &id in &self.packed[dir.0][block] {
            let node = &self.tree.nodes[id.0];
            let end = at + HEADER + node.name.len();
            data[at] = node.kind as u8;
            data[at + 1..at + 5].copy_from_slice(&self.chains[id.0][0].to_be_bytes());
            data[at + 5..at + 9].copy_from_slice(&node.size.to_be_bytes());
            data[at + 9..at + 17].copy_from_slice(&node.time.to_be_bytes());
            data[at + 17] = node.name.len() as u8;
            data[at + HEADER..end].copy_from_slice(&node.name);
            at = end;
        }
        data
    }

    /// The bytes of a file or device: random, or the entries of the directory that holds it, as if it were that directory.
    fn write_contents(&mut self, id: NodeId, stale: bool, rng: &mut Rng) {
        let node = &self.tree.nodes[id.0];
        let capacity = self.geometry.form().capacity();
        let looks_like = rng.one_in(3).then(|| self.dir_data(node.parent, 0));
        let mut left = match node.kind {
            Kind::File => node.size as usize,
            _ => node.blocks as usize * capacity,
        };
        for &addr in &self.chains[id.0] {
            let (contents, after) = self.block(addr)[4..].split_at_mut(left.min(capacity));
            match &looks_like {
                Some(data) => contents.copy_from_slice(&data[..contents.len()]),
                None => rng.fill(contents),
            }
            if !stale {
                after.fill(0);
            }
            left -= contents.len();
        }
    }

    fn block(&mut self, addr: u32) -> &mut [u8] {
        let start = self.geometry.place(addr);
        &mut self.image[start..start + self.geometry.form().block_size()]
    }
}
