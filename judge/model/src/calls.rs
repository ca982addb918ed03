//! The calls (C1 to C12, C18 and C19), each with its refusals in order (O1 to O14).
use crate::check::{well_formed, MAX_DEPTH, MAX_FILE};
use crate::directory::{self, Entry, Kind, Opened, HEADER};
use crate::geometry::{Geometry, Known, Mount, WRITTEN};
use crate::path::{full_path, pieces, split};
use crate::volume;
use crate::{Answer, Refusal};

/// F13: the longest name.
pub const NAME_LEN: usize = 255;

/// H1. The name is
/// an array and a length, and the length may say anything.
#[derive(Clone, Debug, PartialEq, Eq)]
pub struct Handle {
    pub dir: u32,
    pub addr: u32,
    pub size: u32,
    pub position: u32,
    pub name: [u8; NAME_LEN],
    pub len: usize,
}

#[derive(Clone, Copy, Debug, PartialEq, Eq)]
pub struct Usage {
    pub size: u64,
    pub used: u64,
    pub free: u64,
}

#[derive(Clone, Copy, Debug, PartialEq, Eq)]
pub struct Room {
    pub enough: bool,
    pub bytes: u32,
}

/// The name's array has zeros after the name.
#[derive(Clone, Debug, PartialEq, Eq)]
pub struct Info {
    pub kind: Kind,
    pub size: u32,
    pub time: u64,
    pub name: [u8; NAME_LEN],
    pub len: usize,
}

#[derive(Clone, Copy, Debug, PartialEq, Eq)]
pub struct Listed {
    pub bytes: usize,
    pub next: u32,
}

#[derive(Clone, Copy, Debug, PartialEq, Eq)]
pub enum SeekFrom {
    Start(u32),
    Current(i32),
    End(i32),
}

impl Handle {
    /// H5: at position 0.
    fn opened(holder: &Opened, name: &[u8], addr: usize, size: usize) -> Handle {
        let (dir, addr, size) = (holder.first as u32, addr as u32, size as u32);
        Handle { dir, addr, size, position: 0, name: name_array(name), len: name.len() }
    }

    /// H2: stale by its own fields.
    fn own_fields(&self) -> Answer<()> {
        if self.position > self.size || self.size as usize > MAX_FILE || !(1..=NAME_LEN).contains(&self.len) {
            return Err(Refusal::Stale);
        }
        Ok(())
    }

    /// H3: whether the directory has a file entry with that name, address and size. Any such entry will do (reading 4).
    fn entry(&self, image: &[u8], geo: Geometry) -> Answer<Entry> {
        let is_it = |entry: &Entry| {
            entry.kind == Kind::File
                && entry.name == self.name[..self.len]
                && entry.address == self.addr as usize
                && entry.size == self.size as usize
        };
        directory::walk(image, geo, self.dir as usize).find(is_it)?.ok_or(Refusal::Stale)
    }
}

/// A name in the array that handles and infos have, zeros after it.
fn name_array(name: &[u8]) -> [u8; NAME_LEN] {
    let mut array = [0; NAME_LEN];
    array[..name.len()].copy_from_slice(name);
    array
}

/// C1, O2: a superblock of version 2, an empty bitmap, and block D taken;
/// that one whatever the reach (reading 10).
pub fn format(image: &mut [u8], mount: impl Into<Mount>) -> Answer<()> {
    let mount = mount.into();
    let blocks = mount.image_blocks(image)?;
    let geo = Geometry { k: mount.k as usize, version: WRITTEN, code: mount.code as u8, n: blocks }.in_image(blocks)?;
    volume::write_superblock(image, geo, geo.d());
    for address in geo.a()..=geo.d() {
        volume::block_mut(image, geo, address).fill(0);
    }
    volume::take(image, geo, geo.d());
    Ok(())
}

/// C2, O3. R17: more is used than there is.
pub fn usage(image: &[u8], mount: impl Into<Mount>) -> Answer<Usage> {
    let geo = volume::volume(image, mount.into())?;
    let used = volume::used(image, geo);
    if used > geo.n {
        return Err(Refusal::Damaged);
    }
    let bytes = |blocks: usize| (blocks * geo.size().block) as u64;
    Ok(Usage { size: bytes(geo.n), used: bytes(used), free: bytes(geo.n - used) })
}

/// C18: the bytes that hold bits in reach, in order, up to the one in which the last clear bit asked for is found. Bits outside
/// the reach don't count.
pub fn room(image: &[u8], mount: impl Into<Mount>, count: u32) -> Answer<Room> {
    let geo = volume::volume(image, mount.into())?;
    let (mut found, mut bytes) = (0, 0);
    while found < count as usize && 8 * bytes < geo.reach() {
        found += (8 * bytes..geo.reach().min(8 * bytes + 8)).filter(|&x| !volume::is_set(image, geo, x)).count();
        bytes += 1;
    }
    Ok(Room { enough: found >= count as usize, bytes: bytes as u32 })
}

/// C3, O4.
pub fn check(image: &[u8], mount: impl Into<Mount>, work: &mut [u8]) -> Answer<()> {
    checked(image, mount.into(), work).map(|_| ())
}

/// C3, R16: a bit for each block of the data area. These bytes are zero once the check was reached; all others, and
/// these too after an earlier refusal, stay.
fn checked(image: &[u8], mount: Mount, work: &mut [u8]) -> Answer<Geometry> {
    let geo = volume::volume(image, mount)?;
    let needed = geo.work_len();
    if work.len() < needed {
        return Err(Refusal::ShortWork);
    }
    work[..needed].fill(0);
    if !well_formed(image, geo) {
        return Err(Refusal::Damaged);
    }
    Ok(geo)
}

/// R5: an empty last name is refused before any walk. The entry at a full path, and the directory that holds it.
fn find(image: &[u8], geo: Geometry, full: &[u8]) -> Answer<(Opened, Entry)> {
    let (directory, name) = split(full);
    if name.is_empty() {
        return Err(Refusal::NotFound);
    }
    let holder = directory::open_directory(image, geo, &pieces(directory))?;
    let entry = directory::lookup(image, geo, holder.first, name)?;
    Ok((holder, entry))
}

/// C4, O5, R6.
pub fn open(image: &[u8], mount: impl Into<Mount>, cwd: &[u8], path: &[u8]) -> Answer<Handle> {
    let geo = volume::volume(image, mount.into())?;
    let full = full_path(cwd, path)?;
    let (holder, entry) = find(image, geo, &full)?;
    if entry.kind != Kind::File {
        return Err(Refusal::WrongKind);
    }
    if entry.size > MAX_FILE {
        return Err(Refusal::TooLarge);
    }
    Ok(Handle::opened(&holder, &entry.name, entry.address, entry.size))
}

/// C5, P6.
pub fn info(image: &[u8], mount: impl Into<Mount>, cwd: &[u8], path: &[u8]) -> Answer<Info> {
    let geo = volume::volume(image, mount.into())?;
    if path == b"/" {
        let sum = directory::walk(image, geo, geo.d()).sum()?;
        return Ok(Info { kind: Kind::Dir, size: sum as u32, time: 0, name: name_array(b""), len: 0 });
    }
    let full = full_path(cwd, path)?;
    let (_, entry) = find(image, geo, &full)?;
    let Entry { kind, size, time, name, .. } = entry;
    Ok(Info { kind, size: size as u32, time, name: name_array(&name), len: name.len() })
}

/// C6: an entry's record
fn record(entry: &Entry) -> Vec<u8> {
    let mut bytes = vec![entry.kind as u8];
    bytes.extend((entry.size as u32).to_be_bytes());
    bytes.extend(entry.time.to_be_bytes());
    bytes.push(entry.name.len() as u8);
    bytes.extend(&entry.name);
    bytes
}

/// C6: records from entry number i on, while they are together strictly shorter than the
/// buffer; their bytes, and the next number. P5: the whole path leads to
/// the directory. O12: the walk ends at the record that does not fit, also where no record could (reading 6).
pub fn list(image: &[u8], mount: impl Into<Mount>, cwd: &[u8], path: &[u8], from: u32, buf: &mut [u8]) -> Answer<Listed> {
    let geo = volume::volume(image, mount.into())?;
    let full = full_path(cwd, path)?;
    let listed = directory::open_directory(image, geo, &pieces(&full))?;
    let walk = directory::walk(image, geo, listed.first);
    let mut bytes = Vec::new();
    let mut next = from;
    let mut answer_is_known = walk.whole;
    for record in walk.entries.iter().skip(from as usize).map(record) {
        if bytes.len() + record.len() >= buf.len() {
            answer_is_known = true;
            break;
        }
        bytes.extend(record);
        next += 1;
    }
    if !answer_is_known {
        return Err(Refusal::Damaged);
    }
    buf[..bytes.len()].copy_from_slice(&bytes);
    Ok(Listed { bytes: bytes.len(), next })
}

/// C7: as many bytes as there are and as fit. O6: the handle's own
/// fields, its directory, the file's chain; O12: no further than the block of the last byte. R17: the chain
/// ends too early.
pub fn read(image: &[u8], mount: impl Into<Mount>, handle: &mut Handle, buf: &mut [u8]) -> Answer<usize> {
    let geo = volume::volume(image, mount.into())?;
    handle.own_fields()?;
    handle.entry(image, geo)?;
    let count = buf.len().min((handle.size - handle.position) as usize);
    if count == 0 {
        return Ok(0);
    }
    let start = handle.position as usize;
    let capacity = geo.size().capacity;
    let last_block = (start + count - 1) / capacity;
    let blocks = volume::chain(image, geo, handle.addr as usize).blocks;
    if last_block >= blocks.len() {
        return Err(Refusal::Damaged);
    }
    for (place, byte) in (start..start + count).zip(buf) {
        *byte = volume::data(image, geo, blocks[place / capacity])[place % capacity];
    }
    handle.position += count as u32;
    Ok(count)
}

/// C8: a whole number, from 0 to the size. O7: no image is
/// looked at.
pub fn seek(handle: &mut Handle, from: SeekFrom) -> Answer<()> {
    handle.own_fields()?;
    let target = match from {
        SeekFrom::Start(to) => i64::from(to),
        SeekFrom::Current(by) => i64::from(handle.position) + i64::from(by),
        SeekFrom::End(by) => i64::from(handle.size) + i64::from(by),
    };
    if !(0..=i64::from(handle.size)).contains(&target) {
        return Err(Refusal::BadSeek);
    }
    handle.position = target as u32;
    Ok(())
}

/// H5: at position 0.
pub fn create_file(
    image: &mut [u8],
    mount: impl Into<Mount>,
    cwd: &[u8],
    path: &[u8],
    time: u64,
    work: &mut [u8],
) -> Answer<Handle> {
    create(image, mount.into(), cwd, path, time, work, Kind::File)
}

/// C10: plain success
pub fn create_dir(image: &mut [u8], mount: impl Into<Mount>, cwd: &[u8], path: &[u8], time: u64, work: &mut [u8]) -> Answer<()> {
    create(image, mount.into(), cwd, path, time, work, Kind::Dir).map(|_| ())
}

/// O8, O9. C9: the entry goes behind those of the
/// first block where it ends by the last place where an entry may end, else into a new block behind the last one; then one
/// block is taken for what it stands for.
fn create(image: &mut [u8], mount: Mount, cwd: &[u8], path: &[u8], time: u64, work: &mut [u8], kind: Kind) -> Answer<Handle> {
    let geo = checked(image, mount, work)?;
    let full = full_path(cwd, path)?;
    let (directory, name) = split(&full);
    if name.is_empty() || name.len() > NAME_LEN {
        return Err(Refusal::BadName);
    }
    let holder = directory::open_directory(image, geo, &pieces(directory))?;
    if kind == Kind::Dir && holder.depth == MAX_DEPTH {
        return Err(Refusal::TooDeep);
    }
    if directory::lookup(image, geo, holder.first, name).is_ok() {
        return Err(Refusal::Exists);
    }
    let blocks = volume::chain(image, geo, holder.first).blocks;
    let has_room = |block: &usize| directory::used_of_block(image, geo, *block) + HEADER + name.len() <= geo.size().last_end;
    let roomy = blocks.iter().copied().find(has_room);
    volume::room_for(image, geo, if roomy.is_some() { 1 } else { 2 })?;

    let block = roomy.unwrap_or_else(|| link_new_block(image, geo, &blocks));
    let address = volume::allocate(image, geo);
    append_entry(image, geo, block, kind, address, time, name);
    renew_own_entry(image, geo, &holder, time);
    Ok(Handle::opened(&holder, name, address, 0))
}

/// C9: a new block behind the last one
fn link_new_block(image: &mut [u8], geo: Geometry, blocks: &[usize]) -> usize {
    let new = volume::allocate(image, geo);
    volume::set_next(image, geo, blocks[blocks.len() - 1], new);
    new
}

/// F9: the bytes of a new entry, of size 0
fn append_entry(image: &mut [u8], geo: Geometry, block: usize, kind: Kind, address: usize, time: u64, name: &[u8]) {
    let offset = directory::used_of_block(image, geo, block);
    let bytes = &mut volume::data_mut(image, geo, block)[offset..];
    bytes[0] = kind as u8;
    volume::put_number(&mut bytes[1..5], address as u32);
    volume::put_number(&mut bytes[5..9], 0);
    bytes[9..17].copy_from_slice(&time.to_be_bytes());
    bytes[17] = name.len() as u8;
    bytes[HEADER..HEADER + name.len()].copy_from_slice(name);
}

/// C13: the directory's own entry, if it is not the root.
fn renew_own_entry(image: &mut [u8], geo: Geometry, holder: &Opened, time: u64) {
    if let Some(own) = &holder.own {
        let sum = directory::walk(image, geo, holder.first).entries.iter().map(Entry::len).sum();
        renew(image, geo, own, sum, time);
    }
}

/// New size and time in an entry that stays where it is.
fn renew(image: &mut [u8], geo: Geometry, entry: &Entry, size: usize, time: u64) {
    let bytes = &mut volume::data_mut(image, geo, entry.block)[entry.offset..];
    volume::put_number(&mut bytes[5..9], size as u32);
    bytes[9..17].copy_from_slice(&time.to_be_bytes());
}

/// O8, O10. C11: the entry's bytes go; a block without entries that is not the first
/// is given back, and then the entry's chain. C13.
pub fn delete(image: &mut [u8], mount: impl Into<Mount>, cwd: &[u8], path: &[u8], time: u64, work: &mut [u8]) -> Answer<()> {
    let mount = mount.into();
    let geo = checked(image, mount, work)?;
    let full = full_path(cwd, path)?;
    let (holder, entry) = find(image, geo, &full)?;
    if entry.kind == Kind::Dir && !directory::walk(image, geo, entry.address).entries.is_empty() {
        return Err(Refusal::NotEmpty);
    }

    remove_entry(image, geo, &entry);
    unlink_if_empty(image, geo, holder.first, entry.block, mount.known);
    for block in volume::chain(image, geo, entry.address).blocks {
        volume::free(image, geo, block, mount.known);
    }
    renew_own_entry(image, geo, &holder, time);
    Ok(())
}

/// C11: what is behind moves down, and zeros come in at the end
fn remove_entry(image: &mut [u8], geo: Geometry, entry: &Entry) {
    let bytes = volume::data_mut(image, geo, entry.block);
    bytes.copy_within(entry.end().., entry.offset);
    bytes[geo.size().capacity - entry.len()..].fill(0);
}

/// C11: a block without entries, not the first, is linked past and given back
fn unlink_if_empty(image: &mut [u8], geo: Geometry, first: usize, block: usize, known: Known) {
    if block == first || directory::used_of_block(image, geo, block) > 0 {
        return;
    }
    let blocks = volume::chain(image, geo, first).blocks;
    let before = blocks.iter().position(|&address| address == block).expect("the entry was found in this chain") - 1;
    let after = volume::next(image, geo, block);
    volume::set_next(image, geo, blocks[before], after);
    volume::free(image, geo, block, known);
}

/// O8, O11. C12: the file is its first c bytes and then the buffer; in a kept
/// block what is behind the end stays.
pub fn write(
    image: &mut [u8],
    mount: impl Into<Mount>,
    handle: &mut Handle,
    buf: &[u8],
    time: u64,
    work: &mut [u8],
) -> Answer<usize> {
    let mount = mount.into();
    let (geo, entry) = target(image, mount, handle, buf, work)?;
    let end = handle.position as usize + buf.len();
    if end > MAX_FILE {
        return Err(Refusal::TooLarge);
    }
    let blocks = volume::chain(image, geo, entry.address).blocks;
    volume::room_for(image, geo, geo.file_blocks(end).saturating_sub(blocks.len()))?;

    let blocks = fit_chain(image, geo, blocks, geo.file_blocks(end), mount.known);
    put_bytes(image, geo, &blocks, handle.position as usize, buf);
    renew(image, geo, &entry, end, time);
    handle.size = end as u32;
    handle.position = end as u32;
    Ok(buf.len())
}

/// O14. C19: the buffer over bytes that are in the file already: its size, its chain and all its other bytes stay, and the entry takes
/// the time. Refused as a write is up to 11, and then by 19 where the buffer would go past the file's end.
pub fn patch(
    image: &mut [u8],
    mount: impl Into<Mount>,
    handle: &mut Handle,
    buf: &[u8],
    time: u64,
    work: &mut [u8],
) -> Answer<usize> {
    let (geo, entry) = target(image, mount.into(), handle, buf, work)?;
    let end = handle.position as usize + buf.len();
    if end > entry.size {
        return Err(Refusal::PastEnd);
    }
    let blocks = volume::chain(image, geo, entry.address).blocks;
    put_bytes(image, geo, &blocks, handle.position as usize, buf);
    renew(image, geo, &entry, entry.size, time);
    handle.position = end as u32;
    Ok(buf.len())
}

/// What the calls that store a buffer look at first: the whole check, 13, and 11.
/// H4: the handle's directory is one reached from the root (by its first address, reading 9).
fn target(image: &[u8], mount: Mount, handle: &Handle, buf: &[u8], work: &mut [u8]) -> Answer<(Geometry, Entry)> {
    let geo = checked(image, mount, work)?;
    if buf.is_empty() {
        return Err(Refusal::EmptyWrite);
    }
    handle.own_fields()?;
    if !directory::directories_under(image, geo, geo.d()).contains(&(handle.dir as usize)) {
        return Err(Refusal::Stale);
    }
    Ok((geo, handle.entry(image, geo)?))
}

/// The buffer's bytes in a file of those blocks, from a position on.
fn put_bytes(image: &mut [u8], geo: Geometry, blocks: &[usize], start: usize, buf: &[u8]) {
    let capacity = geo.size().capacity;
    for (place, byte) in (start..).zip(buf) {
        volume::data_mut(image, geo, blocks[place / capacity])[place % capacity] = *byte;
    }
}

/// C12: what is missing is taken, what is not needed any more is given back.
fn fit_chain(image: &mut [u8], geo: Geometry, mut blocks: Vec<usize>, wanted: usize, known: Known) -> Vec<usize> {
    while blocks.len() < wanted {
        let new = link_new_block(image, geo, &blocks);
        blocks.push(new);
    }
    for past in blocks.split_off(wanted) {
        volume::free(image, geo, past, known);
    }
    volume::set_next(image, geo, blocks[wanted - 1], 0);
    blocks
}
