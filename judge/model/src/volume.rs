//! The store and its numbers: superblock, bitmap and linked blocks.
use crate::geometry::{Geometry, Known, Mount};
use crate::{Answer, Refusal};

const SIGNATURE: &[u8; 8] = b"MOROS FS";

/// R1 to R3, of all calls but format, and what the superblock says (F2).
/// Its zeros are for the check alone (reading 2).
pub fn volume(image: &[u8], mount: Mount) -> Answer<Geometry> {
    let size = mount.size()?;
    let blocks = mount.image_blocks(image)?;
    let superblock = &image[size.block * mount.k as usize..][..size.block];
    let (version, code) = (superblock[8], superblock[9]);
    if superblock[0..8] != SIGNATURE[..] || !mount.takes(version, code) {
        return Err(Refusal::NotMfs);
    }
    Geometry { k: mount.k as usize, version, code, n: number(&superblock[10..14]) as usize }.in_image(blocks)
}

/// F2: a superblock, its bytes from 18 on zero.
pub fn write_superblock(image: &mut [u8], geo: Geometry, used: usize) {
    let superblock = block_mut(image, geo, geo.k);
    superblock.fill(0);
    superblock[0..8].copy_from_slice(SIGNATURE);
    superblock[8] = geo.version;
    superblock[9] = geo.code;
    put_number(&mut superblock[10..14], geo.n as u32);
    set_used(image, geo, used);
}

/// W1, the part that `volume` does not look at: the superblock's zeros.
pub fn superblock_rest_is_zero(image: &[u8], geo: Geometry) -> bool {
    block(image, geo, geo.k)[18..].iter().all(|&byte| byte == 0)
}

pub fn used(image: &[u8], geo: Geometry) -> usize {
    number(&block(image, geo, geo.k)[14..18]) as usize
}

fn set_used(image: &mut [u8], geo: Geometry, count: usize) {
    put_number(&mut block_mut(image, geo, geo.k)[14..18], count as u32);
}

pub fn is_set(image: &[u8], geo: Geometry, x: usize) -> bool {
    let (place, mask) = geo.bit(x);
    image[place] & mask != 0
}

/// The clear indexes within reach, lowest first.
fn clear_indexes(image: &[u8], geo: Geometry) -> impl Iterator<Item = usize> + '_ {
    (0..geo.reach()).filter(move |&x| !is_set(image, geo, x))
}

/// R9.
pub fn room_for(image: &[u8], geo: Geometry, blocks: usize) -> Answer<()> {
    if clear_indexes(image, geo).count() < blocks {
        return Err(Refusal::NoRoom);
    }
    Ok(())
}

/// F6: the lowest clear index in reach is taken.
/// The caller knows that there is one.
pub fn allocate(image: &mut [u8], geo: Geometry) -> usize {
    let index = clear_indexes(image, geo).next().expect("the room was counted before");
    take(image, geo, geo.address(index))
}

/// The steps of an allocation, for a block that is known.
pub fn take(image: &mut [u8], geo: Geometry, address: usize) -> usize {
    let (place, mask) = geo.bit(geo.index(address));
    block_mut(image, geo, address).fill(0);
    image[place] |= mask;
    let count = used(image, geo);
    set_used(image, geo, count + 1);
    address
}

/// F7: a block is given back, and all its bytes become zero, so that none can be read on a card that was thrown away. Where
/// wiping is not known they stay.
pub fn free(image: &mut [u8], geo: Geometry, address: usize, known: Known) {
    let (place, mask) = geo.bit(geo.index(address));
    if known.wiping {
        block_mut(image, geo, address).fill(0);
    }
    image[place] &= !mask;
    let count = used(image, geo);
    set_used(image, geo, count - 1);
}

pub fn block(image: &[u8], geo: Geometry, address: usize) -> &[u8] {
    let size = geo.size().block;
    &image[size * address..][..size]
}

pub fn block_mut(image: &mut [u8], geo: Geometry, address: usize) -> &mut [u8] {
    let size = geo.size().block;
    &mut image[size * address..][..size]
}

pub fn next(image: &[u8], geo: Geometry, address: usize) -> usize {
    number(&block(image, geo, address)[0..4]) as usize
}

pub fn set_next(image: &mut [u8], geo: Geometry, address: usize, to: usize) {
    put_number(&mut block_mut(image, geo, address)[0..4], to as u32);
}

pub fn data(image: &[u8], geo: Geometry, address: usize) -> &[u8] {
    &block(image, geo, address)[4..]
}

pub fn data_mut(image: &mut [u8], geo: Geometry, address: usize) -> &mut [u8] {
    &mut block_mut(image, geo, address)[4..]
}

/// F1: the highest byte first.
pub fn number(bytes: &[u8]) -> u64 {
    bytes.iter().fold(0, |high, &low| 256 * high + u64::from(low))
}

pub fn put_number(bytes: &mut [u8], number: u32) {
    bytes.copy_from_slice(&number.to_be_bytes());
}

/// The blocks that a walk along a chain visits.
pub struct Chain {
    pub blocks: Vec<usize>,
    /// Whether the walk came to the end of the chain; else the next step gives 17.
    pub whole: bool,
}

/// R17: a walk leaves the data area, or has too many blocks. So a walk can be made whole, and a caller whose answer
/// is known from the blocks before the damage does not ask how it ended.
pub fn chain(image: &[u8], geo: Geometry, first: usize) -> Chain {
    let mut blocks = Vec::new();
    let mut at = first;
    while geo.holds(at) && blocks.len() < geo.data_blocks() {
        blocks.push(at);
        at = next(image, geo, at);
        if at == 0 {
            return Chain { blocks, whole: true };
        }
    }
    Chain { blocks, whole: false }
}
