//! Handles at random: answered ones, fitting ones and odd ones.
use crate::case::Call;
use crate::paths::{draw_entry, draw_letters};
use crate::scene::Scene;
use model::{Handle, NAME_LEN};
use volumes::{Entry, Rng};

/// A handle that calls have answered, that fits an entry, or an odd one.
pub fn draw_handle(scene: &Scene, rng: &mut Rng) -> Handle {
    let mut handle = match rng.below(8) {
        0..=2 if !scene.handles.is_empty() => rng.pick(&scene.handles).clone(),
        6 if !scene.entries.is_empty() => handle_at(rng.pick(&scene.entries)),
        7 => draw_any_handle(rng),
        _ => draw_opened(scene, rng),
    };
    if rng.one_in(2) {
        handle.position = draw_position(scene, handle.size, rng);
    }
    if rng.one_in(4) {
        make_odd(&mut handle, scene, rng);
    }
    handle
}

/// The handle that an entry would have if it were a file.
fn handle_at(entry: &Entry) -> Handle {
    let mut name = [0; NAME_LEN];
    name[..entry.name().len()].copy_from_slice(entry.name());
    Handle { dir: entry.dir, addr: entry.chain[0], size: entry.size, position: 0, name, len: entry.name().len() }
}

/// What opening a file of the scene gives, though the volume may be damaged; after some tries any handle.
fn draw_opened(scene: &Scene, rng: &mut Rng) -> Handle {
    for _ in 0..4 {
        let path = match draw_entry(scene, Call::Open, rng) {
            Some(entry) => entry.path.clone(),
            None => draw_letters(rng),
        };
        if let Ok(handle) = model::open(&scene.image, scene.mount(), b"/", &path) {
            return handle;
        }
    }
    draw_any_handle(rng)
}

/// Places at the edges of blocks, of the file, and of the longest chain that a walk goes along.
fn draw_position(scene: &Scene, size: u32, rng: &mut Rng) -> u32 {
    let block = scene.form.capacity() as u32;
    let longest = scene.geometry().map_or(0, |geometry| geometry.data_blocks()) * block;
    match rng.below(5) {
        0 => size,
        1 => size.min(*rng.pick(&[0, 1, block - 1, block, block + 1, 2 * block])),
        2 => size.min((longest + rng.below(3) as u32).saturating_sub(1)),
        _ => rng.below(u64::from(size) + 1) as u32,
    }
}

fn draw_any_handle(rng: &mut Rng) -> Handle {
    let mut name = [0; NAME_LEN];
    rng.fill(&mut name);
    let number = |rng: &mut Rng| rng.next_u64() as u32 >> *rng.pick(&[0, 1, 16, 26]);
    Handle { dir: number(rng), addr: number(rng), size: number(rng), position: number(rng), name, len: rng.below(300) as usize }
}

/// Changes one field.
fn make_odd(handle: &mut Handle, scene: &Scene, rng: &mut Rng) {
    let block = draw_some_block(scene, rng);
    let (size, len) = (handle.size, handle.len);
    match rng.below(6) {
        0 | 1 => handle.dir = block,
        2 => handle.addr = block,
        3 => handle.size = *rng.pick(&[0, size.wrapping_sub(1), size.wrapping_add(1), i32::MAX as u32, 0x8000_0000, u32::MAX]),
        4 => handle.position = *rng.pick(&[size, size.wrapping_add(1), 0x8000_0000, u32::MAX]),
        _ => handle.len = *rng.pick(&[0, 1, len.wrapping_sub(1), len + 1, 254, 255, 256, 511, 1 << 32, usize::MAX]),
    }
}

/// A block of an entry, of a directory, or at the edge of the data area.
fn draw_some_block(scene: &Scene, rng: &mut Rng) -> u32 {
    let (data, end) = scene.geometry().map_or((1, 2), |geometry| (geometry.data(), geometry.blocks()));
    let edges = [0, data - 1, data, data + 1, end - 1, end, u32::MAX];
    if scene.entries.is_empty() || rng.one_in(3) {
        return *rng.pick(&edges);
    }
    let entry = rng.pick(&scene.entries);
    if rng.one_in(2) {
        entry.dir
    } else {
        *rng.pick(&entry.chain)
    }
}
