//! Calls at random: which one, and its numbers and buffers.
use crate::case::{Call, Case};
use crate::handles::draw_handle;
use crate::paths::draw_path;
use crate::scene::Scene;
use model::{Handle, SeekFrom};
use volumes::{Form, Rng};

/// A call on the scene's image, which it takes.
pub fn draw_case(scene: &mut Scene, rng: &mut Rng) -> Case {
    let call = draw_call(scene, rng);
    draw_inputs(scene, call, rng)
}

/// The check, with what it needs: it looks at more than any other call.
pub fn draw_check(scene: &mut Scene, rng: &mut Rng) -> Case {
    let case = draw_inputs(scene, Call::Check, rng);
    Case { k: scene.k, code: scene.code(), work: vec![0xff; case.image.len() / 4096 + 1], ..case }
}

fn draw_inputs(scene: &mut Scene, call: Call, rng: &mut Rng) -> Case {
    let (cwd, path) = draw_path(scene, call, rng);
    let handle = draw_handle(scene, rng);
    let buf = draw_buffer(scene.form, call, &handle, rng);
    let work = draw_work(scene, rng);
    let k = draw_k(scene, rng);
    let code = draw_code(scene, rng);
    let image = std::mem::take(&mut scene.image);
    Case { call, image, k, code, cwd, path, from: draw_from(rng), time: draw_time(rng), handle, buf, work }
}

fn draw_call(scene: &Scene, rng: &mut Rng) -> Call {
    // To the changing calls a damaged image has but one answer. A format leaves little to see.
    let calls = if scene.well_formed { 100 } else { 76 };
    let more = if scene.known.patch { 6 } else { 0 };
    match rng.below(calls + more) {
        0 if !scene.well_formed || rng.one_in(3) => Call::Format,
        0..=2 => Call::Usage,
        3..=4 => Call::Room(draw_count(scene, rng)),
        5..=12 => Call::Check,
        13..=23 => Call::Open,
        24..=33 => Call::Info,
        34..=43 => Call::List,
        44..=55 => Call::Read,
        56..=61 => Call::Seek(draw_seek(rng)),
        62..=65 | 76..=82 => Call::CreateFile,
        66..=68 | 83..=87 => Call::CreateDir,
        69..=71 | 88..=93 => Call::Delete,
        _ if scene.known.patch && rng.one_in(2) => Call::Patch,
        _ => Call::Write,
    }
}

/// None, one, as many as are free and one more, and any number.
fn draw_count(scene: &Scene, rng: &mut Rng) -> u32 {
    let whole = |geometry: &volumes::Geometry| geometry.place(geometry.data()) <= scene.image.len();
    let all = scene.geometry().filter(whole).map_or(0, |geometry| geometry.free_in_reach(&scene.image).count() as u32);
    match rng.below(4) {
        0 => *rng.pick(&[0, 1, u32::MAX]),
        1 => *rng.pick(&[all, all + 1, all.saturating_sub(1)]),
        2 => rng.below(u64::from(all) + 2) as u32,
        _ => *rng.pick(&[2, 7, 8, 9, 63, 64, 65, 66, 127, 128, 129, 200]),
    }
}

fn draw_seek(rng: &mut Rng) -> SeekFrom {
    let offset = match rng.below(3) {
        0 => *rng.pick(&[0, 1, -1, 508, -508, i32::MAX, i32::MIN, i32::MIN + 1]),
        1 => rng.below(4000) as i32 - 2000,
        _ => rng.next_u64() as i32,
    };
    match rng.below(3) {
        0 if rng.one_in(2) => SeekFrom::Start(rng.below(3000) as u32),
        0 => SeekFrom::Start(offset as u32),
        1 => SeekFrom::Current(offset),
        _ => SeekFrom::End(offset),
    }
}

/// Mostly the superblock's own place.
fn draw_k(scene: &Scene, rng: &mut Rng) -> u32 {
    if !rng.one_in(30) {
        return scene.k;
    }
    let blocks = (scene.image.len() / scene.form.block_size()) as u32;
    let any = rng.next_u64() as u32;
    let odd = [
        0,
        scene.k + 1,
        scene.k.wrapping_sub(1),
        blocks,
        blocks.wrapping_sub(2),
        blocks.wrapping_sub(3),
        u32::MAX - 1,
        u32::MAX,
        any,
    ];
    *rng.pick(&odd)
}

/// Mostly the card's own.
fn draw_code(scene: &Scene, rng: &mut Rng) -> u32 {
    if rng.one_in(40) {
        return *rng.pick(&[0, 1, 2, 3, 256, u32::MAX]);
    }
    scene.code()
}

fn draw_from(rng: &mut Rng) -> u32 {
    match rng.below(8) {
        0..=3 => 0,
        4..=5 => rng.below(30) as u32,
        6 => rng.below(150) as u32,
        _ => *rng.pick(&[1000, i32::MAX as u32, 0x8000_0000, u32::MAX - 1, u32::MAX]),
    }
}

fn draw_time(rng: &mut Rng) -> u64 {
    *rng.pick(&[0, 1, 1_700_000_000, 1_700_000_060, u64::MAX, 0x8000_0000_0000_0000])
}

/// Exact, one byte short, longer, empty; always with something in it.
fn draw_work(scene: &Scene, rng: &mut Rng) -> Vec<u8> {
    let exact = scene.geometry().map_or(64, |geometry| geometry.data_blocks().div_ceil(8) as usize);
    let len = match rng.below(20) {
        0 => exact - 1,
        1 => 0,
        2..=4 => exact + 1,
        5..=8 => exact + rng.below(600) as usize,
        _ => exact,
    };
    let mut work = vec![0xff; len];
    if rng.one_in(2) {
        rng.fill(&mut work);
    }
    work
}

/// Lengths at the edges of blocks and records, and for a read at the file's end. Half of the patches end inside the file, there, or
/// one byte behind.
fn draw_buffer(form: Form, call: Call, handle: &Handle, rng: &mut Rng) -> Vec<u8> {
    let left = u64::from(handle.size.saturating_sub(handle.position)).min(20_000);
    let len = match rng.below(4) {
        _ if call == Call::Patch && rng.one_in(2) => rng.below(left + 2),
        0 if matches!(call, Call::Write | Call::Patch) && !rng.one_in(8) => rng.between(1, 60),
        0 => *rng.pick(&[0, 0, 1, 2, 14, 15, 16, 17, 31, 269, 270, 271]),
        1 if form == Form::Large => *rng.pick(&[1019, 1020, 1021, 2039, 2040, 2041, 3060, 3061, 4080, 5100]),
        1 => *rng.pick(&[507, 508, 509, 1015, 1016, 1017, 1524, 1525, 2032, 5080]),
        2 => rng.below(3000),
        _ => (left + rng.below(3)).saturating_sub(1),
    };
    let mut buf = vec![0; len as usize];
    rng.fill(&mut buf);
    buf
}
