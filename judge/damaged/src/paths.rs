//! Paths at random: of what is there, of what could be, and odd ones.
use crate::case::Call;
use crate::scene::Scene;
use volumes::{draw_accented, fill_of, Entry, Geometry, Kind, Rng, HEADER};

/// Bytes at the edges of what may stand in text.
pub const ODD_BYTES: [u8; 22] = [
    0, 0x1f, 0x20, b'/', 0x7e, 0x7f, 0x80, 0x8f, 0x90, 0x9f, 0xa0, 0xbf, 0xc0, 0xc1, 0xc2, 0xe0, 0xed, 0xf0, 0xf3, 0xf4, 0xf5,
    0xff,
];

/// Characters at the edges of the table of UTF-8, and what is none: forms too long, numbers kept for UTF-16 or above U+10FFFF, parts of
/// characters, a slash inside one, and 0x7F.
pub const SEQUENCES: [&[u8]; 24] = [
    b"\xc3\xa9",
    b"\xc2\x80",
    b"\xdf\xbf",
    b"\xe0\xa0\x80",
    b"\xe2\x82\xac",
    b"\xed\x9f\xbf",
    b"\xee\x80\x80",
    b"\xf0\x90\x80\x80",
    b"\xf4\x8f\xbf\xbf",
    b"\xc0\x80",
    b"\xc1\xbf",
    b"\xe0\x9f\xbf",
    b"\xed\xa0\x80",
    b"\xed\xbf\xbf",
    b"\xf0\x8f\xbf\xbf",
    b"\xf4\x90\x80\x80",
    b"\xf5\x80\x80\x80",
    b"\xc3",
    b"\xe2\x82",
    b"\xf0\x9f\x98",
    b"\x80",
    b"\xc3/\xa9",
    b"\xc3\xc0",
    b"\x7f",
];

/// The working directory and the path of a call.
pub fn draw_path(scene: &Scene, call: Call, rng: &mut Rng) -> (Vec<u8>, Vec<u8>) {
    let mut full = draw_full_path(scene, call, rng);
    if rng.one_in(10) {
        add_slashes(&mut full, rng);
    }
    if rng.one_in(25) {
        stretch(&mut full, rng);
    }
    if rng.one_in(25) && !full.is_empty() {
        let place = rng.below(full.len() as u64) as usize;
        full[place] = *rng.pick(&ODD_BYTES);
    }
    if rng.one_in(20) {
        let place = rng.below(full.len() as u64 + 1) as usize;
        full.splice(place..place, rng.pick(&SEQUENCES).iter().copied());
    }
    match rng.below(12) {
        0..=4 => part(&full, rng),
        5 => (draw_odd_cwd(rng), part(&full, rng).1),
        6 => (draw_odd_cwd(rng), full),
        _ => (b"/".to_vec(), full),
    }
}

fn draw_full_path(scene: &Scene, call: Call, rng: &mut Rng) -> Vec<u8> {
    let creates = matches!(call, Call::CreateFile | Call::CreateDir);
    match rng.below(20) {
        0..=9 if !creates => match draw_entry(scene, call, rng) {
            Some(entry) => entry.path.clone(),
            None => draw_letters(rng),
        },
        0..=2 => draw_fitting_path(scene, rng),
        10 => b"/".to_vec(),
        11..=12 => draw_letters(rng),
        13 => below(&draw_dir(scene, rng).0, &vec![b'n'; *rng.pick(&[254, 255, 256, 257])]),
        14 => below(&draw_any(scene, rng), &draw_accented(rng)),
        15..=16 => draw_any(scene, rng),
        _ => below(&draw_dir(scene, rng).0, &draw_accented(rng)),
    }
}

/// The path of a name in a directory.
fn below(dir: &[u8], name: &[u8]) -> Vec<u8> {
    [dir, b"/", name].concat()
}

/// A new name that would end a byte before the last place where an entry may end in some block of its directory, there, or after it.
fn draw_fitting_path(scene: &Scene, rng: &mut Rng) -> Vec<u8> {
    let (dir, first) = draw_dir(scene, rng);
    let fills = match scene.geometry() {
        Some(geometry) if scene.well_formed => fill_of(&scene.image, geometry, first),
        _ => vec![0],
    };
    let taken = *rng.pick(&fills) + HEADER;
    let end = scene.form.capacity();
    let len = rng.pick(&[end - 2, end - 1, end]).saturating_sub(taken).clamp(1, 255);
    below(&dir, &vec![rng.between(u64::from(b'a'), u64::from(b'z')) as u8; len])
}

/// An entry of a kind that the call wants, if there is one; of a damaged volume rather one that no longer is what it was.
pub fn draw_entry<'a>(scene: &'a Scene, call: Call, rng: &mut Rng) -> Option<&'a Entry> {
    let wanted = |entry: &&Entry| match call {
        Call::List => entry.kind == Kind::Dir,
        Call::Open | Call::Read | Call::Write | Call::Patch => entry.kind == Kind::File,
        _ => true,
    };
    let fitting: Vec<&Entry> = scene.entries.iter().filter(wanted).collect();
    if fitting.is_empty() {
        return None;
    }
    let tries = if scene.well_formed || rng.one_in(2) { 1 } else { 8 };
    let drawn: Vec<&Entry> = (0..tries).map(|_| *rng.pick(&fitting)).collect();
    drawn.iter().copied().find(|entry| is_changed(scene, entry)).or(drawn.first().copied())
}

/// Whether what stands at an entry's path is no longer found, or has another kind, size or, for a file, address.
fn is_changed(scene: &Scene, entry: &Entry) -> bool {
    let Ok(info) = model::info(&scene.image, scene.mount(), b"/", &entry.path) else {
        return true;
    };
    let moved = model::open(&scene.image, scene.mount(), b"/", &entry.path).is_ok_and(|handle| handle.addr != entry.chain[0]);
    info.kind as u8 != entry.kind as u8 || info.size != entry.size || moved
}

/// The path of a directory, empty for the root, and its first block; often the deepest.
fn draw_dir(scene: &Scene, rng: &mut Rng) -> (Vec<u8>, u32) {
    let dirs: Vec<&Entry> = scene.entries.iter().filter(|entry| entry.kind == Kind::Dir).collect();
    if dirs.is_empty() || rng.one_in(3) {
        return (Vec::new(), scene.geometry().map_or(0, Geometry::data));
    }
    let drawn = if rng.one_in(3) { deepest(&dirs) } else { rng.pick(&dirs) };
    (drawn.path.clone(), drawn.chain[0])
}

fn deepest<'a>(entries: &[&'a Entry]) -> &'a Entry {
    entries.iter().max_by_key(|entry| entry.depth).expect("there is an entry")
}

/// The path of something, sometimes as deep as there is.
fn draw_any(scene: &Scene, rng: &mut Rng) -> Vec<u8> {
    let entries: Vec<&Entry> = scene.entries.iter().collect();
    match &entries[..] {
        [] => b"/a".to_vec(),
        entries if rng.one_in(3) => deepest(entries).path.clone(),
        entries => rng.pick(entries).path.clone(),
    }
}

/// A short path of few letters.
pub fn draw_letters(rng: &mut Rng) -> Vec<u8> {
    let pieces = *rng.pick(&[0, 1, 1, 1, 2, 2, 3, 4]);
    let mut path = Vec::new();
    for _ in 0..pieces {
        path.push(b'/');
        path.extend(*rng.pick(&[&b"a"[..], b"a", b"b", b"b", b".", b"ab", b"a.", b"..", b""]));
    }
    path
}

/// Slashes at the start, at the end, or doubled within.
fn add_slashes(full: &mut Vec<u8>, rng: &mut Rng) {
    let slashes: Vec<usize> = (0..full.len()).filter(|&i| full[i] == b'/').collect();
    let place = match rng.below(3) {
        0 => 0,
        1 => full.len(),
        _ if slashes.is_empty() => 0,
        _ => *rng.pick(&slashes),
    };
    for _ in 0..rng.between(1, 2) {
        full.insert(place, b'/');
    }
}

/// Makes the path as long as the limits ask for, by slashes at its end, by letters, or by pieces.
fn stretch(full: &mut Vec<u8>, rng: &mut Rng) {
    let len = *rng.pick(&[255, 256, 1023, 1024, 1025, 1026, 2000]);
    let more = rng.below(3);
    while full.len() < len {
        let at_piece = full.len().is_multiple_of(2);
        full.push(match more {
            0 => b'/',
            1 if at_piece => b'/',
            _ => b'a',
        });
    }
}

/// The path from a working directory on the way to it.
fn part(full: &[u8], rng: &mut Rng) -> (Vec<u8>, Vec<u8>) {
    let slashes: Vec<usize> = (0..full.len()).filter(|&i| full[i] == b'/').collect();
    if slashes.is_empty() {
        return (b"/".to_vec(), full.to_vec());
    }
    let slash = *rng.pick(&slashes);
    let keeps_slash = slash == 0 || rng.one_in(2);
    (full[..slash + usize::from(keeps_slash)].to_vec(), full[slash + 1..].to_vec())
}

fn draw_odd_cwd(rng: &mut Rng) -> Vec<u8> {
    match rng.below(8) {
        0 => Vec::new(),
        1 => b"x".to_vec(),
        2 => b"a/b".to_vec(),
        3 => b"/\x7f".to_vec(),
        // A character may not begin in the working directory and go on in the path.
        5 => [b"/", *rng.pick(&SEQUENCES)].concat(),
        6 => [b"/", *rng.pick(&SEQUENCES), b"/"].concat(),
        4 => vec![b'/'; *rng.pick(&[2, 1022, 1023, 1024, 1025])],
        _ => b"//a".to_vec(),
    }
}
