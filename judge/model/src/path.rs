//! Paths: from what a call is given to pieces of names.
use crate::{Answer, Refusal};

/// F13: the longest full path.
const MAX_PATH: usize = 1024;

/// P1: the full path, by the working directory where the path is not full. R4, P2: its length and
/// bytes, and a needed working directory's first byte. The limit is on this full path (reading 8).
pub fn full_path(cwd: &[u8], path: &[u8]) -> Answer<Vec<u8>> {
    let mut full = Vec::new();
    if !path.starts_with(b"/") {
        if !cwd.starts_with(b"/") {
            return Err(Refusal::BadPath);
        }
        full.extend(cwd);
        if !cwd.ends_with(b"/") {
            full.push(b'/');
        }
    }
    full.extend(path);
    if full.len() > MAX_PATH || !is_text(&full) {
        return Err(Refusal::BadPath);
    }
    Ok(full)
}

/// P7: character by character, by the number that each one stands for; no byte below 0x20, no 0x7F.
pub fn is_text(bytes: &[u8]) -> bool {
    let mut rest = bytes;
    while let Some(&first) = rest.first() {
        let Some(length) = character(rest) else {
            return false;
        };
        if first < 0x20 || first == 0x7f {
            return false;
        }
        rest = &rest[length..];
    }
    true
}

/// How many bytes the character has that stands first, if there is one: no number in more bytes than it needs, no number kept for
/// UTF-16 (U+D800 to U+DFFF), none above U+10FFFF.
fn character(bytes: &[u8]) -> Option<usize> {
    let first = bytes[0];
    let (length, digits, least) = match first.leading_ones() {
        0 => return Some(1),
        2 => (2, first & 0b1_1111, 0x80),
        3 => (3, first & 0b1111, 0x800),
        4 => (4, first & 0b111, 0x1_0000),
        _ => return None,
    };
    let mut number = u32::from(digits);
    for place in 1..length {
        let byte = *bytes.get(place)?;
        if byte.leading_ones() != 1 {
            return None;
        }
        number = number << 6 | u32::from(byte & 0b11_1111);
    }
    let kept_back = (0xd800..=0xdfff).contains(&number);
    (least <= number && number <= 0x10_ffff && !kept_back).then_some(length)
}

/// P3: without slashes at its end, cut at the last slash that is left:
/// directory part and last name.
pub fn split(full: &[u8]) -> (&[u8], &[u8]) {
    let mut end = full.len();
    if full.len() > 1 {
        while end > 0 && full[end - 1] == b'/' {
            end -= 1;
        }
    }
    let path = &full[..end];
    let slash = path.iter().rposition(|&byte| byte == b'/');
    match slash {
        Some(place) if place > 0 => (&path[..place], &path[place + 1..]),
        Some(_) => (b"/", &path[1..]),
        None => (b"/", path),
    }
}

/// P4: the names on the way, empty ones among them; none for the
/// root.
pub fn pieces(directory: &[u8]) -> Vec<&[u8]> {
    if directory == b"/" {
        return Vec::new();
    }
    let start = directory.iter().take_while(|&&byte| byte == b'/').count();
    directory[start..].split(|&byte| byte == b'/').collect()
}
