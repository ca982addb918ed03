//! What to say of a refusal: its number, the reason as exactly as it can be told, and what to do about it.
use crate::code;
use crate::failure::Failure;
use crate::human;
use crate::layout::{self, Geometry, Mount, Superblock, VERSIONS};
use crate::library::Refusal;

fn refused(subject: &str, number: u32, reason: String, advice: &str) -> Failure {
    Failure::Refused { subject: subject.to_string(), number, reason, advice: advice.to_string() }
}

/// Refuses a file that can be no image (1), before anything is looked for in it.
pub fn good_length(len: u64, mount: Mount, name: &str) -> Result<(), Failure> {
    let (k, block, most) = (mount.k, mount.block() as u64, mount.most_blocks());
    let (blocks, over) = (len / block, len % block);
    if len == 0 {
        return Err(refused(name, 1, "the file is empty".to_string(), "'mfs format --blocks N' makes a new one"));
    }
    if over != 0 {
        let reason = format!("{len} bytes are not whole blocks of {block}: {over} are left over");
        return Err(refused(name, 1, reason, "was the image read to its end?"));
    }
    if blocks > most {
        let reason = format!("{blocks} blocks are more than the {most} (4 GiB) that an image can have");
        return Err(refused(name, 1, reason, "cut the volume's part out of it, for instance with dd"));
    }
    if u64::from(k) + 2 >= blocks {
        let reason = format!("a superblock in block {k} leaves no volume in {blocks} blocks");
        return Err(refused(name, 1, reason, "use another -k, or leave it out"));
    }
    Ok(())
}

/// No mark where it was looked for (2).
pub fn no_mark(k: Option<u32>, elsewhere: Option<Mount>, name: &str) -> Failure {
    match (k, elsewhere) {
        (Some(k), Some(Mount { k: other, code: 0 })) => {
            refused(name, 2, format!("no MFS mark at block {k}; found at {other}"), &format!("use -k {other}"))
        }
        (Some(k), Some(Mount { k: other, code })) => {
            let reason = format!("no MFS mark at block {k}; found at {other} of size code {code}");
            refused(name, 2, reason, &format!("use -k {other} --code {code}"))
        }
        (Some(k), None) => refused(
            name,
            2,
            format!("no MFS mark at block {k}, nor at another"),
            "is this an MFS card? 'mfs format' makes it one, and drops what it holds",
        ),
        (None, _) => refused(
            name,
            2,
            "no MFS mark in any block".to_string(),
            "is this an MFS card? 'mfs format' makes it one, and drops what it holds",
        ),
    }
}

/// The parts of the volume, or the refusal that its superblock gets (1, 2, 3).
pub fn geometry(image: &[u8], mount: Mount, name: &str) -> Result<Geometry, Failure> {
    match superblock_fault(image, mount, name) {
        Some(failure) => Err(failure),
        None => Ok(Geometry::of(image, mount).expect("a superblock without a fault")),
    }
}

/// What is wrong with a superblock, if something is.
fn superblock_fault(image: &[u8], mount: Mount, name: &str) -> Option<Failure> {
    if let Err(failure) = good_length(image.len() as u64, mount, name) {
        return Some(failure);
    }
    let superblock = Superblock::at(image, mount)?;
    let k = mount.k;
    if !superblock.is_marked() {
        return Some(no_mark(Some(k), None, name));
    }
    if !VERSIONS.contains(&superblock.version) {
        let known: Vec<String> = VERSIONS.iter().map(u8::to_string).collect();
        let (version, known) = (superblock.version, known.join(" and "));
        let reason = format!("the superblock at block {k} has version {version}; this tool knows version {known}");
        return Some(refused(name, 2, reason, "an older or newer tool may read it"));
    }
    if superblock.size_code != mount.code {
        let (reason, advice) = code::explain(superblock.size_code, k, mount.code);
        return Some(refused(name, 2, reason, advice));
    }
    if superblock.version == 1 && mount.code != 0 {
        return Some(refused(name, 2, "a card of version 1 has blocks of 512 bytes".to_string(), "were its bytes changed?"));
    }
    count_fault(image, mount, superblock).map(|(reason, advice)| refused(name, 3, reason, advice))
}

fn count_fault(image: &[u8], mount: Mount, superblock: Superblock) -> Option<(String, &'static str)> {
    let (has, Superblock { version, blocks, .. }) = (mount.blocks_of(image), superblock);
    if blocks > has {
        let reason = format!("the superblock says {blocks} blocks, and the image has {has}");
        return Some((reason, "was the card read to its end?"));
    }
    let k = mount.k;
    if Geometry::of_version(version, mount, blocks).is_none() {
        let reason = format!("{blocks} blocks with the superblock in block {k} leave no data area that can be");
        let least = "a card of version 1 has 4097 blocks or more from the bitmap on: were its bytes changed?";
        return Some((reason, if version == 1 { least } else { "one block more or less is often enough" }));
    }
    None
}

/// A refused call as a failure. The image is as the call left it, so as it was before.
pub fn failure(refusal: Refusal, image: &[u8], mount: Mount, name: &str, path: &[u8]) -> Failure {
    let subject = subject(name, path);
    match refusal.number {
        1..=3 => match superblock_fault(image, mount, name) {
            Some(failure) => failure,
            None => refused(name, refusal.number, refusal.reason, ""),
        },
        9 => no_room(image, mount, &subject, needs_to_create(image, mount, path)),
        number => {
            let dir = human::name(nearest(image, mount, path));
            refused(&subject, number, refusal.reason, &advise(number, name, &dir))
        }
    }
}

/// Image and path together: `card.img:/water`.
pub fn subject(name: &str, path: &[u8]) -> String {
    if path.is_empty() {
        name.to_string()
    } else {
        format!("{name}:{}", human::name(path))
    }
}

/// 9: how many blocks are wanted and how many there are.
pub fn no_room(image: &[u8], mount: Mount, subject: &str, needs: u64) -> Failure {
    let geometry = Geometry::of(image, mount);
    let (in_reach, reach) = geometry.map_or((0, 0), |g| (g.free_in_reach(image), g.reach()));
    let reason =
        format!("needs {}, {in_reach} {} in reach", human::count(needs, "block"), if in_reach == 1 { "is" } else { "are" });
    let advice = if reach == 0 {
        format!("on a volume of fewer than {} blocks nothing can be created: make a larger one", mount.bits())
    } else {
        "remove something, or take a larger card".to_string()
    };
    refused(subject, 9, reason, &advice)
}

/// Blocks for a new entry: its own, and one for its directory where no block of that has room for the name.
pub fn needs_to_create(image: &[u8], mount: Mount, path: &[u8]) -> u64 {
    let split = path.iter().rposition(|&byte| byte == b'/').unwrap_or(0);
    let name_len = path.len().saturating_sub(split + 1);
    let dir = Geometry::of(image, mount).and_then(|g| layout::find_dir(image, g, &path[..split]).map(|dir| (g, dir)));
    let grows = dir.is_some_and(|(g, dir)| {
        let mut blocks = layout::chain(image, g, dir).into_iter();
        !blocks.any(|addr| layout::has_room(mount.data(image, addr), name_len))
    });
    1 + u64::from(grows)
}

/// The longest way along a path, short of its end, that leads to a directory.
fn nearest<'a>(image: &[u8], mount: Mount, path: &'a [u8]) -> &'a [u8] {
    let ends = (1..path.len()).rev().filter(|&end| path[end] == b'/');
    let is_dir = |end: &usize| Geometry::of(image, mount).is_some_and(|g| layout::find_dir(image, g, &path[..*end]).is_some());
    ends.into_iter().find(is_dir).map_or(b"/", |end| &path[..end])
}

/// What to do about a refusal; `dir` is a directory near by.
fn advise(number: u32, name: &str, dir: &str) -> String {
    match number {
        4 => "give it another name on the card".to_string(),
        5 => format!("'mfs ls {name} {dir}' shows what is there"),
        6 => format!("'mfs ls -l {name} {dir}' shows what is what"),
        7 => "remove it first, or choose another name".to_string(),
        8 => "choose a name of 1 to 255 bytes".to_string(),
        10 => "split the file".to_string(),
        12 | 19 => format!("'mfs info {name} PATH' tells the file's size, and 'mfs append' makes it longer"),
        14 => "remove what is in it first, or use -r".to_string(),
        15 => "directories lie at most 16 deep: choose a shorter path".to_string(),
        17 => format!("'mfs check --explain {name}' says where; 'mfs get' may still save files"),
        _ => String::new(),
    }
}
