//! The fixed list: calls inside the domain with the original's answers, as lines that the program `cases` reads. Its form is described
//! in judge/README.md.
use crate::call::{Answer, Call, Place, Seek};
use crate::domain::outside;
use crate::draw::Drawer;
use crate::original::original;
use crate::party::LIBRARY;
use crate::sides::{Sides, Verdict};
use std::fmt::Write as _;
use std::io::{self, Write};
use volumes::{Geometry, Order, Rng, Style, Tree, BLOCK_SIZE, ROOT};

/// The longest read, write or listing that the list may hold.
const LONGEST: usize = 4096;
/// Runs of bytes that stand closer than this go into one line.
const GAP: usize = 12;

/// Writes the list.
pub fn record(out: &mut impl Write) -> io::Result<()> {
    let mut list = List { out, digests: true };
    list.comment("Calls and the answers of the original Rust, made by: cargo run --release -p compare -- --record")?;
    list.comment("A volume of 4109 blocks, formatted.")?;
    list.formatted(4109, 8, 11, 500)?;
    list.comment("A volume of 4300 blocks with its superblock in block 1.")?;
    list.formatted(4300, 1, 12, 300)?;
    list.comment(
        "A volume of 4195 blocks in an image of 4200: devices, directories to depth 16, stale bytes, scattered chains.",
    )?;
    list.made()?;
    list.comment("The smallest volume with blocks in reach, filled to its last blocks.")?;
    list.filled()
}

struct List<'a, W: Write> {
    out: &'a mut W,
    /// A digest of the image follows each call that changed it.
    digests: bool,
}

impl<W: Write> List<'_, W> {
    fn comment(&mut self, text: &str) -> io::Result<()> {
        writeln!(self.out, "# {text}")
    }

    /// A new image: its size, and the bytes that are not zero.
    fn image(&mut self, image: &[u8], k: u32) -> io::Result<()> {
        writeln!(self.out, "v {} {k}", image.len() / BLOCK_SIZE)?;
        for (addr, block) in image.chunks(BLOCK_SIZE).enumerate() {
            for (start, run) in runs(block) {
                writeln!(self.out, "p {addr} {start} {}", hex(run))?;
            }
        }
        Ok(())
    }

    /// A call with the original's answer; nothing where the call is outside the domain.
    fn call(&mut self, sides: &mut Sides, call: &Call) -> io::Result<()> {
        let request = request(sides, call);
        let answer = match sides.step(call) {
            Verdict::Same(_, Some(number)) if outside(number) => return Ok(()),
            Verdict::Same(answer, _) => answer,
            Verdict::Differs(difference) => return Err(io::Error::other(format!("the sides differ at: {call}\n{difference}"))),
            Verdict::LeftOut(_) | Verdict::NotMade => return Ok(()),
        };
        writeln!(self.out, "{request} {}", response(call, &answer))?;
        if self.digests && call.changes() && answer != Answer::Refused {
            self.image_digest(sides)?;
        }
        Ok(())
    }

    fn image_digest(&mut self, sides: &Sides) -> io::Result<()> {
        writeln!(self.out, "g {}", digest(&sides.original_image()))
    }

    fn random_calls(&mut self, sides: &mut Sides, seed: u64, count: usize) -> io::Result<()> {
        let mut drawer = Drawer::new(Rng::new(seed), LONGEST);
        for _ in 0..count {
            let call = drawer.draw(sides);
            self.call(sides, &call)?;
        }
        self.call(sides, &Call::Usage)
    }

    fn formatted(&mut self, blocks: usize, k: u32, seed: u64, count: usize) -> io::Result<()> {
        let mut original = original(k);
        let image = vec![0; blocks * BLOCK_SIZE];
        self.image(&image, k)?;
        let mut sides = Sides::new(LIBRARY, original.as_mut(), image, k);
        self.call(&mut sides, &Call::Format)?;
        self.random_calls(&mut sides, seed, count)
    }

    fn made(&mut self) -> io::Result<()> {
        let k = 8;
        let mut original = original(k);
        let image = made_image(k);
        self.image(&image, k)?;
        let mut sides = Sides::new(LIBRARY, original.as_mut(), image, k);
        self.image_digest(&sides)?;
        self.random_calls(&mut sides, 13, 480)
    }

    fn filled(&mut self) -> io::Result<()> {
        let (k, blocks) = (8, 4096);
        let mut original = original(k);
        let image = vec![0; blocks * BLOCK_SIZE];
        self.image(&image, k)?;
        let mut sides = Sides::new(LIBRARY, original.as_mut(), image, k);
        self.call(&mut sides, &Call::Format)?;
        self.call(&mut sides, &Call::CreateDir { place: at("/old"), time: 1_700_000_000 })?;
        self.call(&mut sides, &Call::CreateFile { slot: 0, place: at("/old/log"), time: 1_700_000_001 })?;
        self.digests = false;
        let mut number = 0;
        while sides.geometry().free_in_reach(&sides.ours.image).count() > 9 {
            let call = Call::Write { slot: 0, len: LONGEST, seed: (number % 251) as u8, time: 1_700_000_002 + number };
            self.call(&mut sides, &call)?;
            number += 1;
            if number % 64 == 0 {
                self.image_digest(&sides)?;
            }
        }
        self.digests = true;
        self.random_calls(&mut sides, 14, 190)
    }
}

/// A tree laid out by hand, and stale bytes where they must not matter.
fn made_image(k: u32) -> Vec<u8> {
    let mut rng = Rng::new(5);
    let mut tree = Tree::new();
    let mut deepest = ROOT;
    for depth in 1..=16u8 {
        let name = [b'd', b'a' + depth];
        deepest = tree.dir(deepest, &name, 1_600_000_000 + u64::from(depth));
    }
    tree.file(deepest, b"below", 1_600_000_100, 509);
    tree.device(deepest, b"tty", 1_600_000_101, 3, 1);
    let many = tree.dir(ROOT, b"many", 1_600_000_102);
    for number in 0u32..30 {
        let name = format!("reading {number:03}{}", "x".repeat(number as usize * 5 % 60));
        tree.file(many, name.as_bytes(), 1_600_000_200 + u64::from(number), [0, 1, 20, 40][number as usize % 4]);
    }
    for (number, size) in [0, 1, 507, 508, 509, 1016, 1017, 2000].into_iter().enumerate() {
        tree.file(ROOT, format!("m{number}").as_bytes(), u64::MAX - number as u64, size);
    }
    tree.device(ROOT, b"null", 0, u32::MAX, 1);
    tree.device(ROOT, b"clock", 7, 0, 3);
    tree.dir(ROOT, &[b'n'; 235], 8);
    tree.dir(ROOT, &[b'o'; 236], 9);
    let geometry = Geometry::new(k, 4195).expect("a volume of that size");
    let style = Style { order: Order::Scattered, loose: true, stale: false, tail: 5, free: None };
    let mut image = tree.lay(geometry, style, &mut rng).expect("the tree fits").image;
    let free: Vec<u32> = geometry.free_in_reach(&image).take(6).collect();
    for addr in [0, k - 1, k + 1, 4196].into_iter().chain(free) {
        let start = addr as usize * BLOCK_SIZE;
        rng.fill(&mut image[start..start + 24]);
    }
    image
}

fn at(path: &str) -> Place {
    Place { cwd: b"/".to_vec(), path: path.as_bytes().to_vec() }
}

/// A line without its answer.
fn request(sides: &Sides, call: &Call) -> String {
    let place = |place: &Place| format!("{} {}", hex(&place.cwd), hex(&place.path));
    match call {
        Call::Format => "f".to_string(),
        Call::Usage => "u".to_string(),
        Call::Open { slot, place: p } => format!("o {slot} {}", place(p)),
        Call::Info { place: p } => format!("i {}", place(p)),
        Call::List { place: p, from, len, .. } => format!("l {} {from} {len}", place(p)),
        Call::ListOn { page, len } => match sides.ours.page(*page) {
            Some((p, from)) => format!("l {} {from} {len}", place(p)),
            None => String::new(),
        },
        Call::Read { slot, len } => format!("r {slot} {len}"),
        Call::Seek { slot, to } => match to {
            Seek::Start(to) => format!("s {slot} 0 {to}"),
            Seek::Current(by) => format!("s {slot} 1 {by}"),
            Seek::End(by) => format!("s {slot} 2 {by}"),
        },
        Call::CreateFile { slot, place: p, time } => format!("c {slot} {} {time}", place(p)),
        Call::CreateDir { place: p, time } => format!("m {} {time}", place(p)),
        Call::Delete { place: p, time } => format!("d {} {time}", place(p)),
        Call::Write { slot, len, seed, time } => format!("w {slot} {len} {seed} {time}"),
        Call::Patch { .. } => unreachable!("no patch is drawn for the list: the original has no such call"),
    }
}

/// The answer at the end of a line.
fn response(call: &Call, answer: &Answer) -> String {
    match answer {
        Answer::Refused => "0".to_string(),
        Answer::Done => "1".to_string(),
        Answer::Usage([size, used, free]) => format!("1 {size} {used} {free}"),
        Answer::Opened(file) if matches!(call, Call::Open { .. }) => format!("1 {} {}", file.addr, file.size),
        Answer::Opened(file) => format!("1 {}", file.addr),
        Answer::Info { kind, size, time, name } => format!("1 {kind} {size} {time} {}", hex(name)),
        Answer::Listed { bytes, next, buf } => format!("1 {bytes} {next} {}", digest(&buf[..*bytes])),
        Answer::Read { count, file, buf } => format!("1 {count} {} {}", file.position, digest(&buf[..*count])),
        Answer::Sought(file) => format!("1 {}", file.position),
        Answer::Written { count, file } => format!("1 {count} {} {}", file.position, file.size),
        Answer::Panicked(message) => unreachable!("a panic is never the same as the library's answer: {message}"),
    }
}

/// The runs of bytes of a block that are not zero, and where they start.
fn runs(block: &[u8]) -> Vec<(usize, &[u8])> {
    let mut ranges: Vec<(usize, usize)> = Vec::new();
    for (at, _) in block.iter().enumerate().filter(|(_, &byte)| byte != 0) {
        match ranges.last_mut() {
            Some((_, end)) if at < *end + GAP => *end = at + 1,
            _ => ranges.push((at, at + 1)),
        }
    }
    ranges.into_iter().map(|(start, end)| (start, &block[start..end])).collect()
}

fn hex(bytes: &[u8]) -> String {
    if bytes.is_empty() {
        return ".".to_string();
    }
    bytes.iter().fold(String::with_capacity(2 * bytes.len()), |mut text, byte| {
        write!(text, "{byte:02x}").expect("a string takes text");
        text
    })
}

fn digest(bytes: &[u8]) -> u64 {
    bytes.iter().fold(0, |d, &byte| (d * 257 + u64::from(byte)) % 4_294_967_291)
}

#[cfg(test)]
mod tests {
    use super::*;

    #[test]
    fn digests_and_hex() {
        assert_eq!(digest(&[]), 0);
        assert_eq!(digest(&[3, 10, 17]), (3 * 257 + 10) * 257 + 17);
        assert_eq!(digest(&[255; 5]), (0..5).fold(0u64, |d, _| (d * 257 + 255) % 4_294_967_291));
        assert_eq!((hex(&[]), hex(b"/\xff\x00")), (".".to_string(), "2fff00".to_string()));
    }

    #[test]
    fn runs_hold_every_byte_that_is_not_zero() {
        let mut block = [0; BLOCK_SIZE];
        block[0] = 1;
        block[GAP] = 2;
        block[300] = 3;
        block[511] = 4;
        let found: Vec<(usize, usize)> = runs(&block).iter().map(|(start, run)| (*start, run.len())).collect();
        assert_eq!(found, [(0, GAP + 1), (300, 1), (511, 1)]);
        assert_eq!(runs(&[0; BLOCK_SIZE]), []);
    }
}
