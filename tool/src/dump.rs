//! `dump`: the superblock, the bitmap or one block, as they stand.
use crate::args::Call;
use crate::failure::Failure;
use crate::human;
use crate::image::Reading;
use crate::json::{hex, Object};
use crate::layout::{Geometry, Superblock};
use crate::output::Output;

pub fn dump(call: &Call) -> Result<(), Failure> {
    let what = call.words[1].to_string_lossy();
    let number = call.words.get(2).map(|word| word.to_string_lossy());
    let addr = match (&*what, number) {
        ("superblock" | "bitmap", None) => None,
        ("block", Some(word)) => Some(word.parse().map_err(|_| call.usage(format!("'{word}' is no block's number")))?),
        _ => return Err(call.usage("what? One of 'superblock', 'bitmap', 'block N'")),
    };
    let mut out = Output::new(&call.options);
    let image = Reading::open(call, &out)?;
    match (addr, &*what) {
        (Some(addr), _) => dump_block(call, &image, addr, &mut out)?,
        (None, "superblock") => dump_superblock(&image, &mut out)?,
        (None, _) => dump_bitmap(&image, image.geometry()?, &mut out)?,
    }
    out.end()
}

fn dump_superblock(image: &Reading, out: &mut Output) -> Result<(), Failure> {
    let superblock = Superblock::at(image.bytes(), image.mount).ok_or_else(|| image.geometry().expect_err("no such block"))?;
    let Superblock { signature, version, size_code, blocks, used, first_stray } = superblock;
    if out.json {
        let object = Object::new().number("superblock", image.mount.k).bytes("signature", &signature).number("version", version);
        let object = object.number("size_code", size_code).number("blocks", blocks).number("used", used);
        return out.object(&object.flag("rest_is_zero", first_stray.is_none()));
    }
    out.line(&format!("superblock at block {}", image.mount.k))?;
    out.line(&format!("  bytes 0-7    signature    {}", human::name(&signature)))?;
    out.line(&format!("  byte  8      version      {version}"))?;
    out.line(&format!("  byte  9      size code    {size_code}"))?;
    out.line(&format!("  bytes 10-13  block count  {blocks}"))?;
    out.line(&format!("  bytes 14-17  used count   {used}"))?;
    let rest = first_stray.map_or("zero".to_string(), |byte| format!("not zero at byte {byte}"));
    let last = image.mount.block() - 1;
    out.line(&format!("  {:<13}             {rest}", format!("bytes 18-{last}")))
}

/// Runs of equal bits. Blocks beyond the reach are free and can't be allocated.
fn dump_bitmap(image: &Reading, geometry: Geometry, out: &mut Output) -> Result<(), Failure> {
    let bit = |index| geometry.bit(image.bytes(), index);
    let state = |index: u32| match bit(index) {
        true => "used",
        false if index < geometry.reach() => "free",
        false if index < geometry.bits() => "out of reach",
        false => "without a bit",
    };
    if !out.json {
        let (first, last) = (geometry.bitmap(), geometry.data() - 1);
        out.line(&format!("bitmap in blocks {first} to {last}; data blocks {} to {}", geometry.data(), geometry.blocks - 1))?;
    }
    let mut start = 0;
    for index in 1..=geometry.data_blocks() {
        if index < geometry.data_blocks() && state(index) == state(start) {
            continue;
        }
        let (from, to) = (geometry.data() + start, geometry.data() + index - 1);
        let word = state(start);
        let object = || Object::new().number("from", from).number("to", to).text("state", word);
        out.either(object, || format!("{from:>9} to {to:>9}  {word}  ({})", index - start))?;
        start = index;
    }
    Ok(())
}

/// Sixteen bytes a line, as `hexdump -C` has them.
fn dump_block(call: &Call, image: &Reading, addr: u32, out: &mut Output) -> Result<(), Failure> {
    let blocks = image.mount.blocks_of(image.bytes());
    let block = image.mount.block_at(image.bytes(), addr);
    let block = block.ok_or_else(|| call.usage(format!("there is no block {addr}: the image has {blocks}")))?;
    if out.json {
        return out.object(
            &Object::new().number("block", addr).number("next", image.mount.next(image.bytes(), addr)).text("hex", &hex(block)),
        );
    }
    let part = part_of(image, addr);
    out.line(&format!("block {addr}: {part}"))?;
    for (row, bytes) in block.chunks(16).enumerate() {
        let (left, right) = bytes.split_at(8);
        let shown: String = bytes.iter().map(|&byte| if (0x20..0x7f).contains(&byte) { byte as char } else { '.' }).collect();
        out.line(&format!("{:08x}  {}  {}  |{shown}|", row * 16, spaced(left), spaced(right)))?;
    }
    Ok(())
}

fn spaced(bytes: &[u8]) -> String {
    bytes.iter().map(|byte| format!("{byte:02x}")).collect::<Vec<_>>().join(" ")
}

/// What a block is by its place.
fn part_of(image: &Reading, addr: u32) -> String {
    let Some(geometry) = Geometry::of(image.bytes(), image.mount) else {
        return "no volume around it".to_string();
    };
    if geometry.holds(addr) {
        let index = addr - geometry.data();
        let state = match geometry.bit(image.bytes(), index) {
            true => "used",
            false if index < geometry.bits() => "free",
            false => "without a bit",
        };
        return format!("data area, {state}, next {}", image.mount.next(image.bytes(), addr));
    }
    let part = match addr {
        addr if addr == geometry.mount.k => "superblock",
        addr if (geometry.bitmap()..geometry.data()).contains(&addr) => "bitmap",
        addr if addr < geometry.blocks => "not part of the volume",
        _ => "behind the volume",
    };
    part.to_string()
}
