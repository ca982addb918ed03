//! `check --explain`: damage of each kind is named, and on ten thousand damaged images the verdict is that of the judge's model.
use crate::objects::{number, object, objects, text, Object};
use crate::support::Bench;
use model::Known;
use std::collections::HashMap;
use volumes::{random_of, Entry, Form, Geometry, Rng, Size, Style, Tree, Volume, Wish, BLOCK_SIZE, HEADER, ROOT};

/// The judge's edits of volumes.
#[path = "../../../judge/damaged/src/damage.rs"]
mod damage;

/// A volume with `/old/m1` (1,200 bytes), `/m2` (3 bytes), the device `/v` and enough names for a second block of the root.
fn volume() -> Volume {
    let mut tree = Tree::new();
    let old = tree.dir(ROOT, b"old", 1);
    tree.file(old, b"m1", 2, 1200);
    tree.file(ROOT, b"m2", 3, 3);
    tree.device(ROOT, b"v", 4, 9, 2);
    for letter in b"abc" {
        tree.file(ROOT, &[*letter; 150], 5, 0);
    }
    tree.lay(Geometry::new(8, 128).expect("a volume"), Style::PLAIN, &mut Rng::new(1)).expect("room")
}

fn entry<'a>(volume: &'a Volume, path: &[u8]) -> &'a Entry {
    volume.entries.iter().find(|entry| entry.path == path).expect("the entry")
}

/// The place of an entry's first byte in the image.
fn place(volume: &Volume, path: &[u8]) -> usize {
    let entry = entry(volume, path);
    let sought = [&[entry.name().len() as u8], entry.name()].concat();
    let at = volume.image.windows(sought.len()).position(|bytes| bytes == sought).expect("the name");
    at - (HEADER - 1)
}

/// The findings of an edited volume, as rule, path and block, and what is said of them.
fn findings(edit: impl FnOnce(&mut Volume)) -> Vec<Object> {
    let mut volume = volume();
    edit(&mut volume);
    let bench = Bench::new();
    bench.file("card.img", &volume.image);
    let run = bench.run(&["check", "--explain", "--json", "card.img"]);
    assert_eq!((run.code, run.err.as_str()), (4, ""), "{run:?}");
    let mut lines = objects(&run.out);
    assert_eq!((text(&lines[0], "verdict"), number(&lines[0], "number")), ("damaged", 17));
    let last = lines.pop().expect("a last line");
    let found = lines.split_off(1);
    assert_eq!(number(&last, "findings"), found.len() as u64);
    found
}

/// Exactly one finding.
fn one(edit: impl FnOnce(&mut Volume), rule: &str, path: &str, what: &str) -> u64 {
    let found = findings(edit);
    assert_eq!(found.len(), 1, "{found:?}");
    assert_eq!((text(&found[0], "rule"), text(&found[0], "path"), text(&found[0], "what")), (rule, path, what));
    number(&found[0], "block")
}

/// At least this finding.
fn among(edit: impl FnOnce(&mut Volume), rule: &str, path: &str, what: &str) {
    let found = findings(edit);
    let is_it = |f: &Object| text(f, "rule") == rule && text(f, "path") == path && text(f, "what") == what;
    assert!(found.iter().any(is_it), "no {rule} {path} {what} in {found:?}");
}

fn put_number(volume: &mut Volume, at: usize, number: u32) {
    volume.image[at..at + 4].copy_from_slice(&number.to_be_bytes());
}

#[test]
fn a_sound_card_has_no_finding() {
    let bench = Bench::new();
    bench.file("card.img", &volume().image);
    assert_eq!(bench.ok(&["check", "--explain", "card.img"]), "card.img: well formed\n  1 directory, 5 files, 1 device\n");
}

#[test]
fn w1_the_superblock() {
    let block = one(|v| v.image[8 * 512 + 100] = 1, "W1", "", "byte 100 of the superblock is not zero");
    assert_eq!(block, 8);
}

#[test]
fn w2_chains() {
    let made = volume();
    let m1 = entry(&made, b"/old/m1").chain.clone();
    let m2 = entry(&made, b"/m2").chain[0];
    let next = |addr: u32| addr as usize * BLOCK_SIZE;
    among(|v| put_number(v, next(m1[2]), 128), "W2", "/old/m1", "the chain leads to block 128, outside the data area");
    let circle = format!("the chain comes back to its own block {}: it never ends", m1[0]);
    among(|v| put_number(v, next(m1[2]), m1[0]), "W2", "/old/m1", &circle);
    let shared = format!("the chain leads into block {m2}, which /m2 has");
    among(|v| put_number(v, next(m1[2]), m2), "W2", "/old/m1", &shared);
}

#[test]
fn w3_names_addresses_and_zeros() {
    let made = volume();
    let m2 = place(&made, b"/m2");
    one(|v| v.image[m2 + HEADER] = 0x1f, "W3", "/\u{1f}2", "the name has the byte 0x1f, at byte 43");
    let slash = findings(|v| v.image[m2 + HEADER] = b'/');
    assert_eq!(text(&slash[0], "what"), "the name has the byte 0x2f, at byte 43");
    let [a, b] = [b'a', b'b'].map(|letter| place(&made, &[b"/", &[letter; 150][..]].concat()));
    let twice = findings(|v| v.image.copy_within(a + HEADER..a + HEADER + 150, b + HEADER));
    assert!(twice.len() == 1 && text(&twice[0], "what").ends_with("stands twice in its directory"), "{twice:?}");
    among(|v| put_number(v, m2 + 1, 0), "W3", "/m2", "the entry's address is 0, outside the data area");
    among(|v| put_number(v, m2 + 1, 500), "W3", "/m2", "the entry's address is 500, outside the data area");
    let old = entry(&made, b"/old").chain[0] as usize;
    let block = one(|v| v.image[old * 512 + 511] = 7, "W3", "/old", "byte 511, behind the block's last entry, is not zero");
    assert_eq!(block, old as u64);
}

#[test]
fn w4_sizes_and_depth() {
    let made = volume();
    let (m1, old) = (place(&made, b"/old/m1"), place(&made, b"/old"));
    one(|v| put_number(v, m1 + 5, 1016), "W4", "/old/m1", "the file of 1016 bytes has 3 blocks, and should have 2");
    among(|v| put_number(v, m1 + 5, 1 << 31), "W4", "/old/m1", "the file's size is 2147483648, above 2147483647");
    one(|v| put_number(v, old + 5, 21), "W4", "/old", "the directory's size is 21, its entries add up to 20");
    let dir = entry(&made, b"/old").chain[0];
    let lengthen = |v: &mut Volume| {
        let free = 100;
        put_number(v, dir as usize * 512, free);
        let (byte, mask) = v.geometry.bit(free);
        v.image[byte] |= mask;
        let used = made_used(v);
        put_number(v, 8 * 512 + 14, used + 1);
    };
    let block = one(lengthen, "W4", "/old", "a block of the directory that is not its first has no entry");
    assert_eq!(block, 100);
}

fn made_used(volume: &Volume) -> u32 {
    u32::from_be_bytes(volume.image[8 * 512 + 14..][..4].try_into().expect("four bytes"))
}

#[test]
fn w4_a_directory_too_deep() {
    let mut tree = Tree::new();
    let mut last = ROOT;
    for _ in 0..16 {
        last = tree.dir(last, b"d", 1);
    }
    tree.file(last, b"e", 2, 0);
    let mut deep = tree.lay(Geometry::new(8, 64).expect("a volume"), Style::PLAIN, &mut Rng::new(1)).expect("room");
    let at = place(&deep, &[&b"/d".repeat(16)[..], b"/e"].concat());
    deep.image[at] = 0;
    let bench = Bench::new();
    bench.file("card.img", &deep.image);
    let run = bench.run(&["check", "--explain", "card.img"]);
    let path = format!("{}/e", "/d".repeat(16));
    assert_eq!(run.code, 4);
    assert!(run.out.contains(&format!(": {path}: the directory is at depth 17, deeper than 16\n  1 finding\n")), "{}", run.out);
}

#[test]
fn w5_the_bitmap_and_the_count() {
    let made = volume();
    let m2 = entry(&made, b"/m2").chain[0];
    let flip = |v: &mut Volume, addr: u32| {
        let (byte, mask) = v.geometry.bit(addr);
        v.image[byte] ^= mask;
    };
    let clear = |v: &mut Volume| {
        flip(v, m2);
        let used = made_used(v);
        put_number(v, 8 * 512 + 14, used - 1);
    };
    let block = one(clear, "W5", "/m2", &format!("block {m2}: marked as free, though a chain has it"));
    assert_eq!(block, u64::from(m2));
    let lost = |v: &mut Volume| {
        (100..110).for_each(|addr| flip(v, addr));
        let used = made_used(v);
        put_number(v, 8 * 512 + 14, used + 10);
    };
    one(lost, "W5", "", "blocks 100 to 109: marked as used, and nothing has it");
    let past = |v: &mut Volume| {
        flip(v, 128);
        let used = made_used(v);
        put_number(v, 8 * 512 + 14, used + 1);
    };
    one(past, "W5", "", "block 128: marked as used behind the end of the data area");
    let used = made_used(&made);
    let count = format!("the used count is {}, and should be {used}", used + 1);
    one(|v| put_number(v, 8 * 512 + 14, used + 1), "W5", "", &count);
}

#[test]
fn the_map_marks_findings() {
    let mut damaged = volume();
    damaged.image[8 * 512 + 17] ^= 1;
    let bench = Bench::new();
    bench.file("card.img", &damaged.image);
    let drawn = bench.ok(&["map", "card.img"]);
    assert!(
        drawn.contains("\n        0         ! Bd") && drawn.ends_with("1 finding: 'mfs check --explain' tells them\n"),
        "{drawn}"
    );
    bench.ok(&["map", "--svg", "m.svg", "card.img"]);
    let svg = String::from_utf8(bench.read("m.svg")).expect("text");
    assert!(svg.contains("<title>block 8: finding of check --explain</title>"), "{svg}");
}

/// Images in all, and how many one run of the tool gets.
const IMAGES: usize = 10_000;
const BATCH: usize = 100;

#[test]
fn ten_thousand_damaged_images_have_the_models_verdict() {
    let bench = Bench::new();
    let mut rng = Rng::new(26);
    let mut seen: HashMap<u32, u32> = HashMap::new();
    for batch in 0..IMAGES / BATCH {
        let k = if batch % 8 == 0 { rng.below(20) as u32 } else { 8 };
        let names: Vec<String> = (0..BATCH).map(|i| format!("{i}.img")).collect();
        let mut meant = HashMap::new();
        for name in &names {
            let image = draw(k, &mut rng);
            let mut work = vec![0; image.len() / 4096 + 1];
            let number = model::check(&image, k, &mut work).err().map_or(0, model::Refusal::number);
            *seen.entry(number).or_default() += 1;
            meant.insert(name.clone(), number);
            bench.file(name, &image);
        }
        compare(&bench, k, &names, &meant);
    }
    assert!(seen[&0] > 500 && seen[&2] > 100 && seen[&3] > 100 && seen[&17] > 5000, "{seen:?}");
}

/// A volume with one to three edits, or blocks that all look like directories and lead anywhere.
fn draw(k: u32, rng: &mut Rng) -> Vec<u8> {
    if rng.one_in(8) {
        return wild(k, rng);
    }
    let size = if rng.one_in(50) { Size::Usual } else { Size::Small };
    let (entries, depth) = (*rng.pick(&[0, 1, 3, 6, 12, 25]), *rng.pick(&[0, 0, 0, 2, 15, 16]));
    let form = if Known::TODAY.version_1 && rng.one_in(40) { Form::V1 } else { Form::V2 };
    let mut volume = random_of(form, Wish { k, size, entries, depth, free: None }, rng);
    let edits = *rng.pick(&[1, 1, 1, 1, 2, 2, 3]);
    damage::damage(&mut volume, edits, rng);
    volume.image
}

fn wild(k: u32, rng: &mut Rng) -> Vec<u8> {
    let geometry = Geometry::new(k, k + 3 + rng.between(2, 12) as u32).expect("a small volume");
    let mut tree = Tree::new();
    tree.file(ROOT, b"a", 1, 0);
    let mut image =
        tree.lay(geometry, Style::PLAIN, rng).map_or_else(|| vec![0; geometry.blocks() as usize * BLOCK_SIZE], |v| v.image);
    for addr in geometry.data()..geometry.blocks() {
        let target = |rng: &mut Rng| geometry.data() + rng.below(u64::from(geometry.data_blocks()) + 1) as u32;
        let next = if rng.one_in(2) { 0 } else { target(rng) };
        let at = addr as usize * BLOCK_SIZE;
        image[at..at + 4].copy_from_slice(&next.to_be_bytes());
        let mut entry_at = at + 4;
        for _ in 0..rng.below(6) {
            image[entry_at] = rng.below(3) as u8;
            image[entry_at + 1..entry_at + 5].copy_from_slice(&target(rng).to_be_bytes());
            image[entry_at + 5..entry_at + 9].copy_from_slice(&(rng.below(3) as u32 * 19).to_be_bytes());
            image[entry_at + HEADER - 1] = 1;
            image[entry_at + HEADER] = *rng.pick(b"abcdef");
            entry_at += HEADER + 1;
        }
    }
    image
}

/// One run of the tool on a batch. Every verdict is the model's, and findings stand exactly where it is damage.
fn compare(bench: &Bench, k: u32, names: &[String], meant: &HashMap<String, u32>) {
    let k = k.to_string();
    let words = ["-k", &k, "--json", "check", "--explain"].into_iter().chain(names.iter().map(String::as_str));
    let run = bench.run(&words.collect::<Vec<_>>());
    assert!(run.code != 70, "the walk and the verdict disagree: {}", run.err);
    let mut numbers: HashMap<String, u32> = HashMap::new();
    let mut found: HashMap<String, u64> = HashMap::new();
    for line in run.out.lines().map(object) {
        let name = text(&line, "image").to_string();
        if line.contains_key("verdict") {
            numbers.insert(name, number(&line, "number") as u32);
        } else if line.contains_key("rule") {
            *found.entry(name).or_default() += 1;
        }
    }
    for line in run.err.lines().map(object) {
        assert_eq!(text(&line, "error"), "refused");
        numbers.insert(text(&line, "subject").to_string(), number(&line, "number") as u32);
    }
    for name in names {
        assert_eq!(numbers.get(name), meant.get(name), "{name} of a batch with K {k}");
        assert_eq!(found.contains_key(name), meant[name] == 17, "{name} of a batch with K {k}");
    }
}
