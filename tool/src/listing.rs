//! `ls`, `tree` and `info`.
use crate::args::{card_path, Call};
use crate::code;
use crate::failure::{Failure, DAMAGED};
use crate::human;
use crate::image::Reading;
use crate::json::Object;
use crate::layout::{Superblock, SECTOR};
use crate::library::{Entry, Kind, Refusal, View};
use crate::output::Output;

/// Directories lie no deeper than this.
const DEPTH: usize = 16;

/// A path with one name more.
pub fn join(dir: &[u8], name: &[u8]) -> Vec<u8> {
    let slash: &[u8] = if dir.ends_with(b"/") { b"" } else { b"/" };
    [dir, slash, name].concat()
}

/// What a walk through directories may still meet. On a damaged volume directories can hold each other, and a walk would have no
/// end: no sound volume has more entries than blocks, nor directories deeper than 16.
pub struct Budget(u64);

impl Budget {
    pub fn of(image: &[u8]) -> Budget {
        Budget((image.len() / SECTOR) as u64)
    }

    /// Lists a directory, and counts its entries.
    pub fn list(&mut self, view: View, path: &[u8]) -> Result<Vec<Entry>, Refusal> {
        let endless = || Refusal { number: DAMAGED, reason: "the directories hold each other, or are too deep".to_string() };
        if path.iter().filter(|&&byte| byte == b'/').count() > DEPTH + 1 {
            return Err(endless());
        }
        let entries = view.list(path)?;
        self.0 = self.0.checked_sub(entries.len() as u64).ok_or_else(endless)?;
        Ok(entries)
    }
}

/// The entry as an object for programs.
fn object(path: &[u8], entry: &Entry) -> Object {
    Object::new()
        .bytes("path", path)
        .bytes("name", &entry.name)
        .text("kind", entry.kind.word())
        .number("size", entry.size)
        .number("time", entry.time)
}

pub fn ls(call: &Call) -> Result<(), Failure> {
    let mut out = Output::new(&call.options);
    let image = Reading::open(call, &out)?;
    let mut paths: Vec<Vec<u8>> = call.words[1..].iter().map(|word| card_path(word)).collect();
    if paths.is_empty() {
        paths.push(b"/".to_vec());
    }
    let headed = call.flags.recursive || paths.len() > 1;
    let mut listing = Ls { call, image: &image, budget: Budget::of(image.bytes()), headed, first: true };
    for path in &paths {
        listing.path(path, &mut out)?;
    }
    out.end()
}

struct Ls<'a> {
    call: &'a Call,
    image: &'a Reading,
    budget: Budget,
    /// Each directory's entries stand below its path.
    headed: bool,
    first: bool,
}

impl Ls<'_> {
    /// A directory's entries, or a file by itself.
    fn path(&mut self, path: &[u8], out: &mut Output) -> Result<(), Failure> {
        let found = self.image.view().info(path).map_err(|refusal| self.image.refused(refusal, path))?;
        if found.kind == Kind::Dir {
            return self.dir(path, out);
        }
        self.entry(path, &Entry { name: path.to_vec(), ..found }, out)
    }

    fn dir(&mut self, path: &[u8], out: &mut Output) -> Result<(), Failure> {
        let entries = self.budget.list(self.image.view(), path).map_err(|refusal| self.image.refused(refusal, path))?;
        if self.headed && !out.json {
            let gap = if self.first { "" } else { "\n" };
            out.line(&format!("{gap}{}:", human::name(path)))?;
        }
        self.first = false;
        for entry in &entries {
            self.entry(&join(path, &entry.name), entry, out)?;
        }
        if self.call.flags.recursive {
            for entry in entries.iter().filter(|entry| entry.kind == Kind::Dir) {
                self.dir(&join(path, &entry.name), out)?;
            }
        }
        Ok(())
    }

    fn entry(&self, path: &[u8], entry: &Entry, out: &mut Output) -> Result<(), Failure> {
        let name = human::name(&entry.name);
        out.either(
            || object(path, entry),
            || match self.call.flags.long {
                true => {
                    let size = human::size(u64::from(entry.size));
                    format!("{} {size:>6}  {}  {name}", entry.kind.letter(), human::time(entry.time))
                }
                false => name,
            },
        )
    }
}

pub fn tree(call: &Call) -> Result<(), Failure> {
    let mut out = Output::new(&call.options);
    let image = Reading::open(call, &out)?;
    let path = call.words.get(1).map_or_else(|| b"/".to_vec(), |word| card_path(word));
    let mut tree = Tree { image: &image, budget: Budget::of(image.bytes()), counts: [0; 2] };
    if !out.json {
        out.line(&human::name(&path))?;
    }
    tree.dir(&path, "", &mut out)?;
    let [dirs, others] = tree.counts;
    if !out.json {
        out.line(&format!("\n{}, {}", human::count(dirs, "directory"), human::count(others, "file")))?;
    }
    out.end()
}

struct Tree<'a> {
    image: &'a Reading,
    budget: Budget,
    /// Directories, and all else.
    counts: [u64; 2],
}

impl Tree<'_> {
    fn dir(&mut self, path: &[u8], margin: &str, out: &mut Output) -> Result<(), Failure> {
        let entries = self.budget.list(self.image.view(), path).map_err(|refusal| self.image.refused(refusal, path))?;
        for (place, entry) in entries.iter().enumerate() {
            let last = place + 1 == entries.len();
            let (branch, below) = if last { ("└── ", "    ") } else { ("├── ", "│   ") };
            let inner = join(path, &entry.name);
            let is_dir = entry.kind == Kind::Dir;
            let mark = if is_dir { "/" } else { "" };
            out.either(|| object(&inner, entry), || format!("{margin}{branch}{}{mark}", human::name(&entry.name)))?;
            self.counts[usize::from(!is_dir)] += 1;
            if is_dir {
                self.dir(&inner, &format!("{margin}{below}"), out)?;
            }
        }
        Ok(())
    }
}

pub fn info(call: &Call) -> Result<(), Failure> {
    let mut out = Output::new(&call.options);
    let image = Reading::open(call, &out)?;
    match call.words.get(1) {
        None => volume_info(&image, &mut out)?,
        Some(word) => entry_info(&image, &card_path(word), &mut out)?,
    }
    out.end()
}

fn volume_info(image: &Reading, out: &mut Output) -> Result<(), Failure> {
    let usage = image.view().usage().map_err(|refusal| image.refused(refusal, b""))?;
    let geometry = image.geometry()?;
    let superblock = Superblock::at(image.bytes(), image.mount).expect("the library has taken it");
    let facts = [
        ("image_blocks", u64::from(image.mount.blocks_of(image.bytes())), "blocks of the image"),
        ("blocks", u64::from(geometry.blocks), "blocks of the volume"),
        ("used", u64::from(superblock.used), "blocks used"),
        ("superblock", u64::from(geometry.mount.k), "superblock's block"),
        ("bitmap", u64::from(geometry.bitmap()), "first bitmap block"),
        ("data", u64::from(geometry.data()), "first data block (root directory)"),
        ("reach", u64::from(geometry.reach()), "data blocks in reach of allocation"),
        ("version", u64::from(superblock.version), "version"),
        ("size_code", u64::from(superblock.size_code), code::words(superblock.size_code)),
    ];
    if out.json {
        let object = Object::new().text("image", &image.name).number("size", usage.size);
        return out.object(&facts.into_iter().fold(object, |object, (key, value, _)| object.number(key, value)));
    }
    out.line(&format!("{}: MFS volume, {}", image.name, human::size(usage.size)))?;
    facts.into_iter().try_for_each(|(_, value, words)| out.line(&format!("{value:>10}  {words}")))
}

fn entry_info(image: &Reading, path: &[u8], out: &mut Output) -> Result<(), Failure> {
    let view = image.view();
    let entry = view.info(path).map_err(|refusal| image.refused(refusal, path))?;
    // A file that is too large for a handle has no first block to tell.
    let first = (entry.kind == Kind::File).then(|| view.open(path).ok()).flatten().map(|file| file.first_block());
    if out.json {
        let object = object(path, &entry);
        return out.object(&match first {
            Some(first) => object.number("first_block", first),
            None => object,
        });
    }
    out.line(&format!("{}: {}", human::name(path), entry.kind.word()))?;
    out.line(&format!("{:>10}  bytes ({})", entry.size, human::size(u64::from(entry.size))))?;
    // The root has no entry of its own, and so no time.
    if path != b"/" {
        out.line(&format!("{:>10}  last changed ({} UTC)", entry.time, human::time(entry.time)))?;
    }
    first.map_or(Ok(()), |first| out.line(&format!("{first:>10}  first block")))
}
