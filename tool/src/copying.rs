//! `put` and `append` to a card, `get` and `cat` from it.
use crate::advice;
use crate::args::{card_path, Call};
use crate::changing::{make_if_missing, Change};
use crate::failure::{Failure, Tally};
use crate::human;
use crate::image::Reading;
use crate::json::Object;
use crate::layout::Geometry;
use crate::library::{Entry, Kind};
use crate::listing::{join, Budget};
use crate::output::Output;
use crate::progress::Progress;
use std::ffi::{OsStr, OsString};
use std::fs::{self, File};
use std::io::{self, Read, Write};
use std::os::unix::ffi::OsStrExt;
use std::path::{Path, PathBuf};

/// Bytes of the largest file on a card.
const FILE_LIMIT: u64 = 2_147_483_647;
/// Bytes read from a card at once: many, since each read walks the file's chain from its start.
const CHUNK: usize = 16 << 20;

pub fn put(call: &Call) -> Result<(), Failure> {
    if let Some(position) = call.flags.at {
        return put_at(call, position);
    }
    let (sources, target) = match &call.words[1..] {
        [one] => (std::slice::from_ref(one), OsStr::new("/")),
        [sources @ .., target] => (sources, target.as_os_str()),
        [] => return Err(call.usage("what shall be put?")),
    };
    let mut change = Change::begin(call)?;
    let path = card_path(target);
    let found = change.image.view().info(&path);
    let into = target.as_bytes().ends_with(b"/") || found.is_ok_and(|entry| entry.kind == Kind::Dir);
    if sources.len() > 1 && !into {
        return Err(call.usage(format!("many files go into a directory, and {} is none", human::name(&path))));
    }
    let mut progress = Progress::new("put", &call.options);
    for (place, source) in sources.iter().enumerate() {
        progress.at(place as u64, sources.len() as u64);
        let to = if into { name_of(source, call).map(|name| join(&path, &name)) } else { Ok(path.clone()) };
        match to {
            Ok(to) => put_any(&mut change, Path::new(source), &to, &mut progress),
            Err(failure) => change.count(Err(failure)),
        }
    }
    drop(progress);
    change.end()
}

/// Puts a file's bytes over those that one on the card has at a position.
fn put_at(call: &Call, position: u32) -> Result<(), Failure> {
    let [_, source, word] = &call.words[..] else {
        return Err(call.usage("--at takes one file and the path of the one that it goes into"));
    };
    if call.flags.recursive {
        return Err(call.usage("-r is for folders, and --at for one file"));
    }
    let mut change = Change::begin(call)?;
    let path = card_path(word);
    let answer = patch_file(&mut change, Path::new(source), &path, position);
    change.count(answer);
    change.end()
}

fn patch_file(change: &mut Change, source: &Path, path: &[u8], position: u32) -> Result<(), Failure> {
    let bytes = read_source(source, &advice::subject(&change.image.name, path))?;
    let mut file = change.image.view().open(path).map_err(|refusal| change.image.refused(refusal, path))?;
    file.go_to(position).map_err(|refusal| change.image.refused(refusal, path))?;
    let patched = change.image.volume().patch(&mut file, &bytes);
    patched.map_err(|refusal| change.image.refused(refusal, path))?;
    change.did("put", path, Some(bytes.len() as u64))
}

/// The name that a file of the host gets in a directory of the card.
fn name_of(source: &OsStr, call: &Call) -> Result<Vec<u8>, Failure> {
    if source == "-" {
        return Err(call.usage("the standard input has no name: give the file's path on the card"));
    }
    let path = Path::new(source);
    let real = || path.canonicalize().ok().and_then(|real| real.file_name().map(OsStr::to_owned));
    let name = path.file_name().map(OsStr::to_owned).or_else(real);
    name.map(|name| name.as_bytes().to_vec()).ok_or_else(|| Failure::host(path.display().to_string(), "it has no name"))
}

/// A file, or with -r a folder and all in it; each counts by itself.
fn put_any(change: &mut Change, source: &Path, path: &[u8], progress: &mut Progress) {
    if source.as_os_str() == "-" || !source.is_dir() {
        let answer = put_file(change, source, path);
        return change.count(answer);
    }
    if !change.call.flags.recursive {
        let subject = source.display().to_string();
        let advice = "use -r to put it with all in it".to_string();
        return change.count(Err(Failure::Host { subject, reason: "is a folder".to_string(), advice }));
    }
    let children = sorted_names(source).and_then(|names| make_if_missing(change, path).map(|()| names));
    let names = match children {
        Ok(names) => names,
        Err(failure) => return change.count(Err(failure)),
    };
    change.count(Ok(()));
    for (place, name) in names.iter().enumerate() {
        progress.at(place as u64, names.len() as u64);
        put_child(change, &source.join(name), &join(path, name.as_bytes()), progress);
    }
}

/// A link to a folder could lead round in a circle, so it is left out, and said so.
fn put_child(change: &mut Change, source: &Path, path: &[u8], progress: &mut Progress) {
    if source.is_symlink() && source.is_dir() {
        let reason = "a link to a folder is left out";
        return change.count(Err(Failure::host(source.display().to_string(), reason)));
    }
    put_any(change, source, path, progress);
}

/// In the order of their bytes, so that the same folder always gives the same card.
fn sorted_names(folder: &Path) -> Result<Vec<OsString>, Failure> {
    let failed = |error| Failure::host(folder.display().to_string(), error);
    let entries = fs::read_dir(folder).map_err(failed)?;
    let mut names = entries.map(|entry| entry.map(|entry| entry.file_name())).collect::<io::Result<Vec<_>>>().map_err(failed)?;
    names.sort();
    Ok(names)
}

/// All bytes of a file of the host, or of the standard input.
fn read_source(source: &Path, subject: &str) -> Result<Vec<u8>, Failure> {
    let failed = |error| Failure::host(source.display().to_string(), error);
    if source.as_os_str() == "-" {
        let mut bytes = Vec::new();
        io::stdin().lock().read_to_end(&mut bytes).map_err(|error| Failure::host("standard input", error))?;
        return Ok(bytes);
    }
    let metadata = fs::metadata(source).map_err(failed)?;
    // Such a file need not be read to be refused.
    if metadata.is_file() && metadata.len() > FILE_LIMIT {
        return Err(too_large(subject, metadata.len()));
    }
    fs::read(source).map_err(failed)
}

fn too_large(subject: &str, len: u64) -> Failure {
    let reason = format!("{len} bytes are more than the {FILE_LIMIT} that a file can have");
    Failure::Refused { subject: subject.to_string(), number: 10, reason, advice: "split the file".to_string() }
}

/// Puts a file, in place of one of that name if there is one.
fn put_file(change: &mut Change, source: &Path, path: &[u8]) -> Result<(), Failure> {
    let bytes = read_source(source, &advice::subject(&change.image.name, path))?;
    put_bytes(change, path, &bytes)?;
    change.did("put", path, Some(bytes.len() as u64))
}

fn put_bytes(change: &mut Change, path: &[u8], bytes: &[u8]) -> Result<(), Failure> {
    let found = change.image.view().info(path).ok().filter(|entry| entry.kind == Kind::File);
    must_have_room(change, path, found.as_ref(), bytes.len() as u64)?;
    // The library writes no empty buffer, so an emptied file is made anew.
    let keeps = found.is_some() && !bytes.is_empty();
    if found.is_some() && !keeps {
        let deleted = change.image.volume().delete(path);
        deleted.map_err(|refusal| change.image.refused(refusal, path))?;
    }
    let opened = if keeps { change.image.view().open(path) } else { change.image.volume().create_file(path) };
    let mut file = opened.map_err(|refusal| change.image.not_created(refusal, path, "'mfs mkdir -p' makes it"))?;
    if !bytes.is_empty() {
        let written = change.image.volume().write(&mut file, bytes);
        written.map_err(|refusal| change.image.refused(refusal, path))?;
    }
    Ok(())
}

/// Refuses what would not fit (9) or be too large (10) before the first call changes anything.
fn must_have_room(change: &Change, path: &[u8], old: Option<&Entry>, size: u64) -> Result<(), Failure> {
    let (image, mount) = (change.image.bytes(), change.image.mount);
    let subject = advice::subject(&change.image.name, path);
    if size > FILE_LIMIT {
        return Err(too_large(&subject, size));
    }
    let needs = match old {
        Some(old) => mount.file_blocks(size).saturating_sub(mount.file_blocks(u64::from(old.size))),
        None => mount.file_blocks(size) - 1 + advice::needs_to_create(image, mount, path),
    };
    let in_reach = Geometry::of(image, mount).map_or(0, |geometry| geometry.free_in_reach(image));
    // A name that is taken by something else, or no name, is for the library to refuse.
    let is_for_the_library = old.is_none() && !can_be_created(change, path);
    if needs > u64::from(in_reach) && !is_for_the_library {
        return Err(advice::no_room(image, mount, &subject, needs));
    }
    Ok(())
}

/// Whether nothing is at a path and its directory is there.
fn can_be_created(change: &Change, path: &[u8]) -> bool {
    let view = change.image.view();
    let parent = &path[..path.iter().rposition(|&byte| byte == b'/').unwrap_or(0).max(1)];
    let has_parent = view.info(parent).is_ok_and(|entry| entry.kind == Kind::Dir);
    has_parent && view.info(path).is_err_and(|refusal| refusal.number == 5)
}

pub fn append(call: &Call) -> Result<(), Failure> {
    let mut change = Change::begin(call)?;
    let path = card_path(&call.words[2]);
    let answer = append_file(&mut change, Path::new(&call.words[1]), &path);
    change.count(answer);
    change.end()
}

/// Adds a file's bytes at the end of one on the card, which is made if it is not there.
fn append_file(change: &mut Change, source: &Path, path: &[u8]) -> Result<(), Failure> {
    let subject = advice::subject(&change.image.name, path);
    let bytes = read_source(source, &subject)?;
    let found = change.image.view().info(path);
    if found.as_ref().is_err_and(|refusal| refusal.number == 5) {
        put_bytes(change, path, &bytes)?;
        return change.did("append", path, Some(bytes.len() as u64));
    }
    let mut file = change.image.view().open(path).map_err(|refusal| change.image.refused(refusal, path))?;
    let size = u64::from(file.size()) + bytes.len() as u64;
    must_have_room(change, path, found.ok().as_ref(), size)?;
    if !bytes.is_empty() {
        file.go_to_end().map_err(|refusal| change.image.refused(refusal, path))?;
        let written = change.image.volume().write(&mut file, &bytes);
        written.map_err(|refusal| change.image.refused(refusal, path))?;
    }
    change.did("append", path, Some(bytes.len() as u64))
}

pub fn cat(call: &Call) -> Result<(), Failure> {
    let mut out = Output::new(&call.options);
    let image = Reading::open(call, &out)?;
    let mut progress = Progress::new("cat", &call.options);
    let mut tally = Tally::default();
    for word in &call.words[1..] {
        let path = card_path(word);
        let answer = read_all(&image, &path, &mut progress, |bytes| out.bytes(bytes));
        tally.take(answer, call.options.json);
    }
    drop(progress);
    out.end()?;
    tally.answer()
}

/// Gives a file's bytes away, chunk by chunk.
fn read_all(
    image: &Reading,
    path: &[u8],
    progress: &mut Progress,
    mut give: impl FnMut(&[u8]) -> Result<(), Failure>,
) -> Result<(), Failure> {
    let refused = |refusal| image.refused(refusal, path);
    let mut file = image.view().open(path).map_err(refused)?;
    let (size, mut done) = (u64::from(file.size()), 0);
    let mut buffer = vec![0; CHUNK.min(size as usize)];
    while done < size {
        let bytes = image.view().read(&mut file, &mut buffer).map_err(refused)?;
        give(&buffer[..bytes])?;
        done += bytes as u64;
        progress.at(done, size);
    }
    Ok(())
}

pub fn get(call: &Call) -> Result<(), Failure> {
    let (paths, target) = match &call.words[1..] {
        [one] => (std::slice::from_ref(one), Path::new(".")),
        [paths @ .., target] => (paths, Path::new(target)),
        [] => return Err(call.usage("what shall be fetched?")),
    };
    let out = Output::new(&call.options);
    let image = Reading::open(call, &out)?;
    let into = target.is_dir();
    if paths.len() > 1 && !into {
        return Err(call.usage(format!("many files go into a folder, and {} is none", target.display())));
    }
    let budget = Budget::of(image.bytes());
    let progress = Progress::new("get", &call.options);
    let mut get = Get { call, image: &image, out, budget, progress, tally: Tally::default() };
    for word in paths {
        let path = card_path(word);
        let to = if into { host_name(&path).map(|name| target.join(name)) } else { Ok(target.to_owned()) };
        match to {
            Ok(to) => get.any(&path, &to),
            Err(failure) => get.count(Err(failure)),
        }
    }
    let Get { out, tally, .. } = get;
    out.end()?;
    tally.answer()
}

/// The last name of a path, as a name of the host. A card may hold names that the host takes for something else: `..` would lead
/// out of the folder, and a damaged card may have a slash in a name.
fn host_name(path: &[u8]) -> Result<OsString, Failure> {
    let name = path.rsplit(|&byte| byte == b'/').next().unwrap_or(path);
    host_name_of(name).ok_or_else(|| Failure::Host {
        subject: human::name(path),
        reason: "the host has no such name for a file".to_string(),
        advice: "fetch it by itself, under another name".to_string(),
    })
}

fn host_name_of(name: &[u8]) -> Option<OsString> {
    let good = !matches!(name, b"" | b"." | b"..") && !name.contains(&b'/') && !name.contains(&0);
    good.then(|| OsStr::from_bytes(name).to_owned())
}

struct Get<'a> {
    call: &'a Call,
    image: &'a Reading,
    out: Output,
    budget: Budget,
    progress: Progress,
    tally: Tally,
}

impl Get<'_> {
    fn count(&mut self, answer: Result<(), Failure>) {
        self.tally.take(answer, self.call.options.json);
    }

    fn any(&mut self, path: &[u8], to: &Path) {
        let answer = match self.image.view().info(path) {
            Ok(entry) if entry.kind == Kind::Dir => return self.dir(path, to),
            Ok(_) => self.file(path, to),
            Err(refusal) => Err(self.image.refused(refusal, path)),
        };
        self.count(answer);
    }

    fn dir(&mut self, path: &[u8], to: &Path) {
        let entries = match self.enter(path, to) {
            Ok(entries) => entries,
            Err(failure) => return self.count(Err(failure)),
        };
        self.count(Ok(()));
        for entry in entries {
            let inner = join(path, &entry.name);
            match (entry.kind, host_name_of(&entry.name)) {
                // A device has no bytes of its own to fetch.
                (Kind::Device, _) => self.out.note(&human::name(&inner), "a device is left out"),
                (_, Some(name)) => self.any(&inner, &to.join(name)),
                (_, None) => {
                    let failure =
                        host_name(&inner).err().unwrap_or_else(|| Failure::host(human::name(&inner), "a name with a slash"));
                    self.count(Err(failure));
                }
            }
        }
    }

    /// Makes a folder for a directory, and lists that.
    fn enter(&mut self, path: &[u8], to: &Path) -> Result<Vec<Entry>, Failure> {
        if !self.call.flags.recursive {
            let subject = advice::subject(&self.image.name, path);
            let advice = "use -r to fetch it with all in it".to_string();
            return Err(Failure::Refused { subject, number: 6, reason: "is a directory".to_string(), advice });
        }
        let entries = self.budget.list(self.image.view(), path).map_err(|refusal| self.image.refused(refusal, path))?;
        if !to.is_dir() {
            fs::create_dir(to).map_err(|error| Failure::host(to.display().to_string(), error))?;
        }
        Ok(entries)
    }

    /// Fetches a file under another name first, so that one of its own name is never half written.
    fn file(&mut self, path: &[u8], to: &Path) -> Result<(), Failure> {
        let special = fs::metadata(to).is_ok_and(|metadata| !metadata.is_file());
        let part = if special { to.to_owned() } else { part_of(to) };
        let failed = |error| Failure::host(part.display().to_string(), error);
        let mut file = File::options().write(true).create(true).truncate(!special).open(&part).map_err(failed)?;
        let mut bytes = 0;
        let answer = read_all(self.image, path, &mut self.progress, |chunk| {
            bytes += chunk.len() as u64;
            file.write_all(chunk).map_err(failed)
        });
        if let Err(failure) = answer {
            return Err(kept_part(failure, &part, bytes, special));
        }
        if !special {
            fs::rename(&part, to).map_err(failed)?;
        }
        let to = to.display().to_string();
        self.out.done(|| Object::new().text("did", "get").bytes("path", path).number("bytes", bytes).text("to", &to))
    }
}

fn part_of(to: &Path) -> PathBuf {
    let mut name = to.as_os_str().to_owned();
    name.push(".mfs-part");
    PathBuf::from(name)
}

/// What could be read of a damaged file is worth keeping; a part that has nothing is not.
fn kept_part(failure: Failure, part: &Path, bytes: u64, special: bool) -> Failure {
    if special {
        return failure;
    }
    match failure {
        Failure::Refused { subject, number, reason, .. } if bytes > 0 => {
            let advice = format!("its first {bytes} bytes are in {}", part.display());
            Failure::Refused { subject, number, reason, advice }
        }
        other => {
            // Nothing more can be done where that fails too.
            let _ = fs::remove_file(part);
            other
        }
    }
}
