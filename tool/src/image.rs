//! An image's file: opened, locked, rolled back where a change was interrupted, its superblock found, and mapped.
use crate::advice;
use crate::args::{Call, Place};
use crate::code::CODES;
use crate::failure::Failure;
use crate::host::{self, Hold};
use crate::layout::{Geometry, Mount, Superblock, SECTOR, USUAL_K, VERSIONS};
use crate::library::{Refusal, View, Volume};
use crate::mapping::{Private, ReadOnly};
use crate::output::Output;
use crate::undo::{self, Store};
use std::fs::{File, OpenOptions};
use std::io::{Seek, SeekFrom};
use std::os::unix::fs::FileExt;
use std::path::{Path, PathBuf};
use std::time::{SystemTime, UNIX_EPOCH};

/// An image that is read.
pub struct Reading {
    pub name: String,
    pub mount: Mount,
    map: ReadOnly,
    /// Holds the lock.
    _file: File,
}

impl Reading {
    /// Opens the image of a call.
    pub fn open(call: &Call, out: &Output) -> Result<Reading, Failure> {
        Reading::open_at(call.image(), call, out)
    }

    pub fn open_at(path: &Path, call: &Call, out: &Output) -> Result<Reading, Failure> {
        let name = path.display().to_string();
        let failed = |error| Failure::host(&name, error);
        let real = path.canonicalize().map_err(failed)?;
        if real.is_dir() {
            return Err(Failure::host(&name, "is a folder, and no image"));
        }
        let mut file = File::open(&real).map_err(failed)?;
        lock(&file, Hold::Shared, &name, out)?;
        if undo::log_of(&real).exists() {
            // Whoever wrote the log is dead, or it would hold the lock alone.
            drop(file);
            roll_back(&real, &name, out)?;
            file = File::open(&real).map_err(failed)?;
            lock(&file, Hold::Shared, &name, out)?;
        }
        let len = length(&mut file).map_err(failed)?;
        let mount = find_superblock(&file, len, call, &name, out)?;
        let map = ReadOnly::of(&file, len as usize).map_err(failed)?;
        Ok(Reading { name, mount, map, _file: file })
    }

    pub fn bytes(&self) -> &[u8] {
        &self.map
    }

    pub fn view(&self) -> View<'_> {
        View { image: &self.map, mount: self.mount }
    }

    /// The volume's parts, or the refusal that the superblock gets.
    pub fn geometry(&self) -> Result<Geometry, Failure> {
        advice::geometry(&self.map, self.mount, &self.name)
    }

    /// A refusal as a failure, with advice.
    pub fn refused(&self, refusal: Refusal, path: &[u8]) -> Failure {
        advice::failure(refusal, &self.map, self.mount, &self.name, path)
    }
}

/// An image that is changed, in memory until it is stored.
pub struct Changing {
    pub name: String,
    pub mount: Mount,
    time: u64,
    dry_run: bool,
    path: PathBuf,
    file: File,
    map: Private,
}

impl Changing {
    pub fn open(call: &Call, out: &Output) -> Result<Changing, Failure> {
        let name = call.image().display().to_string();
        let failed = |error| Failure::host(&name, error);
        let path = call.image().canonicalize().map_err(failed)?;
        let mut file = open_locked(&path, &name, out)?;
        undo::roll_back(&mut file, &path, &name, out)?;
        let len = length(&mut file).map_err(failed)?;
        let mount = find_superblock(&file, len, call, &name, out)?;
        let map = Private::of(&file, len as usize).map_err(failed)?;
        Ok(Changing { name, mount, time: time_of(call), dry_run: call.flags.dry_run, path, file, map })
    }

    /// For a format: nothing is looked for, and a longer file is asked for by its blocks.
    pub fn open_to_format(call: &Call, mount: Mount, blocks: Option<u32>, out: &Output) -> Result<(Changing, u64), Failure> {
        let name = call.image().display().to_string();
        let failed = |error| Failure::host(&name, error);
        let path = call.image().canonicalize().map_err(failed)?;
        let mut file = open_locked(&path, &name, out)?;
        undo::roll_back(&mut file, &path, &name, out)?;
        let len = length(&mut file).map_err(failed)?;
        let wanted = blocks.map_or(len, |blocks| u64::from(blocks) * mount.block() as u64);
        if wanted != len {
            return Err(call.usage(format!(
                "{name} has {} blocks: leave --blocks out, or remove the file to make another",
                len / mount.block() as u64
            )));
        }
        let map = Private::of(&file, len as usize).map_err(failed)?;
        Ok((Changing { name, mount, time: time_of(call), dry_run: call.flags.dry_run, path, file, map }, len))
    }

    pub fn bytes(&self) -> &[u8] {
        &self.map
    }

    pub fn bytes_mut(&mut self) -> &mut [u8] {
        &mut self.map
    }

    pub fn view(&self) -> View<'_> {
        View { image: &self.map, mount: self.mount }
    }

    pub fn volume(&mut self) -> Volume<'_> {
        Volume::new(&mut self.map, self.mount, self.time)
    }

    pub fn refused(&self, refusal: Refusal, path: &[u8]) -> Failure {
        advice::failure(refusal, &self.map, self.mount, &self.name, path)
    }

    /// As `refused`, for a call that was to create something: not found is then a directory on the way.
    pub fn not_created(&self, refusal: Refusal, path: &[u8], advice: &str) -> Failure {
        match self.refused(refusal, path) {
            Failure::Refused { subject, number: 5, .. } => {
                let reason = "a directory on the way is not there".to_string();
                Failure::Refused { subject, number: 5, reason, advice: advice.to_string() }
            }
            other => other,
        }
    }

    /// Stores what has changed among the given blocks, or with `--dry-run` only counts it.
    pub fn store(self, blocks: impl Iterator<Item = u32>) -> Result<u64, Failure> {
        let failed = |error| Failure::host(&self.name, error);
        let old = ReadOnly::of(&self.file, self.map.len()).map_err(failed)?;
        let differs = |&sector: &u32| {
            let range = sector as usize * SECTOR..(sector as usize + 1) * SECTOR;
            old[range.clone()] != self.map[range]
        };
        let blocks: Vec<u32> = blocks.filter(|&addr| self.mount.sectors(addr).any(|sector| differs(&sector))).collect();
        let changed: Vec<u32> = blocks.iter().flat_map(|&addr| self.mount.sectors(addr)).filter(differs).collect();
        if !self.dry_run && !changed.is_empty() {
            let store = Store { image: &self.file, path: &self.path, old: &old, new: &self.map, blocks: &changed };
            store.run().map_err(|(path, error)| Failure::Host {
                subject: path.display().to_string(),
                reason: error.to_string(),
                advice: "the change is not made: where some of it was stored, the next run of mfs rolls it back".to_string(),
            })?;
        }
        Ok(blocks.len() as u64)
    }

    /// Stores what the library's calls have changed. By its contracts that is the superblock, the bitmap, and blocks that are
    /// marked as used before or after, so that the rest of a large card need not be read.
    pub fn store_changes(self) -> Result<u64, Failure> {
        let Some(geometry) = Geometry::of(&self.map, self.mount) else {
            return Ok(0);
        };
        let failed = |error| Failure::host(&self.name, error);
        let old = ReadOnly::of(&self.file, self.map.len()).map_err(failed)?;
        let candidates = candidates(&old, &self.map, geometry);
        drop(old);
        self.store(candidates.into_iter())
    }
}

/// The blocks that calls of the library can have changed.
fn candidates(old: &[u8], new: &[u8], geometry: Geometry) -> Vec<u32> {
    let before = geometry.bitmap_bytes(old);
    let after = geometry.bitmap_bytes(new);
    let mut blocks: Vec<u32> = std::iter::once(geometry.mount.k).chain(geometry.bitmap()..geometry.data()).collect();
    for (byte, (b, a)) in before.iter().zip(after).enumerate() {
        let either = b | a;
        let first = geometry.data() + 8 * byte as u32;
        blocks.extend((0..8).filter(|bit| either >> bit & 1 == 1).map(|bit| first + bit));
    }
    blocks
}

fn time_of(call: &Call) -> u64 {
    let now = || SystemTime::now().duration_since(UNIX_EPOCH).map_or(0, |since| since.as_secs());
    call.flags.time.unwrap_or_else(now)
}

/// The length of a file or of a device, whose metadata says nothing.
pub fn length(file: &mut File) -> std::io::Result<u64> {
    file.seek(SeekFrom::End(0))
}

fn open_locked(path: &Path, name: &str, out: &Output) -> Result<File, Failure> {
    let file = OpenOptions::new().read(true).write(true).open(path).map_err(|error| Failure::host(name, error))?;
    lock(&file, Hold::Alone, name, out)?;
    Ok(file)
}

/// Two at once: the second waits, and says so.
fn lock(file: &File, hold: Hold, name: &str, out: &Output) -> Result<(), Failure> {
    let failed = |error| Failure::host(name, error);
    if host::lock(file, hold, false).map_err(failed)? {
        return Ok(());
    }
    out.note(name, "another mfs is at work on it: waiting");
    host::lock(file, hold, true).map_err(failed)?;
    Ok(())
}

/// Rolls back for a command that only reads.
fn roll_back(path: &Path, name: &str, out: &Output) -> Result<(), Failure> {
    let opened = OpenOptions::new().read(true).write(true).open(path);
    let mut file = opened.map_err(|error| Failure::Host {
        subject: name.to_string(),
        reason: format!("a change was interrupted and must be rolled back first, but the image cannot be written: {error}"),
        advice: "run mfs once as someone who may write it".to_string(),
    })?;
    lock(&file, Hold::Alone, name, out)?;
    undo::roll_back(&mut file, path, name, out)
}

/// Where the superblock is: the block given, or the first with a mark that fits. The mark's block says its size code itself.
fn find_superblock(file: &File, len: u64, call: &Call, name: &str, out: &Output) -> Result<Mount, Failure> {
    let (place, code) = (call.options.place, call.options.code);
    let found = || search(file, len, code).map_err(|error| Failure::host(name, error));
    let k = if let Place::Block(k) = place { k } else { 0 };
    advice::good_length(len, Mount { k, code: code.unwrap_or(0) }, name)?;
    if let Place::Block(k) = place {
        return marked_at(file, k, code).map_or_else(|| Err(advice::no_mark(Some(k), found()?.fits, name)), Ok);
    }
    let found = found()?;
    // A mark whose fields do not fit is taken if there is no other: the library's refusal says what is wrong with it.
    let mount = found.fits.or(found.marked).ok_or_else(|| advice::no_mark(None, None, name))?;
    if place == Place::Auto || mount != (Mount { k: USUAL_K, code: 0 }) {
        let size = if mount.code == 0 { String::new() } else { format!(", blocks of {} bytes", mount.block()) };
        out.note(name, &format!("superblock found at block {}{size}", mount.k));
    }
    Ok(mount)
}

/// Block `k` of the code that its mark names; of any that has a mark, where none does.
fn marked_at(file: &File, k: u32, code: Option<u8>) -> Option<Mount> {
    let mounts = || CODES.into_iter().filter(|&own| code.is_none_or(|code| code == own)).map(|code| Mount { k, code });
    let marked = |mount: &Mount| superblock_of(file, *mount).filter(Superblock::is_marked);
    let named = |mount: &Mount| marked(mount).is_some_and(|superblock| superblock.size_code == mount.code);
    mounts().find(named).or_else(|| mounts().find(|mount| marked(mount).is_some()))
}

fn superblock_of(file: &File, mount: Mount) -> Option<Superblock> {
    let mut block = vec![0; mount.block()];
    file.read_exact_at(&mut block, u64::from(mount.k) * mount.block() as u64).ok()?;
    Some(Superblock::of_block(&block))
}

/// Bytes looked at together while a mark is searched.
const WINDOW: usize = 1 << 20;

/// The first block with a mark, and the first of those whose fields fit the file.
#[derive(Default)]
struct Found {
    marked: Option<Mount>,
    fits: Option<Mount>,
}

/// Searches a file for marks, until one fits. Holes are passed over, and nothing is kept in memory.
fn search(file: &File, len: u64, code: Option<u8>) -> std::io::Result<Found> {
    let (mut window, mut at, mut found) = (vec![0; WINDOW], 0, Found::default());
    while let Some(data) = host::next_data(file, at).filter(|&data| data < len) {
        at = data / WINDOW as u64 * WINDOW as u64;
        let here = WINDOW.min((len - at) as usize);
        file.read_exact_at(&mut window[..here], at)?;
        for (place, sector) in window[..here].chunks_exact(SECTOR).enumerate() {
            let superblock = Superblock::of_block(sector);
            let number = (at / SECTOR as u64) as u32 + place as u32;
            if let Some(mount) = mount_of(&superblock, number, code) {
                found.marked = found.marked.or(Some(mount));
                if fits(&superblock, mount, len) {
                    return Ok(Found { fits: Some(mount), ..found });
                }
            }
        }
        at += WINDOW as u64;
    }
    Ok(found)
}

/// The mount of a mark in that sector, by the size code asked for or else by its own, where a block begins there.
fn mount_of(superblock: &Superblock, sector: u32, code: Option<u8>) -> Option<Mount> {
    let own = CODES.into_iter().find(|&code| code == superblock.size_code).unwrap_or(0);
    let code = code.unwrap_or(own);
    let begins = sector % (1 << code) == 0;
    (superblock.is_marked() && begins).then_some(Mount { k: sector >> code, code })
}

fn fits(superblock: &Superblock, mount: Mount, len: u64) -> bool {
    let &Superblock { version, size_code, blocks, .. } = superblock;
    let geometry = Geometry::of_version(version, mount, blocks);
    VERSIONS.contains(&version)
        && size_code == mount.code
        && (version == 2 || mount.code == 0)
        && geometry.is_some_and(|geometry| u64::from(geometry.blocks) * mount.block() as u64 <= len)
}
