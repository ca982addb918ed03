//! Nothing lost: before the first byte of an image is stored over, the old bytes stand in a log beside it, on the disk. A run
//! that finds a log puts them back. So an image is the old one or the new one, wherever a change was interrupted.
//!
//! The steps: write the log, sync it, sync the folder; store the changed blocks, sync the image; remove the log, sync the folder.
//! The change has happened when the log is gone. A log that was not written to its end was never followed by a store, so it is
//! just removed.
use crate::failure::Failure;
use crate::human;
use crate::layout::SECTOR;
use crate::output::Output;
use std::fs::{self, File, OpenOptions};
use std::io::{self, Write};
use std::os::unix::fs::{FileExt, OpenOptionsExt};
use std::path::{Path, PathBuf};

/// What the log begins with; the last figure is its version.
const MARK: &[u8; 8] = b"MFSUNDO1";
/// Mark, image's length, count of blocks.
const HEAD: usize = 24;
/// A record: block number, digest of the new bytes, the old bytes.
const RECORD: usize = 16 + SECTOR;

/// The log's name: beside the image, so that it is on the same disk.
pub fn log_of(image: &Path) -> PathBuf {
    let mut name = image.as_os_str().to_owned();
    name.push(".mfs-undo");
    PathBuf::from(name)
}

/// Makes the entries of the folder that holds a file last.
pub fn sync_folder_of(path: &Path) -> io::Result<()> {
    let folder = path.parent().filter(|folder| !folder.as_os_str().is_empty()).unwrap_or(Path::new("."));
    File::open(folder)?.sync_all()
}

/// A change that is to be stored.
pub struct Store<'a> {
    pub image: &'a File,
    pub path: &'a Path,
    pub old: &'a [u8],
    pub new: &'a [u8],
    /// Rising numbers of the blocks that differ.
    pub blocks: &'a [u32],
}

impl Store<'_> {
    /// Stores the change; a failure names the file.
    pub fn run(&self) -> Result<(), (PathBuf, io::Error)> {
        let log = log_of(self.path);
        let of_log = |error| (log.clone(), error);
        self.write_log(&log).map_err(|error| {
            // Nothing was stored yet, so a log that was begun is not needed.
            let _ = fs::remove_file(&log);
            of_log(error)
        })?;
        self.write_blocks().map_err(|error| (self.path.to_owned(), error))?;
        fs::remove_file(&log).map_err(of_log)?;
        sync_folder_of(&log).map_err(of_log)
    }

    fn write_log(&self, log: &Path) -> io::Result<()> {
        // The log has the card's bytes: nobody but the owner may read it.
        let mut file = OpenOptions::new().write(true).create_new(true).mode(0o600).open(log)?;
        let mut bytes = Vec::with_capacity(HEAD + self.blocks.len() * RECORD + 8);
        bytes.extend(MARK);
        bytes.extend((self.old.len() as u64).to_be_bytes());
        bytes.extend((self.blocks.len() as u64).to_be_bytes());
        for &addr in self.blocks {
            bytes.extend(u64::from(addr).to_be_bytes());
            bytes.extend(digest(block(self.new, addr)).to_be_bytes());
            bytes.extend(block(self.old, addr));
        }
        let end = digest(&bytes);
        bytes.extend(end.to_be_bytes());
        file.write_all(&bytes)?;
        file.sync_all()?;
        sync_folder_of(log)
    }

    /// Neighbours are stored together.
    fn write_blocks(&self) -> io::Result<()> {
        for run in self.blocks.chunk_by(|a, b| a + 1 == *b) {
            let start = run[0] as usize * SECTOR;
            self.image.write_all_at(&self.new[start..start + run.len() * SECTOR], start as u64)?;
        }
        self.image.sync_all()
    }
}

fn block(image: &[u8], addr: u32) -> &[u8] {
    &image[addr as usize * SECTOR..][..SECTOR]
}

/// FNV-1a, which tells a log that was cut short, and old from new.
fn digest(bytes: &[u8]) -> u64 {
    bytes.iter().fold(0xcbf2_9ce4_8422_2325, |sum, &byte| (sum ^ u64::from(byte)).wrapping_mul(0x0100_0000_01b3))
}

/// A log that was written to its end.
struct Log {
    image_len: u64,
    records: Vec<Record>,
}

struct Record {
    offset: u64,
    new_digest: u64,
    old: [u8; SECTOR],
}

impl Log {
    /// None where the bytes are no whole log.
    fn read(bytes: &[u8]) -> Option<Log> {
        let (body, end) = bytes.split_last_chunk::<8>()?;
        if body.len() < HEAD || &body[..8] != MARK || digest(body) != u64::from_be_bytes(*end) {
            return None;
        }
        let records = body[HEAD..].chunks_exact(RECORD);
        let count = number(&body[16..]);
        if !records.remainder().is_empty() || records.len() as u64 != count {
            return None;
        }
        let record = |r: &[u8]| Record {
            // A block number that is no block lies past every end, where reading fails.
            offset: number(&r[..8]).saturating_mul(SECTOR as u64),
            new_digest: number(&r[8..]),
            old: r[16..].try_into().expect("a block"),
        };
        Some(Log { image_len: number(&body[8..]), records: records.map(record).collect() })
    }

    /// Whether each block is the old or the new one. Otherwise the image is not the one that the log was written for.
    fn belongs_to(&self, image: &File, len: u64) -> io::Result<bool> {
        if len != self.image_len {
            return Ok(false);
        }
        for record in &self.records {
            let mut now = [0; SECTOR];
            image.read_exact_at(&mut now, record.offset)?;
            if now != record.old && digest(&now) != record.new_digest {
                return Ok(false);
            }
        }
        Ok(true)
    }

    fn put_back(&self, image: &File) -> io::Result<()> {
        for record in &self.records {
            image.write_all_at(&record.old, record.offset)?;
        }
        image.sync_all()
    }
}

fn number(bytes: &[u8]) -> u64 {
    u64::from_be_bytes(bytes[..8].try_into().expect("eight bytes"))
}

/// Rolls an interrupted change back, if there is a log; the image is locked. It can itself be interrupted, and done again.
pub fn roll_back(image: &mut File, path: &Path, name: &str, out: &Output) -> Result<(), Failure> {
    let log = log_of(path);
    let of_log = |error| Failure::host(log.display().to_string(), error);
    let bytes = match fs::read(&log) {
        Err(error) if error.kind() == io::ErrorKind::NotFound => return Ok(()),
        other => other.map_err(of_log)?,
    };
    let of_image = |error| Failure::host(name, error);
    let said = match Log::read(&bytes) {
        None => "a change was interrupted before it began: nothing to roll back".to_string(),
        Some(undo) => {
            let len = crate::image::length(image).map_err(of_image)?;
            if !undo.belongs_to(image, len).map_err(of_image)? {
                return Err(foreign(&log, name));
            }
            undo.put_back(image).map_err(of_image)?;
            format!("a change was interrupted: rolled back, {} restored", human::count(undo.records.len() as u64, "block"))
        }
    };
    fs::remove_file(&log).map_err(of_log)?;
    sync_folder_of(&log).map_err(of_log)?;
    out.warn(name, &said);
    Ok(())
}

fn foreign(log: &Path, name: &str) -> Failure {
    Failure::Host {
        subject: log.display().to_string(),
        reason: format!("this undo log was not written for {name} as it is now"),
        advice: "if the image was replaced, remove the log; otherwise bring the image back that was there".to_string(),
    }
}

#[cfg(test)]
mod tests {
    use super::*;

    #[test]
    fn a_log_cut_anywhere_is_no_log() {
        let mut bytes = MARK.to_vec();
        bytes.extend(1024u64.to_be_bytes());
        bytes.extend(1u64.to_be_bytes());
        bytes.extend([7; RECORD]);
        let end = digest(&bytes);
        bytes.extend(end.to_be_bytes());
        assert_eq!(Log::read(&bytes).map(|log| (log.image_len, log.records.len())), Some((1024, 1)));
        assert!((0..bytes.len()).all(|len| Log::read(&bytes[..len]).is_none()));
    }
}
