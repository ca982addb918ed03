//! The calls of the original, as thin as can be.
use crate::sys::fs::{self, Device, FileIO};
use crate::sys::{clk, process};
use crate::{Info, SeekFrom};
use std::fmt::Debug;
use std::sync::{Mutex, MutexGuard, PoisonError};

static TURN: Mutex<()> = Mutex::new(());

/// The right to use the original, until it is dropped.
pub struct Turn {
    _held: MutexGuard<'static, ()>,
}

/// An open file of the original.
#[derive(Clone, Debug)]
pub struct File(fs::File);

/// An open directory of the original.
#[derive(Clone, Debug)]
pub struct Dir(fs::Dir);

impl Turn {
    /// Waits for the turn.
    pub fn take() -> Turn {
        Turn { _held: TURN.lock().unwrap_or_else(PoisonError::into_inner) }
    }

    /// Mounts a memory device with the blocks of an image.
    pub fn load(&self, image: &[u8]) {
        Device::load(image);
    }

    /// The image on the device.
    pub fn dump(&self) -> Vec<u8> {
        let mut image = Vec::with_capacity(Device::block_count() * fs::BLOCK_SIZE);
        Device::each_block(|_, block| {
            image.extend_from_slice(block);
            true
        });
        image
    }

    /// The first block in which the device differs from an image.
    pub fn first_difference(&self, image: &[u8]) -> Option<usize> {
        if Device::block_count() * fs::BLOCK_SIZE != image.len() {
            return Some(0);
        }
        let mut first = None;
        Device::each_block(|addr, block| {
            let start = addr * fs::BLOCK_SIZE;
            if image[start..start + fs::BLOCK_SIZE] != *block {
                first = Some(addr);
            }
            first.is_none()
        });
        first
    }

    /// One block of the device.
    pub fn block(&self, addr: u32) -> Vec<u8> {
        Device::block(addr).to_vec()
    }

    /// Makes one block of the device zero, which no call of the original does.
    pub fn wipe(&self, addr: u32) {
        Device::wipe(addr);
    }

    /// The clock stands at this time from now on.
    pub fn set_time(&self, time: u64) {
        clk::set_time(time);
    }

    /// The working directory of the calls that follow.
    pub fn set_dir(&self, dir: &str) {
        process::set_dir(dir);
    }

    /// The steps of `format_ata`, on the memory device.
    pub fn format(&self) {
        fs::format_ata();
    }

    /// Bytes of the volume, of its used blocks, and the rest.
    pub fn usage(&self) -> [usize; 3] {
        [fs::disk_size(), fs::disk_used(), fs::disk_free()]
    }

    pub fn info(&self, path: &str) -> Option<Info> {
        fs::info(path).map(|info| Info { kind: info.kind() as u8, size: info.size(), time: info.time(), name: info.name() })
    }

    pub fn open(&self, path: &str) -> Option<File> {
        fs::File::open(path).map(File)
    }

    pub fn open_dir(&self, path: &str) -> Option<Dir> {
        fs::Dir::open(path).map(Dir)
    }

    pub fn create_file(&self, path: &str) -> Option<File> {
        fs::File::create(path).map(File)
    }

    pub fn create_dir(&self, path: &str) -> Option<Dir> {
        fs::Dir::create(path).map(Dir)
    }

    pub fn delete(&self, path: &str) -> Result<(), ()> {
        fs::delete(path)
    }
}

impl File {
    /// The file's first address.
    pub fn addr(&self) -> u32 {
        self.0.addr()
    }

    pub fn size(&self) -> usize {
        self.0.size()
    }

    /// Where the next read or write begins.
    pub fn position(&self) -> u32 {
        last_field(&self.0, "cursor") as u32
    }

    /// The number, in the file's chain, of the block that the original resumes at, and its address.
    pub fn resume(&self) -> (usize, u32) {
        (last_field(&self.0, "resume_index") as usize, last_field(&self.0, "resume_addr") as u32)
    }

    pub fn read(&mut self, _turn: &Turn, buf: &mut [u8]) -> Result<usize, ()> {
        self.0.read(buf)
    }

    pub fn write(&mut self, _turn: &Turn, buf: &[u8]) -> Result<usize, ()> {
        self.0.write(buf)
    }

    pub fn seek(&mut self, from: SeekFrom) -> Result<u32, ()> {
        self.0.seek(match from {
            SeekFrom::Start(to) => fs::SeekFrom::Start(to),
            SeekFrom::Current(by) => fs::SeekFrom::Current(by),
            SeekFrom::End(by) => fs::SeekFrom::End(by),
        })
    }
}

impl Dir {
    /// The directory's first address.
    pub fn addr(&self) -> u32 {
        self.0.addr()
    }

    /// The number of the entry at which the next listing begins.
    pub fn next_entry(&self) -> u32 {
        last_field(&self.0, "entry_index") as u32
    }

    /// The lengths of the names, in the directory's order.
    pub fn name_lens(&self, _turn: &Turn) -> Vec<usize> {
        self.0.entries().map(|entry| entry.name().len()).collect()
    }

    /// Lists into the buffer, and moves on by the entries that fit.
    pub fn read(&mut self, _turn: &Turn, buf: &mut [u8]) -> Result<usize, ()> {
        self.0.read(buf)
    }
}

/// A private number of the original's, as its debug text shows it. Names may hold the same words, but the original's own numbers come
/// after them.
fn last_field(of: &impl Debug, field: &str) -> u64 {
    let text = format!("{of:?}");
    let label = format!("{field}: ");
    let start = text.rfind(&label).unwrap_or_else(|| panic!("the original has no field {field}")) + label.len();
    let digits = text[start..].split(|c: char| !c.is_ascii_digit()).next().unwrap_or("");
    digits.parse().unwrap_or_else(|_| panic!("the original's field {field} is no number"))
}
