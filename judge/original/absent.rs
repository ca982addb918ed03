//! The same calls where the original is not at hand: there is no turn, so none of them can be made.
#![allow(clippy::result_unit_err)] // as the original has them

use crate::{Info, SeekFrom};

/// The right to use the original; nobody has it.
pub enum Turn {}

/// An open file of the original; there is none.
#[derive(Clone, Debug)]
pub enum File {}

/// An open directory of the original; there is none.
#[derive(Clone, Debug)]
pub enum Dir {}

impl Turn {
    /// Ends the program: look at `PRESENT` first.
    pub fn take() -> Turn {
        panic!("the original Rust was not at hand when this was built");
    }

    pub fn load(&self, _image: &[u8]) {
        match *self {}
    }

    pub fn dump(&self) -> Vec<u8> {
        match *self {}
    }

    pub fn first_difference(&self, _image: &[u8]) -> Option<usize> {
        match *self {}
    }

    pub fn block(&self, _addr: u32) -> Vec<u8> {
        match *self {}
    }

    pub fn wipe(&self, _addr: u32) {
        match *self {}
    }

    pub fn set_time(&self, _time: u64) {
        match *self {}
    }

    pub fn set_dir(&self, _dir: &str) {
        match *self {}
    }

    pub fn format(&self) {
        match *self {}
    }

    pub fn usage(&self) -> [usize; 3] {
        match *self {}
    }

    pub fn info(&self, _path: &str) -> Option<Info> {
        match *self {}
    }

    pub fn open(&self, _path: &str) -> Option<File> {
        match *self {}
    }

    pub fn open_dir(&self, _path: &str) -> Option<Dir> {
        match *self {}
    }

    pub fn create_file(&self, _path: &str) -> Option<File> {
        match *self {}
    }

    pub fn create_dir(&self, _path: &str) -> Option<Dir> {
        match *self {}
    }

    pub fn delete(&self, _path: &str) -> Result<(), ()> {
        match *self {}
    }
}

impl File {
    pub fn addr(&self) -> u32 {
        match *self {}
    }

    pub fn size(&self) -> usize {
        match *self {}
    }

    pub fn position(&self) -> u32 {
        match *self {}
    }

    pub fn resume(&self) -> (usize, u32) {
        match *self {}
    }

    pub fn read(&mut self, _turn: &Turn, _buf: &mut [u8]) -> Result<usize, ()> {
        match *self {}
    }

    pub fn write(&mut self, _turn: &Turn, _buf: &[u8]) -> Result<usize, ()> {
        match *self {}
    }

    pub fn seek(&mut self, _from: SeekFrom) -> Result<u32, ()> {
        match *self {}
    }
}

impl Dir {
    pub fn addr(&self) -> u32 {
        match *self {}
    }

    pub fn next_entry(&self) -> u32 {
        match *self {}
    }

    pub fn name_lens(&self, _turn: &Turn) -> Vec<usize> {
        match *self {}
    }

    pub fn read(&mut self, _turn: &Turn, _buf: &mut [u8]) -> Result<usize, ()> {
        match *self {}
    }
}
