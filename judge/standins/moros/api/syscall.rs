//! System calls. The comparison calls the file system itself and makes none, so each of these is refused.
use crate::sys::fs::FileInfo;

pub fn info(_path: &str) -> Option<FileInfo> {
    None
}

pub fn open(_path: &str, _flags: u8) -> Option<usize> {
    None
}

pub fn delete(_path: &str) -> Result<(), ()> {
    Err(())
}

pub fn read(_handle: usize, _buf: &mut [u8]) -> Option<usize> {
    None
}

pub fn write(_handle: usize, _buf: &[u8]) -> Option<usize> {
    None
}

pub fn dup(_old_handle: usize, _new_handle: usize) -> Result<(), ()> {
    Err(())
}

pub fn close(_handle: usize) {}
