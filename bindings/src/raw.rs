//! The exports of the proved library, as include/mfs_c.h declares and documents them. The safe functions of this crate
//! call them; a program has no need to.
//!
//! # Safety
//!
//! A slice passes as a pointer and its length, and every other pointer is to one value of its type. No pointer may be
//! null, also where a length is 0. What an export may write (an image that is `*mut`, a work buffer, a read buffer, a
//! handle's numbers, an out parameter) must overlap no other buffer of the call. All values are allowed. Each export
//! but `mfs_c_version` answers 0, or the number of its refusal, which leaves every out parameter as it was. That the
//! library has these exports is certain where `mfs_c_version` answers [`EXPORTS_VERSION`](crate::EXPORTS_VERSION).
#![allow(missing_docs)] // include/mfs_c.h has them

use crate::NAME_LEN;

extern "C" {
    pub fn mfs_c_version() -> u32;
    pub fn mfs_c_format(img: *mut u8, img_len: usize, k: u32, code: u32) -> u32;
    pub fn mfs_c_usage(img: *const u8, img_len: usize, k: u32, code: u32, size: *mut u64, used: *mut u64, free: *mut u64) -> u32;
    pub fn mfs_c_room(img: *const u8, img_len: usize, k: u32, code: u32, count: u32, enough: *mut u32, bytes: *mut u32) -> u32;
    pub fn mfs_c_check(img: *const u8, img_len: usize, k: u32, code: u32, work: *mut u8, work_len: usize) -> u32;
    pub fn mfs_c_open(
        img: *const u8,
        img_len: usize,
        k: u32,
        code: u32,
        cwd: *const u8,
        cwd_len: usize,
        path: *const u8,
        path_len: usize,
        number: *mut [u32; 4],
        name: *mut [u8; NAME_LEN],
        len: *mut usize,
    ) -> u32;
    pub fn mfs_c_info(
        img: *const u8,
        img_len: usize,
        k: u32,
        code: u32,
        cwd: *const u8,
        cwd_len: usize,
        path: *const u8,
        path_len: usize,
        kind: *mut u8,
        size: *mut u32,
        time: *mut u64,
        name: *mut [u8; NAME_LEN],
        len: *mut usize,
    ) -> u32;
    pub fn mfs_c_list(
        img: *const u8,
        img_len: usize,
        k: u32,
        code: u32,
        cwd: *const u8,
        cwd_len: usize,
        path: *const u8,
        path_len: usize,
        i: u32,
        buf: *mut u8,
        buf_len: usize,
        bytes: *mut usize,
        next: *mut u32,
    ) -> u32;
    pub fn mfs_c_read(
        img: *const u8,
        img_len: usize,
        k: u32,
        code: u32,
        number: *mut [u32; 4],
        name: *const [u8; NAME_LEN],
        len: usize,
        buf: *mut u8,
        buf_len: usize,
        bytes: *mut usize,
    ) -> u32;
    pub fn mfs_c_seek_start(number: *mut [u32; 4], name: *const [u8; NAME_LEN], len: usize, to: u32) -> u32;
    pub fn mfs_c_seek_current(number: *mut [u32; 4], name: *const [u8; NAME_LEN], len: usize, by: i32) -> u32;
    pub fn mfs_c_seek_end(number: *mut [u32; 4], name: *const [u8; NAME_LEN], len: usize, by: i32) -> u32;
    pub fn mfs_c_create_file(
        img: *mut u8,
        img_len: usize,
        k: u32,
        code: u32,
        cwd: *const u8,
        cwd_len: usize,
        path: *const u8,
        path_len: usize,
        time: u64,
        work: *mut u8,
        work_len: usize,
        number: *mut [u32; 4],
        name: *mut [u8; NAME_LEN],
        len: *mut usize,
    ) -> u32;
    pub fn mfs_c_create_dir(
        img: *mut u8,
        img_len: usize,
        k: u32,
        code: u32,
        cwd: *const u8,
        cwd_len: usize,
        path: *const u8,
        path_len: usize,
        time: u64,
        work: *mut u8,
        work_len: usize,
    ) -> u32;
    pub fn mfs_c_delete(
        img: *mut u8,
        img_len: usize,
        k: u32,
        code: u32,
        cwd: *const u8,
        cwd_len: usize,
        path: *const u8,
        path_len: usize,
        time: u64,
        work: *mut u8,
        work_len: usize,
    ) -> u32;
    pub fn mfs_c_write(
        img: *mut u8,
        img_len: usize,
        k: u32,
        code: u32,
        number: *mut [u32; 4],
        name: *const [u8; NAME_LEN],
        len: usize,
        buf: *const u8,
        buf_len: usize,
        time: u64,
        work: *mut u8,
        work_len: usize,
        bytes: *mut usize,
    ) -> u32;
    pub fn mfs_c_patch(
        img: *mut u8,
        img_len: usize,
        k: u32,
        code: u32,
        number: *mut [u32; 4],
        name: *const [u8; NAME_LEN],
        len: usize,
        buf: *const u8,
        buf_len: usize,
        time: u64,
        work: *mut u8,
        work_len: usize,
        bytes: *mut usize,
    ) -> u32;
}
