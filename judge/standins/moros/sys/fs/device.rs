//! Devices' contents belong to the kernel: none can be opened here. As a child of `fs` this module reaches the block device, and so
//! `Device` also carries what the comparison needs to put an image there and to look at it.
use super::block_device::{self, BlockDeviceIO, BLOCK_DEVICE};
use super::{FileIO, BLOCK_SIZE, IO};
use crate::sys;

use alloc::vec::Vec;

#[derive(Debug, Clone)]
pub struct Device;

impl Device {
    pub fn open(_path: &str) -> Option<Device> {
        None
    }

    pub fn create(_path: &str) -> Option<Device> {
        None
    }

    /// Mounts a memory device with the blocks of an image.
    pub fn load(image: &[u8]) {
        let blocks = image.len() / BLOCK_SIZE;
        sys::mem::set_memory_free(2 * BLOCK_SIZE * blocks);
        block_device::mount_mem();
        let mut device = BLOCK_DEVICE.lock();
        let device = device.as_mut().expect("a mounted device");
        assert_eq!(device.block_count(), blocks);
        for (addr, block) in image.chunks_exact(BLOCK_SIZE).enumerate() {
            device.write(addr as u32, block).expect("a block of the device");
        }
    }

    /// Gives each block of the mounted device and its number, in order, until the answer is false.
    pub fn each_block(mut look: impl FnMut(usize, &[u8; BLOCK_SIZE]) -> bool) {
        let mut device = BLOCK_DEVICE.lock();
        let device = device.as_mut().expect("a mounted device");
        let mut block = [0; BLOCK_SIZE];
        for addr in 0..device.block_count() {
            device.read(addr as u32, &mut block).expect("a block of the device");
            if !look(addr, &block) {
                return;
            }
        }
    }

    /// One block of the mounted device.
    pub fn block(addr: u32) -> [u8; BLOCK_SIZE] {
        let mut device = BLOCK_DEVICE.lock();
        let mut block = [0; BLOCK_SIZE];
        device.as_mut().expect("a mounted device").read(addr, &mut block).expect("a block of the device");
        block
    }

    /// Makes one block of the mounted device zero.
    pub fn wipe(addr: u32) {
        let mut device = BLOCK_DEVICE.lock();
        device.as_mut().expect("a mounted device").write(addr, &[0; BLOCK_SIZE]).expect("a block of the device");
    }

    /// The number of blocks of the mounted device.
    pub fn block_count() -> usize {
        BLOCK_DEVICE.lock().as_ref().map_or(0, |device| device.block_count())
    }
}

impl FileIO for Device {
    fn read(&mut self, _buf: &mut [u8]) -> Result<usize, ()> {
        Err(())
    }

    fn write(&mut self, _buf: &[u8]) -> Result<usize, ()> {
        Err(())
    }

    fn close(&mut self) {}

    fn poll(&mut self, _event: IO) -> bool {
        false
    }
}

pub struct DeviceType;

impl DeviceType {
    pub fn buf(self) -> Vec<u8> {
        Vec::new()
    }
}

pub fn device_type(_name: &str) -> Result<DeviceType, ()> {
    Err(())
}
