//! Drives. There is none: the comparison runs over the original's memory device.
pub const BLOCK_SIZE: usize = 512;

#[derive(Clone)]
pub struct Drive {
    pub bus: u8,
    pub dsk: u8,
}

impl Drive {
    pub fn open(_bus: u8, _dsk: u8) -> Option<Drive> {
        None
    }

    pub fn block_size(&self) -> u32 {
        BLOCK_SIZE as u32
    }

    pub fn block_count(&self) -> u32 {
        0
    }
}

pub fn read(_bus: u8, _dsk: u8, _block: u32, _buf: &mut [u8]) -> Result<(), ()> {
    Err(())
}

pub fn write(_bus: u8, _dsk: u8, _block: u32, _buf: &[u8]) -> Result<(), ()> {
    Err(())
}
