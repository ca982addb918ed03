pub mod ata;
pub mod clk;
pub mod fs;
pub mod mem;
pub mod process;
