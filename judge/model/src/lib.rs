//! A second reading of the rules (docs/RULES.md): every call as a plain, slow function on bytes. It judges the proved library
//! where the Rust does not decide, on damaged images and on refusals, and shares no line with either.
//!
//! Above each function stands the rule that it follows. "Reading 3" is the third of those in docs/DECISIONS.md.
mod calls;
mod check;
mod directory;
mod geometry;
mod path;
#[cfg(test)]
mod tests;
mod volume;

pub use calls::{check, create_dir, create_file, delete, format, info, list, open, patch, read, room, seek, usage, write};
pub use calls::{Handle, Info, Listed, Room, SeekFrom, Usage, NAME_LEN};
pub use directory::Kind;
pub use geometry::{Geometry, Known, Mount, Size, SIZES};

/// R1 to R17, and 19.
#[derive(Clone, Copy, Debug, PartialEq, Eq, Hash, PartialOrd, Ord)]
#[repr(u8)]
pub enum Refusal {
    /// R1
    BadImage = 1,
    /// R2
    NotMfs = 2,
    /// R3
    BadCount = 3,
    /// R4
    BadPath = 4,
    /// R5
    NotFound = 5,
    /// R6
    WrongKind = 6,
    /// R7
    Exists = 7,
    /// R8
    BadName = 8,
    /// R9
    NoRoom = 9,
    /// R10
    TooLarge = 10,
    /// R11
    Stale = 11,
    /// R12
    BadSeek = 12,
    /// R13
    EmptyWrite = 13,
    /// R14
    NotEmpty = 14,
    /// R15
    TooDeep = 15,
    /// R16
    ShortWork = 16,
    /// R17
    Damaged = 17,
    /// R19
    PastEnd = 19,
}

impl Refusal {
    /// The number of the refusal: 1 to 17, or 19. (18 is not used: past the whole check the holding directory's own entry is there.)
    pub fn number(self) -> u32 {
        self as u32
    }
}

/// What a call answers: its values, or the refusal.
pub type Answer<T> = Result<T, Refusal>;

/// R1 to R3, and what the superblock says of the volume's places.
pub fn geometry(image: &[u8], mount: impl Into<Mount>) -> Answer<Geometry> {
    volume::volume(image, mount.into())
}
