//! Why a call is refused.
use crate::EXPORTS_VERSION;
use core::error::Error;
use core::fmt;

/// Why a call is refused. The numbers are those of the documents and of the C header.
///
/// A later library may have more refusals than these bindings know: match with an arm for all others.
#[derive(Clone, Copy, Debug, PartialEq, Eq, Hash)]
#[non_exhaustive]
pub enum Refusal {
    /// 1: the image is empty, no multiple of the block size, over the limit, or has no block K + 2.
    BadImage,
    /// 2: a size code that is not known; or signature, version or size code in block K.
    NotMfs,
    /// 3: the volume's block count n is above the image's, or N = n - K - 2 is below 2 or 1 modulo 4097 (8193 with blocks of
    /// 1,024 bytes); in version 1, below 4097.
    BadCount,
    /// 4: the full path's length, a byte of it that no path may have (the words of this refusal say which), or a
    /// working directory that is needed and does not start with `/`.
    BadPath,
    /// 5: nothing has that name, or (not for a create) the last name is empty.
    NotFound,
    /// 6: a part of the path is no directory, open is not on a file, list not on a directory.
    WrongKind,
    /// 7: the name exists already.
    Exists,
    /// 8: the new name is empty or over 255 bytes.
    BadName,
    /// 9: fewer blocks are free within reach than the call must add.
    NoRoom,
    /// 10: the file would pass its limit; open: it does.
    TooLarge,
    /// 11: the handle is stale: its own fields are out of range, or its directory has no file of its name, first
    /// address and size.
    Stale,
    /// 12: the seek's target is outside the file.
    BadSeek,
    /// 13: a write or a patch of no bytes.
    EmptyWrite,
    /// 14: the directory to delete has entries.
    NotEmpty,
    /// 15: the new directory would be at depth 17.
    TooDeep,
    /// 16: the work buffer is too short.
    ShortWork,
    /// 17: the volume is damaged.
    Damaged,
    /// 19: the bytes of a patch would go past the file's end.
    PastEnd,
    /// A number that these bindings have no name for.
    Unknown(u32),
    /// No call was made: the library has exports of this version, and these bindings are for [`EXPORTS_VERSION`].
    OtherVersion(u32),
}

impl Refusal {
    /// Every refusal that has a name and a number, in the order of the numbers.
    pub const ALL: [Refusal; 18] = [
        Refusal::BadImage,
        Refusal::NotMfs,
        Refusal::BadCount,
        Refusal::BadPath,
        Refusal::NotFound,
        Refusal::WrongKind,
        Refusal::Exists,
        Refusal::BadName,
        Refusal::NoRoom,
        Refusal::TooLarge,
        Refusal::Stale,
        Refusal::BadSeek,
        Refusal::EmptyWrite,
        Refusal::NotEmpty,
        Refusal::TooDeep,
        Refusal::ShortWork,
        Refusal::Damaged,
        Refusal::PastEnd,
    ];

    /// The number of the refusal. [`OtherVersion`](Refusal::OtherVersion) is none of the library's, and gives `u32::MAX`.
    #[must_use]
    pub fn number(self) -> u32 {
        match self {
            Refusal::BadImage => 1,
            Refusal::NotMfs => 2,
            Refusal::BadCount => 3,
            Refusal::BadPath => 4,
            Refusal::NotFound => 5,
            Refusal::WrongKind => 6,
            Refusal::Exists => 7,
            Refusal::BadName => 8,
            Refusal::NoRoom => 9,
            Refusal::TooLarge => 10,
            Refusal::Stale => 11,
            Refusal::BadSeek => 12,
            Refusal::EmptyWrite => 13,
            Refusal::NotEmpty => 14,
            Refusal::TooDeep => 15,
            Refusal::ShortWork => 16,
            Refusal::Damaged => 17,
            Refusal::PastEnd => 19,
            Refusal::Unknown(number) => number,
            Refusal::OtherVersion(_) => u32::MAX,
        }
    }

    /// The refusal of a number: none for 0, [`Unknown`](Refusal::Unknown) for one without a name, as 18 has none now.
    #[must_use]
    pub fn from_number(number: u32) -> Option<Refusal> {
        if number == 0 {
            return None;
        }
        let named = Refusal::ALL.into_iter().find(|refusal| refusal.number() == number);
        Some(named.unwrap_or(Refusal::Unknown(number)))
    }
}

/// The reason in words, the same as the C header's `mfs_refusal_text` where the refusal has a name there.
impl fmt::Display for Refusal {
    fn fmt(&self, f: &mut fmt::Formatter<'_>) -> fmt::Result {
        f.pad(match self {
            Refusal::BadImage => "the image is empty, not whole blocks, too long, or too short for K",
            Refusal::NotMfs => "unknown size code, or no MFS superblock of that code and a known version in block K",
            Refusal::BadCount => "the volume's block count is above the image's, or leaves no data area",
            Refusal::BadPath => "the path is over 1024 bytes, is not UTF-8 or has a control byte, or no '/' first",
            Refusal::NotFound => "nothing has that name, or the name is empty",
            Refusal::WrongKind => "a part of the path is no directory, or what it leads to is of the wrong kind",
            Refusal::Exists => "the name exists already",
            Refusal::BadName => "the new name is empty or over 255 bytes",
            Refusal::NoRoom => "fewer blocks are free within reach than the call must add",
            Refusal::TooLarge => "the file is, or would be, over 2147483647 bytes",
            Refusal::Stale => "the handle is stale: its file was resized, replaced or deleted",
            Refusal::BadSeek => "the target is outside the file",
            Refusal::EmptyWrite => "there is no byte to write",
            Refusal::NotEmpty => "the directory to delete has entries",
            Refusal::TooDeep => "the new directory would be at depth 17",
            Refusal::ShortWork => "the work buffer has less than one bit for each block of the data area",
            Refusal::Damaged => "the volume is damaged",
            Refusal::PastEnd => "the bytes would go past the end of the file",
            Refusal::Unknown(number) => return write!(f, "refused by number {number}, which these bindings do not know"),
            Refusal::OtherVersion(library) => {
                return write!(f, "the library's exports have version {library}, these bindings call version {EXPORTS_VERSION}")
            }
        })
    }
}

impl Error for Refusal {}

/// The kind of an error that says most about the refusal; the refusal itself is the error's source, for `get_ref` and `downcast`.
#[cfg(feature = "std")]
impl From<Refusal> for std::io::Error {
    fn from(refusal: Refusal) -> std::io::Error {
        use std::io::ErrorKind;
        let kind = match refusal {
            Refusal::NotMfs | Refusal::BadCount | Refusal::Damaged => ErrorKind::InvalidData,
            Refusal::NotFound => ErrorKind::NotFound,
            Refusal::Exists => ErrorKind::AlreadyExists,
            Refusal::NoRoom => ErrorKind::StorageFull,
            Refusal::TooLarge => ErrorKind::FileTooLarge,
            Refusal::NotEmpty => ErrorKind::DirectoryNotEmpty,
            // The name of the kind says network; what it means, as the systems' ESTALE, is this.
            Refusal::Stale => ErrorKind::StaleNetworkFileHandle,
            Refusal::OtherVersion(_) => ErrorKind::Unsupported,
            Refusal::Unknown(_) => ErrorKind::Other,
            Refusal::BadImage
            | Refusal::BadPath
            | Refusal::WrongKind
            | Refusal::BadName
            | Refusal::BadSeek
            | Refusal::EmptyWrite
            | Refusal::TooDeep
            | Refusal::ShortWork
            | Refusal::PastEnd => ErrorKind::InvalidInput,
        };
        std::io::Error::new(kind, refusal)
    }
}
