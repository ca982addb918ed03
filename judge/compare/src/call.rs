//! The calls that are made on both sides, and what each side answers.
use std::fmt;

/// Handles that are open at the same time.
pub const SLOTS: usize = 4;
/// What stands in a buffer before a read or a listing, so that its rest is compared too.
pub const UNTOUCHED: u8 = 0xa5;

/// A working directory and a path.
#[derive(Clone, Debug, PartialEq, Eq)]
pub struct Place {
    pub cwd: Vec<u8>,
    pub path: Vec<u8>,
}

/// Where a seek goes.
#[derive(Clone, Copy, Debug, PartialEq, Eq)]
pub enum Seek {
    Start(u32),
    Current(i32),
    End(i32),
}

/// A call. A slot holds a file's handle; a page holds a directory that a listing was begun on.
#[derive(Clone, Debug, PartialEq, Eq)]
pub enum Call {
    Format,
    Usage,
    Open {
        slot: usize,
        place: Place,
    },
    Info {
        place: Place,
    },
    /// Begins a listing at an entry's number, and keeps its place in the page.
    List {
        page: usize,
        place: Place,
        from: u32,
        len: usize,
    },
    /// Goes on with a listing.
    ListOn {
        page: usize,
        len: usize,
    },
    Read {
        slot: usize,
        len: usize,
    },
    Seek {
        slot: usize,
        to: Seek,
    },
    CreateFile {
        slot: usize,
        place: Place,
        time: u64,
    },
    CreateDir {
        place: Place,
        time: u64,
    },
    Delete {
        place: Place,
        time: u64,
    },
    /// Writes the bytes of [`written_bytes`].
    Write {
        slot: usize,
        len: usize,
        seed: u8,
        time: u64,
    },
    /// Puts the same bytes over bytes of the file.
    Patch {
        slot: usize,
        len: usize,
        seed: u8,
        time: u64,
    },
}

/// What can be seen of a file's handle.
#[derive(Clone, Copy, Debug, PartialEq, Eq)]
pub struct FileState {
    pub addr: u32,
    pub size: u32,
    pub position: u32,
}

/// What a side answers. A refusal has no number here, since the original gives none.
#[derive(Clone, PartialEq, Eq)]
pub enum Answer {
    Refused,
    Done,
    Usage([u64; 3]),
    Opened(FileState),
    Info { kind: u8, size: u32, time: u64, name: Vec<u8> },
    Listed { bytes: usize, next: u32, buf: Vec<u8> },
    Read { count: usize, file: FileState, buf: Vec<u8> },
    Sought(FileState),
    Written { count: usize, file: FileState },
    Panicked(String),
}

/// The bytes of a write.
pub fn written_bytes(len: usize, seed: u8) -> Vec<u8> {
    (0..len).map(|j| ((usize::from(seed) + 7 * j) % 251) as u8).collect()
}

impl Call {
    /// The name of the kind of call.
    pub fn kind(&self) -> &'static str {
        match self {
            Call::Format => "format",
            Call::Usage => "usage",
            Call::Open { .. } => "open",
            Call::Info { .. } => "info",
            Call::List { .. } | Call::ListOn { .. } => "list",
            Call::Read { .. } => "read",
            Call::Seek { .. } => "seek",
            Call::CreateFile { .. } => "create file",
            Call::CreateDir { .. } => "create directory",
            Call::Delete { .. } => "delete",
            Call::Write { .. } => "write",
            Call::Patch { .. } => "patch",
        }
    }

    /// Whether the call may change the image.
    pub fn changes(&self) -> bool {
        matches!(self, Call::Format | Call::CreateFile { .. } | Call::CreateDir { .. } | Call::Delete { .. }) || self.stores()
    }

    /// Whether the call stores a buffer.
    pub fn stores(&self) -> bool {
        matches!(self, Call::Write { .. } | Call::Patch { .. })
    }

    /// The working directory and path that the call names.
    pub fn place(&self) -> Option<&Place> {
        match self {
            Call::Open { place, .. }
            | Call::Info { place }
            | Call::List { place, .. }
            | Call::CreateFile { place, .. }
            | Call::CreateDir { place, .. }
            | Call::Delete { place, .. } => Some(place),
            _ => None,
        }
    }

    /// The slot of the handle that the call uses or makes.
    pub fn slot(&self) -> Option<usize> {
        match *self {
            Call::Open { slot, .. }
            | Call::Read { slot, .. }
            | Call::Seek { slot, .. }
            | Call::CreateFile { slot, .. }
            | Call::Write { slot, .. }
            | Call::Patch { slot, .. } => Some(slot),
            _ => None,
        }
    }
}

impl fmt::Display for Place {
    fn fmt(&self, f: &mut fmt::Formatter<'_>) -> fmt::Result {
        write!(f, "{} from {}", quoted(&self.path), quoted(&self.cwd))
    }
}

impl fmt::Display for Call {
    fn fmt(&self, f: &mut fmt::Formatter<'_>) -> fmt::Result {
        let kind = self.kind();
        match self {
            Call::Format | Call::Usage => write!(f, "{kind}"),
            Call::Open { slot, place } => write!(f, "{kind} {place} into slot {slot}"),
            Call::Info { place } => write!(f, "{kind} {place}"),
            Call::List { page, place, from, len } => write!(f, "{kind} {place} at entry {from}, {len} bytes, page {page}"),
            Call::ListOn { page, len } => write!(f, "{kind} on, page {page}, {len} bytes"),
            Call::Read { slot, len } => write!(f, "{kind} slot {slot}, {len} bytes"),
            Call::Seek { slot, to } => write!(f, "{kind} slot {slot} to {to:?}"),
            Call::CreateFile { slot, place, time } => write!(f, "{kind} {place} at time {time} into slot {slot}"),
            Call::CreateDir { place, time } | Call::Delete { place, time } => write!(f, "{kind} {place} at time {time}"),
            Call::Write { slot, len, seed, time } | Call::Patch { slot, len, seed, time } => {
                write!(f, "{kind} slot {slot}, {len} bytes, seed {seed}, at time {time}")
            }
        }
    }
}

impl fmt::Debug for Answer {
    fn fmt(&self, f: &mut fmt::Formatter<'_>) -> fmt::Result {
        match self {
            Answer::Refused => write!(f, "refused"),
            Answer::Done => write!(f, "done"),
            Answer::Usage([size, used, free]) => write!(f, "size {size}, used {used}, free {free}"),
            Answer::Opened(file) | Answer::Sought(file) => write!(f, "{file:?}"),
            Answer::Info { kind, size, time, name } => write!(f, "kind {kind}, size {size}, time {time}, name {}", quoted(name)),
            Answer::Listed { bytes, next, buf } => write!(f, "{bytes} bytes, next {next}, {}", touched(buf)),
            Answer::Read { count, file, buf } => write!(f, "{count} bytes, {file:?}, {}", touched(buf)),
            Answer::Written { count, file } => write!(f, "{count} bytes, {file:?}"),
            Answer::Panicked(message) => write!(f, "panicked: {message}"),
        }
    }
}

/// What stands in a buffer before its untouched end.
fn touched(buf: &[u8]) -> String {
    let end = buf.iter().rposition(|&b| b != UNTOUCHED).map_or(0, |last| last + 1);
    format!("buffer {} and {} bytes untouched", quoted(&buf[..end]), buf.len() - end)
}

fn quoted(bytes: &[u8]) -> String {
    format!("\"{}\"", bytes.escape_ascii())
}
