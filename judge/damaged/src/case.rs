//! A call with everything it is given, and what it answers.
use model::{Handle, Known, Listed, Room, SeekFrom, Usage, NAME_LEN};
use std::fmt;

#[derive(Clone, Copy, Debug, PartialEq, Eq)]
pub enum Call {
    Format,
    Usage,
    /// For so many blocks.
    Room(u32),
    Check,
    Open,
    Info,
    List,
    Read,
    Seek(SeekFrom),
    CreateFile,
    CreateDir,
    Delete,
    Write,
    Patch,
}

/// The inputs of a call; those that the call doesn't take mean nothing.
#[derive(Clone)]
pub struct Case {
    pub call: Call,
    pub image: Vec<u8>,
    pub k: u32,
    /// The size code that stands beside K.
    pub code: u32,
    pub cwd: Vec<u8>,
    pub path: Vec<u8>,
    /// The entry number that a listing starts from.
    pub from: u32,
    pub time: u64,
    pub handle: Handle,
    /// What a read or a listing fills, or what a write or a patch stores.
    pub buf: Vec<u8>,
    pub work: Vec<u8>,
}

/// What an accepted call answers besides the buffers that it changes.
#[derive(Clone, Debug, PartialEq, Eq)]
pub enum Values {
    None,
    Usage(Usage),
    Room(Room),
    Handle(Handle),
    Info { kind: u8, size: u32, time: u64, name: [u8; NAME_LEN], len: usize },
    Listed(Listed),
    Bytes(usize),
}

/// The values, or the number of the refusal.
pub type Answer = Result<Values, u32>;

/// An answer for people; of a name's array all but the zeros at its end.
pub fn show(answer: &Answer) -> String {
    let text = |name: &[u8; NAME_LEN]| {
        let end = name.iter().rposition(|&byte| byte != 0).map_or(0, |last| last + 1);
        name[..end].escape_ascii().to_string()
    };
    match answer {
        Err(number) => format!("refusal {number}"),
        Ok(Values::None) => "success".to_string(),
        Ok(Values::Bytes(count)) => format!("{count} bytes"),
        Ok(Values::Usage(usage)) => format!("{usage:?}"),
        Ok(Values::Room(room)) => format!("{room:?}"),
        Ok(Values::Listed(listed)) => format!("{listed:?}"),
        Ok(Values::Handle(Handle { dir, addr, size, position, name, len })) => {
            format!("dir {dir}, addr {addr}, size {size}, position {position}, name length {len}, \"{}\"", text(name))
        }
        Ok(Values::Info { kind, size, time, name, len }) => {
            format!("kind {kind}, size {size}, time {time}, name length {len}, \"{}\"", text(name))
        }
    }
}

impl Call {
    /// All calls, by name, and the numbers of the refusals that the rules give each.
    pub const TABLE: [(&'static str, &'static [u32]); 14] = [
        ("format", &[1, 2, 3]),
        ("usage", &[1, 2, 3, 17]),
        ("check", &[1, 2, 3, 16, 17]),
        ("open", &[1, 2, 3, 4, 5, 6, 10, 17]),
        ("info", &[1, 2, 3, 4, 5, 6, 17]),
        ("list", &[1, 2, 3, 4, 5, 6, 17]),
        ("read", &[1, 2, 3, 11, 17]),
        ("seek", &[11, 12]),
        ("create_file", &[1, 2, 3, 4, 5, 6, 7, 8, 9, 16, 17]),
        ("create_dir", &[1, 2, 3, 4, 5, 6, 7, 8, 9, 15, 16, 17]),
        ("delete", &[1, 2, 3, 4, 5, 6, 14, 16, 17]),
        ("write", &[1, 2, 3, 9, 10, 11, 13, 16, 17]),
        ("room", &[1, 2, 3]),
        ("patch", &[1, 2, 3, 11, 13, 16, 17, 19]),
    ];

    /// How many rows of the table the library has calls for: the last is there once it has that one, too.
    pub const ROWS: usize = Call::TABLE.len() - if Known::TODAY.patch { 0 } else { 1 };

    /// The call's row of the table.
    pub fn row(self) -> usize {
        match self {
            Call::Format => 0,
            Call::Usage => 1,
            Call::Check => 2,
            Call::Open => 3,
            Call::Info => 4,
            Call::List => 5,
            Call::Read => 6,
            Call::Seek(_) => 7,
            Call::CreateFile => 8,
            Call::CreateDir => 9,
            Call::Delete => 10,
            Call::Write => 11,
            Call::Room(_) => 12,
            Call::Patch => 13,
        }
    }

    fn name(self) -> &'static str {
        Call::TABLE[self.row()].0
    }

    pub fn changes_the_image(self) -> bool {
        matches!(self, Call::Format | Call::CreateFile | Call::CreateDir | Call::Delete | Call::Write | Call::Patch)
    }

    fn takes_work(self) -> bool {
        self == Call::Check || (self.changes_the_image() && self != Call::Format)
    }

    fn takes_path(self) -> bool {
        matches!(self, Call::Open | Call::Info | Call::List | Call::CreateFile | Call::CreateDir | Call::Delete)
    }

    pub fn takes_handle(self) -> bool {
        matches!(self, Call::Read | Call::Seek(_) | Call::Write | Call::Patch)
    }

    fn takes_buffer(self) -> bool {
        matches!(self, Call::List | Call::Read | Call::Write | Call::Patch)
    }
}

impl fmt::Display for Case {
    fn fmt(&self, f: &mut fmt::Formatter) -> fmt::Result {
        writeln!(f, "  call    {}", self.call.name())?;
        if let Call::Seek(from) = self.call {
            writeln!(f, "  seek    {from:?}")?;
        } else {
            writeln!(f, "  K       {}, size code {}", self.k, self.code)?;
            write!(f, "  image   {} bytes", self.image.len())?;
            write_runs(f, &self.image)?;
        }
        if let Call::Room(count) = self.call {
            writeln!(f, "  count   {count}")?;
        }
        if self.call.takes_path() {
            writeln!(f, "  cwd     {} bytes, \"{}\"", self.cwd.len(), self.cwd.escape_ascii())?;
            writeln!(f, "  path    {} bytes, \"{}\"", self.path.len(), self.path.escape_ascii())?;
        }
        if self.call == Call::List {
            writeln!(f, "  from    {}", self.from)?;
        }
        if self.call.takes_handle() {
            let Handle { dir, addr, size, position, name, len } = &self.handle;
            writeln!(f, "  handle  dir {dir}, addr {addr}, size {size}, position {position}, name length {len}")?;
            writeln!(f, "  name    \"{}\"", name[..(*len).min(name.len())].escape_ascii())?;
        }
        if self.call.takes_buffer() {
            write!(f, "  buffer  {} bytes", self.buf.len())?;
            write_runs(f, &self.buf)?;
        }
        if self.call.changes_the_image() && self.call != Call::Format {
            writeln!(f, "  time    {}", self.time)?;
        }
        if self.call.takes_work() {
            write!(f, "  work    {} bytes", self.work.len())?;
            write_runs(f, &self.work)?;
        }
        Ok(())
    }
}

/// How many runs of bytes are printed at most, and how many bytes of each.
const RUNS: usize = 40;
const RUN_BYTES: usize = 64;
/// Zeros between two bytes that do not part a run.
const GAP: usize = 8;

/// The bytes that are not zero, a line for each run of them.
fn write_runs(f: &mut fmt::Formatter, bytes: &[u8]) -> fmt::Result {
    let places: Vec<usize> = (0..bytes.len()).filter(|&i| bytes[i] != 0).collect();
    let runs: Vec<&[usize]> = places.chunk_by(|a, b| b - a <= GAP && a / 512 == b / 512).collect();
    writeln!(f, "{}", if runs.is_empty() { ", all zero" } else { ", zero but for" })?;
    for run in runs.iter().take(RUNS) {
        let (first, last) = (run[0], run[run.len() - 1]);
        let hex: Vec<String> = bytes[first..=last].iter().take(RUN_BYTES).map(|byte| format!("{byte:02x}")).collect();
        let more = if last - first < RUN_BYTES { "" } else { " and so on" };
        writeln!(f, "          block {} byte {}: {}{more}", first / 512, first % 512, hex.join(" "))?;
    }
    if runs.len() > RUNS {
        writeln!(f, "          and {} runs more", runs.len() - RUNS)?;
    }
    Ok(())
}
