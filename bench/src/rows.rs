//! The rows of the table: which calls are timed, on which volumes, at which paths.
use crate::calls::{Call, Checked, Handle, Plain, LONG, SHORT};
use crate::images::{self, Fill, LARGE, SMALL};

/// Rows on the same volume.
pub struct Group {
    pub image: fn() -> Vec<u8>,
    pub rows: &'static [Row],
}

/// A call at a path.
pub struct Row {
    pub label: &'static str,
    pub call: Call,
}

const fn plain(label: &'static str, plain: Plain, path: &'static str) -> Row {
    Row { label, call: Call::Plain(plain, path) }
}

const fn checked(label: &'static str, checked: Checked, path: &'static str) -> Row {
    Row { label, call: Call::Checked(checked, path) }
}

/// The volumes are of 64 MiB where nothing else is said.
pub static GROUPS: [Group; 8] = [
    Group { image: images::blank, rows: &[plain("format", Plain::Format, "/"), plain("usage", Plain::Usage, "/")] },
    Group {
        image: || images::directory(SMALL, 1000),
        rows: &[
            plain("open, last of 1,000 entries", Plain::Open, "/d/m00999"),
            plain("info, last of 1,000 entries", Plain::Info, "/d/m00999"),
            plain("read of 16 bytes, last of 1,000 entries", Plain::Read(SHORT, SHORT), "/d/m00999"),
            checked("create among 1,000 entries, 64 MiB", Checked::Create, "/d/m01000"),
            checked("delete among 1,000 entries, 64 MiB", Checked::Delete, "/d/m01000"),
        ],
    },
    Group {
        image: || images::directory(LARGE, 1000),
        rows: &[
            checked("create among 1,000 entries, 1 GiB", Checked::Create, "/d/m01000"),
            checked("delete among 1,000 entries, 1 GiB", Checked::Delete, "/d/m01000"),
        ],
    },
    Group {
        image: || images::directory(SMALL, 10_000),
        rows: &[
            plain("open, last of 10,000 entries", Plain::Open, "/d/m09999"),
            plain("info, last of 10,000 entries", Plain::Info, "/d/m09999"),
            plain("list of 10,000 entries", Plain::List, "/d"),
            checked("create among 10,000 entries, 64 MiB", Checked::Create, "/d/m10000"),
            checked("delete among 10,000 entries, 64 MiB", Checked::Delete, "/d/m10000"),
        ],
    },
    Group {
        image: || images::full(SMALL, Fill::Long).image,
        rows: &[checked("write of 16 bytes in place, full volume, 64 MiB", Checked::InPlace, "/d00000/m00000")],
    },
    Group {
        image: || images::full(SMALL, Fill::Short).image,
        rows: &[checked("write of 16 bytes in place, full of short files, 64 MiB", Checked::InPlace, "/d00000/m00999")],
    },
    Group {
        image: images::deep,
        rows: &[
            plain("open at depth 8", Plain::Open, "/a/b/c/d/e/f/g/h/m00009"),
            plain("info at depth 8", Plain::Info, "/a/b/c/d/e/f/g/h/m00009"),
        ],
    },
    Group {
        image: images::long_file,
        rows: &[
            plain("seek in a file of 1 MiB", Plain::Seek, "/d/big"),
            plain("read of 16 bytes, last of 10 entries", Plain::Read(SHORT, SHORT), "/d/big"),
            plain("read of 1 MiB in one call", Plain::Read(LONG, LONG), "/d/big"),
            plain("read of 1 MiB in 508-byte calls", Plain::Read(LONG, 508), "/d/big"),
            checked("write of 1 MiB onto an empty file", Checked::Write, "/d/new"),
            checked("delete of 1 MiB", Checked::DeleteLong, "/d/new"),
            checked("patch of 16 bytes at the start of 1 MiB", Checked::Patch, "/d/big"),
            checked("append of 16 bytes to 1 MiB, new handle", Checked::Append(Handle::New), "/d/big"),
            checked("append of 16 bytes to 1 MiB, kept handle", Checked::Append(Handle::Kept), "/d/big"),
        ],
    },
];
