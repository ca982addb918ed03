//! Bytes that the judge's edits put into names.
#![allow(dead_code)] // they are asked for where names may have accents

/// At the edges of what may stand in text.
pub const ODD_BYTES: [u8; 12] = [0, 0x1f, 0x20, b'/', 0x7e, 0x7f, 0x80, 0xbf, 0xc0, 0xc3, 0xf4, 0xff];

/// Characters of two to four bytes, and what is none: too long a form, a number kept for UTF-16, one above the last, parts.
pub const SEQUENCES: [&[u8]; 10] = [
    b"\xc3\xa9",
    b"\xc2\x80",
    b"\xe2\x82\xac",
    b"\xf4\x8f\xbf\xbf",
    b"\xc0\x80",
    b"\xed\xa0\x80",
    b"\xf4\x90\x80\x80",
    b"\xc3",
    b"\xe2\x82",
    b"\xc3/\xa9",
];
