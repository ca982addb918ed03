//! The size code of a card's blocks: 0 is blocks of 512 bytes, 1 of 1,024.
use crate::failure::Failure;

/// The codes that the library takes.
pub const CODES: [u8; 2] = [0, 1];

/// What `--code` says: a code, or none where the card itself is to say it.
pub fn accept(word: &str) -> Result<Option<u8>, Failure> {
    match word {
        "auto" => Ok(None),
        "0" => Ok(Some(0)),
        "1" => Ok(Some(1)),
        other => Err(Failure::Usage { reason: format!("--code takes 0, 1 or auto, not '{other}'"), command: None }),
    }
}

/// The words beside a card's size code.
pub fn words(code: u8) -> &'static str {
    match code {
        0 => "size code (0: 512 bytes)",
        _ => "size code (1: 1024 bytes)",
    }
}

/// What to say of a superblock at block `k` with another size code than the one that it was looked for by.
pub fn explain(found: u8, k: u32, asked: u8) -> (String, &'static str) {
    if CODES.contains(&found) {
        (
            format!("the superblock at block {k} has size code {found}, and not {asked}"),
            "use another --code or -k, or leave them out",
        )
    } else {
        (format!("size code {found} is unknown"), "a newer tool may read it")
    }
}
