//! Cards with blocks of 1,024 bytes, size code 1.
use crate::support::{Bench, TIME};

/// With a card of 8,300 such blocks, `card.img`, that has `/log` of 1,021 bytes.
fn with_log() -> Bench {
    let bench = Bench::new();
    let said = bench.ok(&["--code", "1", "format", "--blocks", "8300", "card.img"]);
    assert_eq!(said, "card.img: formatted, 8300 blocks (8.1M), superblock at block 8\n");
    assert_eq!(bench.read("card.img").len(), 8300 * 1024);
    bench.file("log", &[b'x'; 1021]);
    bench.ok(&["-q", "put", "--time", TIME, "card.img", "log"]);
    bench
}

#[test]
fn a_card_is_found_by_its_own_code() {
    let bench = with_log();
    for words in [&["ls", "card.img"][..], &["--code", "auto", "ls", "card.img"], &["--code", "1", "-k", "8", "ls", "card.img"]] {
        let run = bench.run(words);
        assert_eq!((run.code, run.out.as_str()), (0, "log\n"), "{words:?}");
    }
    let run = bench.run(&["ls", "card.img"]);
    assert_eq!(run.err, "mfs: card.img: superblock found at block 8, blocks of 1024 bytes\n");
    assert_eq!(bench.run(&["-k", "8", "ls", "card.img"]).err, "");
    let by_0 = "mfs: card.img: refused 2: no MFS mark at block 8; found at 16: use -k 16";
    assert!(bench.run(&["--code", "0", "-k", "8", "ls", "card.img"]).err.starts_with(&by_0[..46]));
}

#[test]
fn its_files_and_its_numbers() {
    let bench = with_log();
    bench.ok(&["-q", "check", "card.img"]);
    bench.ok(&["-q", "get", "card.img", "/log", "back"]);
    assert_eq!(bench.read("back"), [b'x'; 1021]);
    let info = bench.ok(&["-q", "info", "card.img"]);
    for line in [
        "      8300  blocks of the image",
        "        15  blocks used",
        "        12  first data block (root directory)",
        "      8192  data blocks in reach of allocation",
        "         1  size code (1: 1024 bytes)",
    ] {
        assert!(info.lines().any(|told| told == line), "{line}\n{info}");
    }
    bench.ok(&["-q", "rm", "card.img", "/log"]);
    bench.ok(&["-q", "check", "card.img"]);
    let dump = bench.ok(&["-q", "dump", "card.img", "superblock"]);
    assert!(dump.contains("bytes 18-1023             zero\n"), "{dump}");
}

#[test]
fn its_damage_is_explained_by_its_own_blocks() {
    let bench = with_log();
    // The root's block is 12: a byte behind its one entry.
    bench.patch("card.img", 12 * 1024 + 1000, &[1]);
    let run = bench.run(&["-q", "check", "--explain", "card.img"]);
    assert_eq!(run.code, 4);
    assert!((run.out.clone() + &run.err).contains("byte 1000, behind the block's last entry, is not zero"), "{run:?}");
}

#[test]
fn codes_that_there_are() {
    let bench = Bench::with_card();
    bench.ok(&["--code", "0", "ls", "card.img"]);
    bench.ok(&["ls", "--code=auto", "card.img"]);
    let run = bench.run(&["--code", "2", "ls", "card.img"]);
    assert!(run.code == 2 && run.err.starts_with("mfs: --code takes 0, 1 or auto, not '2'\n"), "{run:?}");
}
