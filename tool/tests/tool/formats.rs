//! `format`, and where the superblock is.
use crate::support::Bench;

#[test]
fn format_makes_a_file_or_takes_a_blank_one() {
    let bench = Bench::new();
    let said = bench.ok(&["format", "--blocks", "4200", "card.img"]);
    assert_eq!(said, "card.img: formatted, 4200 blocks (2.0M), superblock at block 8\n");
    assert_eq!(bench.read("card.img").len(), 4200 * 512);
    assert!(!bench.has("card.img.mfs-new") && !bench.has("card.img.mfs-undo"));
    bench.file("blank.img", &vec![0; 5000 * 512]);
    bench.ok(&["-k", "0", "format", "blank.img"]);
    bench.ok(&["-k", "0", "check", "blank.img"]);
    // The library's own answer on the same bytes.
    let mut meant = vec![0; 5000 * 512];
    mfs::format(&mut meant, 0, mfs::CODE_512).expect("a volume");
    assert!(bench.read("blank.img") == meant, "another image than the library's");
}

#[test]
fn format_drops_nothing_unasked() {
    let bench = Bench::with_street();
    let before = bench.read("card.img");
    bench.fails(
        &["format", "card.img"],
        1,
        "mfs: card.img: refused 7: it holds an MFS volume, at block 8: --force drops all that it holds",
    );
    bench.fails(
        &["-k", "9", "format", "card.img"],
        1,
        "mfs: card.img: refused 7: block 9 and those after are not blank: --force drops all that it holds",
    );
    assert!(bench.read("card.img") == before, "a refused format has changed the card");
    bench.ok(&["format", "--force", "card.img"]);
    assert_eq!(bench.ok(&["ls", "card.img"]), "");
    let run = bench.run(&["format", "--force", "--blocks", "5000", "card.img"]);
    assert_eq!(
        (run.code, run.err.lines().next().unwrap_or("")),
        (2, "mfs format: card.img has 4200 blocks: leave --blocks out, or remove the file to make another")
    );
    let run = bench.run(&["format", "none.img"]);
    assert_eq!(
        (run.code, run.err.lines().next().unwrap_or("")),
        (2, "mfs format: none.img is not there: give --blocks N to make it")
    );
}

#[test]
fn format_says_which_counts_cannot_be() {
    let bench = Bench::new();
    let no_area = |blocks| {
        format!(
            "mfs: card.img: refused 3: {blocks} blocks with the superblock in block 8 leave no data area that can be: \
                 take one block more or less"
        )
    };
    for blocks in ["11", "4108"] {
        bench.fails(&["format", "--blocks", blocks, "card.img"], 1, &no_area(blocks));
        assert!(!bench.has("card.img") && !bench.has("card.img.mfs-new"));
    }
    let run = bench.run(&["format", "--blocks", "100", "small.img"]);
    assert_eq!((run.code, run.err.as_str()), (0, "mfs: small.img: with fewer than 4096 blocks nothing can be created on it\n"));
    let line = "mfs: small.img:/d: refused 9: needs 1 block, 0 are in reach: \
                on a volume of fewer than 4096 blocks nothing can be created: make a larger one";
    bench.fails(&["mkdir", "small.img", "/d"], 1, line);
}

#[test]
fn the_mark_is_found_wherever_it_is() {
    let bench = Bench::new();
    bench.ok(&["-k", "8192", "format", "--blocks", "12500", "moros.img"]);
    let run = bench.run(&["mkdir", "moros.img", "/d"]);
    assert_eq!((run.code, run.err.as_str()), (0, "mfs: moros.img: superblock found at block 8192\n"));
    assert_eq!(bench.ok(&["--quiet", "ls", "moros.img"]), "d\n");
    assert_eq!(bench.ok(&["-k", "8192", "ls", "moros.img"]), "d\n");
    bench.fails(
        &["-k", "8", "ls", "moros.img"],
        1,
        "mfs: moros.img: refused 2: no MFS mark at block 8; found at 8192: use -k 8192",
    );
    bench.ok(&["format", "--blocks", "4200", "usual.img"]);
    assert_eq!(bench.run(&["-k", "auto", "ls", "usual.img"]).err, "mfs: usual.img: superblock found at block 8\n");
    assert_eq!(bench.run(&["ls", "usual.img"]).err, "");
}

#[test]
fn a_card_within_a_card_is_not_taken_for_it() {
    let bench = Bench::with_card();
    bench.ok(&["-k", "0", "format", "--blocks", "100", "-q", "inner.img"]);
    bench.ok(&["put", "card.img", "inner.img"]);
    assert_eq!(bench.ok(&["ls", "card.img"]), "inner.img\n");
}
