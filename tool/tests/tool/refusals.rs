//! Every refusal that a command can meet: its number, its words, its advice, and the number that the tool leaves with.
use crate::support::Bench;

/// The first line on the standard error; a usage line is followed by where help is.
fn first_line(bench: &Bench, words: &[&str]) -> (i32, String) {
    let run = bench.run(words);
    assert_eq!(run.out, "", "{words:?}");
    (run.code, run.err.lines().next().unwrap_or_default().to_string())
}

#[test]
fn refusal_1_names_what_is_wrong_with_the_file() {
    let bench = Bench::with_card();
    bench.file("empty.img", b"");
    bench.fails(&["ls", "empty.img"], 1, "mfs: empty.img: refused 1: the file is empty: 'mfs format --blocks N' makes a new one");
    bench.file("odd.img", &[0; 1000]);
    let odd =
        "mfs: odd.img: refused 1: 1000 bytes are not whole blocks of 512: 488 are left over: was the image read to its end?";
    bench.fails(&["ls", "odd.img"], 1, odd);
    let past =
        "mfs: card.img: refused 1: a superblock in block 4198 leaves no volume in 4200 blocks: use another -k, or leave it out";
    bench.fails(&["-k", "4198", "ls", "card.img"], 1, past);
    let file = std::fs::File::create(bench.path("huge.img")).expect("a file");
    file.set_len(8_388_609 * 512).expect("a sparse file");
    let huge = "mfs: huge.img: refused 1: 8388609 blocks are more than the 8388608 (4 GiB) that an image can have: \
                cut the volume's part out of it, for instance with dd";
    bench.fails(&["ls", "huge.img"], 1, huge);
}

#[test]
fn refusal_2_says_where_the_mark_is_or_what_the_card_is() {
    let bench = Bench::with_card();
    bench.fails(&["-k", "9", "df", "card.img"], 1, "mfs: card.img: refused 2: no MFS mark at block 9; found at 8: use -k 8");
    bench.file("zero.img", &[0; 51_200]);
    let no_mark = |place: &str| {
        format!(
            "mfs: zero.img: refused 2: no MFS mark {place}: \
                 is this an MFS card? 'mfs format' makes it one, and drops what it holds"
        )
    };
    bench.fails(&["ls", "zero.img"], 1, &no_mark("in any block"));
    bench.fails(&["-k", "8", "ls", "zero.img"], 1, &no_mark("at block 8, nor at another"));
    let (unknown, known) = if model::Known::TODAY.version_1 { (3, "1 and 2") } else { (1, "2") };
    bench.patch("card.img", 8 * 512 + 8, &[unknown]);
    let version = format!(
        "mfs: card.img: refused 2: the superblock at block 8 has version {unknown}; this tool knows version {known}: \
         an older or newer tool may read it"
    );
    for words in [&["ls", "card.img"][..], &["check", "card.img"], &["mkdir", "card.img", "/d"], &["map", "card.img"]] {
        bench.fails(words, 1, &version);
    }
    bench.patch("card.img", 8 * 512 + 8, &[2, 1]);
    let code = "mfs: card.img: refused 2: the superblock at block 8 has size code 1, and not 0: use another --code or -k, or leave them out";
    bench.fails(&["-k", "8", "ls", "card.img"], 1, code);
    bench.patch("card.img", 8 * 512 + 9, &[2]);
    bench.fails(&["ls", "card.img"], 1, "mfs: card.img: refused 2: size code 2 is unknown: a newer tool may read it");
}

#[test]
fn refusal_3_tells_both_counts() {
    let bench = Bench::with_card();
    let whole = bench.read("card.img");
    bench.file("cut.img", &whole[..4000 * 512]);
    let cut = "mfs: cut.img: refused 3: the superblock says 4200 blocks, and the image has 4000: was the card read to its end?";
    bench.fails(&["ls", "cut.img"], 1, cut);
    bench.patch("card.img", 8 * 512 + 10, &11u32.to_be_bytes());
    let few = "mfs: card.img: refused 3: 11 blocks with the superblock in block 8 leave no data area that can be: \
               one block more or less is often enough";
    bench.fails(&["df", "card.img"], 1, few);
}

#[test]
fn refusals_of_paths() {
    let bench = Bench::with_street();
    bench.file("f", b"x");
    let (code, line) = first_line(&bench, &["mkdir", "card.img", "/a\u{1}b"]);
    assert!(code == 1 && line.starts_with("mfs: card.img:/a\\x01b: refused 4: the path is over 1024 bytes"), "{line}");
    assert!(line.ends_with(": give it another name on the card"), "{line}");
    let not_found = "nothing has that name, or the name is empty: 'mfs ls card.img /street' shows what is there";
    bench.fails(&["cat", "card.img", "/street/x"], 1, &format!("mfs: card.img:/street/x: refused 5: {not_found}"));
    bench.fails(&["rm", "card.img", "/street/x/y"], 1, &format!("mfs: card.img:/street/x/y: refused 5: {not_found}"));
    let no_dir = "mfs: card.img:/none/f: refused 5: a directory on the way is not there: 'mfs mkdir -p' makes it";
    bench.fails(&["put", "card.img", "f", "/none/"], 1, no_dir);
    let kind = "a part of the path is no directory, or what it leads to is of the wrong kind: \
                'mfs ls -l card.img /street' shows what is what";
    bench.fails(&["cat", "card.img", "/street/old"], 1, &format!("mfs: card.img:/street/old: refused 6: {kind}"));
    bench.fails(&["put", "card.img", "f", "/street/water/x"], 1, &format!("mfs: card.img:/street/water/x: refused 6: {kind}"));
    let exists = "mfs: card.img:/street: refused 7: the name exists already: remove it first, or choose another name";
    bench.fails(&["mkdir", "card.img", "/street"], 1, exists);
    let long = format!("/{}", "n".repeat(256));
    let (code, line) = first_line(&bench, &["mkdir", "card.img", &long]);
    assert!(
        code == 1 && line.ends_with("refused 8: the new name is empty or over 255 bytes: choose a name of 1 to 255 bytes"),
        "{line}"
    );
    let full = "mfs: card.img:/street: refused 14: the directory to delete has entries: remove what is in it first, or use -r";
    bench.fails(&["rm", "card.img", "/street"], 1, full);
    let deep = "/d".repeat(17);
    let (code, line) = first_line(&bench, &["mkdir", "-p", "card.img", &deep]);
    assert!(
        code == 1 && line.contains("refused 15: the new directory would be at depth 17: directories lie at most 16 deep"),
        "{line}"
    );
}

#[test]
fn refusal_9_counts_what_is_wanted_and_what_is_there() {
    let bench = Bench::with_card();
    bench.file("all", &vec![7; 4094 * 508]);
    bench.ok(&["put", "card.img", "all"]);
    bench.file("two", &[1; 600]);
    bench.fails(
        &["put", "card.img", "two"],
        1,
        "mfs: card.img:/two: refused 9: needs 2 blocks, 1 is in reach: remove something, or take a larger card",
    );
    bench.fails(
        &["append", "card.img", "two", "/all"],
        1,
        "mfs: card.img:/all: refused 9: needs 2 blocks, 1 is in reach: remove something, or take a larger card",
    );
    bench.file("one", b"1");
    bench.ok(&["put", "card.img", "one"]);
    bench.fails(
        &["mkdir", "card.img", "/d"],
        1,
        "mfs: card.img:/d: refused 9: needs 1 block, 0 are in reach: remove something, or take a larger card",
    );
    // Replacing needs only what the old file has not.
    bench.file("all", &vec![8; 4094 * 508]);
    bench.ok(&["put", "card.img", "all"]);
    bench.ok(&["check", "card.img"]);
}

#[test]
fn the_wish_for_room_counts_a_directory_that_must_grow() {
    let bench = Bench::with_card();
    bench.file("f", b"x");
    // Two names of 230 bytes fill the root's only block.
    let names = ["a", "b", "c"].map(|letter| format!("/{}", letter.repeat(230)));
    bench.ok(&["mkdir", "card.img", &names[0], &names[1]]);
    bench.file("all", &vec![7; 4091 * 508]);
    let path = format!("{}/all", names[0]);
    bench.ok(&["put", "card.img", "all", &path]);
    assert!(bench.ok(&["df", "card.img"]).ends_with("2 blocks in reach of allocation\n"));
    bench.file("g", &[1; 509]);
    let (code, line) = first_line(&bench, &["put", "card.img", "g", &names[2]]);
    assert!(code == 1 && line.contains("refused 9: needs 3 blocks, 2 are in reach"), "{line}");
    bench.ok(&["put", "card.img", "f", &names[2]]);
    assert!(bench.ok(&["df", "card.img"]).ends_with("0 blocks in reach of allocation\n"));
}

#[test]
fn refusal_10_comes_before_the_file_is_read() {
    let bench = Bench::with_card();
    let file = std::fs::File::create(bench.path("vast")).expect("a file");
    file.set_len(1 << 31).expect("a sparse file");
    let line =
        "mfs: card.img:/vast: refused 10: 2147483648 bytes are more than the 2147483647 that a file can have: split the file";
    bench.fails(&["put", "card.img", "vast"], 1, line);
}

#[test]
fn refusal_17_leaves_with_a_number_of_its_own() {
    let bench = Bench::with_street();
    bench.patch("card.img", 8 * 512 + 14, &[0, 0, 0, 1]);
    let line = "mfs: card.img: refused 17: the volume is damaged: \
                'mfs check --explain card.img' says where; 'mfs get' may still save files";
    bench.fails(&["mkdir", "card.img", "/d"], 4, line);
    let run = bench.run(&["check", "card.img"]);
    assert_eq!((run.code, run.out.as_str(), run.err.trim_end()), (4, "card.img: damaged\n", line));
    // What can be read is read.
    assert_eq!(bench.ok(&["cat", "card.img", "/street/water"]), "00000041\n");
}

#[test]
fn a_file_that_breaks_off_is_saved_in_part() {
    let bench = Bench::new();
    bench.ok(&["format", "--blocks", "45100", "card.img"]);
    bench.file("long", &vec![b'x'; 18 << 20]);
    bench.ok(&["put", "card.img", "long"]);
    // The chain ends early, within the second chunk of 16 MiB that is read.
    bench.patch("card.img", (23 + 35_000) * 512, &[0, 0, 0, 0]);
    let run = bench.run(&["get", "card.img", "/long", "saved"]);
    let line = "mfs: card.img:/long: refused 17: the volume is damaged: its first 16777216 bytes are in saved.mfs-part\n";
    assert_eq!((run.code, run.err.as_str()), (4, line));
    assert!(!bench.has("saved") && bench.read("saved.mfs-part") == [b'x'; 16 << 20]);
}

#[test]
fn directories_that_hold_each_other_end_a_walk() {
    let bench = Bench::with_card();
    bench.ok(&["mkdir", "-p", "card.img", "/a/b"]);
    // The entry of b, the first of the block of a, leads back to a.
    let blocks = bench.ok(&["--json", "dump", "card.img", "block", "13"]);
    assert!(blocks.contains("\"hex\":\"00000000000000000e"), "{blocks}");
    bench.patch("card.img", 13 * 512 + 5, &[0, 0, 0, 13]);
    for words in [&["ls", "-R", "card.img"][..], &["tree", "card.img"], &["get", "-r", "card.img", "/a", "out"]] {
        let run = bench.run(words);
        let meant = "refused 17: the directories hold each other, or are too deep: ";
        assert!(run.err.contains(meant) && [4, 5].contains(&run.code), "{words:?}: {run:?}");
    }
}

#[test]
fn a_log_that_cannot_be_written_changes_nothing() {
    let bench = Bench::with_card();
    let before = bench.read("card.img");
    // Something stands where the log would go, and is no log.
    std::fs::create_dir(bench.path("card.img.mfs-undo")).expect("a folder");
    let run = bench.run(&["mkdir", "card.img", "/d"]);
    assert_eq!((run.code, run.out.as_str()), (3, ""), "{run:?}");
    assert!(run.err.contains("card.img.mfs-undo: Is a directory"), "{run:?}");
    assert!(bench.read("card.img") == before);
}

#[test]
fn a_command_line_that_makes_no_sense() {
    let bench = Bench::with_card();
    let cases: [(&[&str], &str); 16] = [
        (&[], "mfs: which command?"),
        (&["lss", "card.img"], "mfs: there is no command 'lss'"),
        (&["ls"], "mfs ls: too few words: it is used as 'mfs ls [-l] [-R] IMAGE [PATH...]'"),
        (&["df", "card.img", "x"], "mfs df: too many words: it is used as 'mfs df IMAGE'"),
        (&["room", "card.img", "few"], "mfs room: 'few' is no number of blocks"),
        (&["ls", "--blocks", "5", "card.img"], "mfs ls: there is no option --blocks here"),
        (&["ls", "-x", "card.img"], "mfs ls: there is no option -x here"),
        (&["ls", "-k", "eight", "card.img"], "mfs ls: -k wants a number, not 'eight'"),
        (&["put", "--at", "5", "card.img", "f"], "mfs put: --at takes one file and the path of the one that it goes into"),
        (&["put", "-r", "--at", "5", "card.img", "f", "/f"], "mfs put: -r is for folders, and --at for one file"),
        (&["put", "--at", "-1", "card.img", "f", "/f"], "mfs put: --at wants a number, not '-1'"),
        (&["rm", "-r", "card.img", "/"], "mfs rm: the root cannot be removed: 'mfs format --force' empties a card"),
        (&["dump", "card.img", "all"], "mfs dump: what? One of 'superblock', 'bitmap', 'block N'"),
        (&["dump", "card.img", "block", "4200"], "mfs dump: there is no block 4200: the image has 4200"),
        (&["help", "me"], "mfs help: there is no command 'me'"),
        (&["put", "card.img", "a", "b", "/c"], "mfs put: many files go into a directory, and /c is none"),
    ];
    for (words, line) in cases {
        assert_eq!(first_line(&bench, words), (2, line.to_string()), "{words:?}");
    }
}

#[test]
fn files_of_the_host_that_fail() {
    let bench = Bench::with_card();
    bench.fails(&["ls", "none.img"], 3, "mfs: none.img: No such file or directory (os error 2)");
    bench.fails(&["mkdir", "none.img", "/d"], 3, "mfs: none.img: No such file or directory (os error 2)");
    bench.fails(&["ls", "."], 3, "mfs: .: is a folder, and no image");
    bench.fails(&["mkdir", ".", "/d"], 3, "mfs: .: Is a directory (os error 21)");
    bench.fails(
        &["map", "--svg", "no/such/folder.svg", "card.img"],
        3,
        "mfs: no/such/folder.svg: No such file or directory (os error 2)",
    );
    let run = bench
        .command(&["ls", "card.img"])
        .stdout(std::fs::File::create("/dev/full").expect("a full disk"))
        .output()
        .expect("a run");
    // An empty root prints nothing, so nothing can fail.
    assert_eq!(run.status.code(), Some(0));
    let run = bench
        .command(&["info", "card.img"])
        .stdout(std::fs::File::create("/dev/full").expect("a full disk"))
        .output()
        .expect("a run");
    assert_eq!(run.status.code(), Some(3));
    assert_eq!(String::from_utf8_lossy(&run.stderr), "mfs: standard output: No space left on device (os error 28)\n");
}
