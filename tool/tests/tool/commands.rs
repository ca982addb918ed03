//! Each command, on a card as an engineer has it.
use crate::support::{Bench, TIME};
use std::os::unix::fs::symlink;

const GAS_ADVICE: &str = "'mfs ls card.img /street' shows what is there";

#[test]
fn ls_lists_names_kinds_sizes_and_times() {
    let bench = Bench::with_street();
    assert_eq!(bench.ok(&["ls", "card.img"]), "street\n");
    // Slashes at the end, and none at the start, mean the same directory.
    for path in ["/street", "/street/", "street", "street///"] {
        assert_eq!(bench.ok(&["ls", "card.img", path]), "old\nwater\n");
    }
    let long = "d     43  2023-11-14 22:13:20  old\nf      9  2023-11-14 22:13:20  water\n";
    assert_eq!(bench.ok(&["ls", "-l", "card.img", "/street"]), long);
    assert_eq!(bench.ok(&["ls", "card.img", "/street/water"]), "/street/water\n");
    assert_eq!(bench.ok(&["ls", "-lR", "card.img", "/street/old"]).lines().nth(1), Some("f   1.1K  2023-11-14 22:13:20  gas"));
    assert_eq!(bench.ok(&["ls", "-R", "card.img"]), "/:\nstreet\n\n/street:\nold\nwater\n\n/street/old:\ngas\nvoid\n");
    assert_eq!(bench.ok(&["ls", "card.img", "/street/old", "/"]), "/street/old:\ngas\nvoid\n\n/:\nstreet\n");
}

#[test]
fn tree_draws_branches_and_counts() {
    let bench = Bench::with_street();
    let drawn = "/\n└── street/\n    ├── old/\n    │   ├── gas\n    │   └── void\n    └── water\n\n2 directories, 3 files\n";
    assert_eq!(bench.ok(&["tree", "card.img"]), drawn);
    assert_eq!(bench.ok(&["tree", "card.img", "/street/old/"]), "/street/old\n├── gas\n└── void\n\n0 directories, 2 files\n");
}

#[test]
fn info_tells_of_the_volume_and_of_an_entry() {
    let bench = Bench::with_street();
    let volume = bench.ok(&["info", "card.img"]);
    assert!(volume.starts_with("card.img: MFS volume, 2.0M\n      4200  blocks of the image\n"), "{volume}");
    assert!(volume.contains("\n        12  first data block (root directory)\n      4096  data blocks in reach"), "{volume}");
    let entry = bench.ok(&["info", "card.img", "/street/old/gas"]);
    let meant = "/street/old/gas: file\n      1200  bytes (1.1K)\n1700000000  last changed (2023-11-14 22:13:20 UTC)\n";
    assert!(entry.starts_with(meant) && entry.ends_with("  first block\n"), "{entry}");
    assert!(bench.ok(&["info", "card.img", "/"]).starts_with("/: directory\n        24  bytes"));
}

#[test]
fn df_tells_what_is_free_and_what_is_in_reach() {
    let bench = Bench::with_street();
    // 12 blocks before the data area; root, street, old, void and water have one each, gas has three.
    let shown = bench.ok(&["df", "card.img"]);
    assert_eq!(shown.lines().nth(1), Some("    2.0M      10K     2.0M      1.9M    1%  card.img"));
    assert_eq!(shown.lines().nth(2), Some("4088 blocks in reach of allocation"));
}

#[test]
fn room_says_whether_and_by_how_many_bytes() {
    let bench = Bench::with_street();
    // The first eight of 4,096 blocks are taken.
    for (count, told) in [
        ("0", "yes: 0 blocks in reach (0 bytes of the bitmap read)\n"),
        ("1", "yes: 1 block in reach (2 bytes of the bitmap read)\n"),
        ("4088", "yes: 4088 blocks in reach (512 bytes of the bitmap read)\n"),
        ("4089", "no: fewer than 4089 blocks in reach (512 bytes of the bitmap read)\n"),
    ] {
        assert_eq!(bench.ok(&["room", "card.img", count]), told);
    }
}

#[test]
fn cat_writes_the_bytes() {
    let bench = Bench::with_street();
    assert_eq!(bench.ok(&["cat", "card.img", "/street/water", "street/water/"]), "00000041\n00000041\n");
    assert_eq!(bench.ok(&["cat", "card.img", "/street/old/void"]), "");
    let run = bench.run(&["cat", "card.img", "/street/water", "/street/gas"]);
    assert_eq!((run.code, run.out.as_str()), (5, "00000041\n"));
    let told = format!(
        "mfs: card.img:/street/gas: refused 5: nothing has that name, or the name is empty: {GAS_ADVICE}\nmfs: 1 done, 1 not\n"
    );
    assert_eq!(run.err, told);
}

#[test]
fn get_copies_files_and_whole_directories() {
    let bench = Bench::with_street();
    bench.ok(&["get", "card.img", "/street/water"]);
    assert_eq!(bench.read("water"), b"00000041\n");
    bench.ok(&["get", "card.img", "/street/old/gas", "/street/water", "street"]);
    assert_eq!(bench.read("street/gas"), [b'g'; 1200]);
    bench.ok(&["get", "-r", "card.img", "/street", "copy"]);
    assert_eq!(bench.read("copy/water"), b"00000041\n");
    assert_eq!(bench.read("copy/old/gas"), [b'g'; 1200]);
    assert_eq!(bench.read("copy/old/void"), b"");
    assert!(!bench.has("copy/water.mfs-part"));
    bench.fails(
        &["get", "card.img", "/street", "again"],
        1,
        "mfs: card.img:/street: refused 6: is a directory: use -r to fetch it with all in it",
    );
}

#[test]
fn get_stays_in_its_folder() {
    let bench = Bench::with_card();
    bench.ok(&["mkdir", "-p", "card.img", "/a/.."]);
    bench.file("f", b"x");
    bench.ok(&["put", "card.img", "f", "/a/../out"]);
    bench.ok(&["put", "card.img", "f", "/a/in"]);
    let run = bench.run(&["get", "-r", "card.img", "/a"]);
    let told = "mfs: /a/..: the host has no such name for a file: fetch it by itself, under another name\nmfs: 2 done, 1 not\n";
    assert_eq!((run.code, run.err.as_str()), (5, told));
    assert!(bench.has("a/in") && !bench.has("out"));
}

#[test]
fn put_makes_replaces_and_empties_files() {
    let bench = Bench::with_street();
    bench.file("new", b"00000042\n");
    bench.ok(&["put", "card.img", "new", "/street/water"]);
    assert_eq!(bench.ok(&["cat", "card.img", "/street/water"]), "00000042\n");
    // Into a directory, and into the root if no path is given.
    bench.ok(&["put", "card.img", "new", "/street/"]);
    bench.ok(&["put", "--time", "5", "card.img", "new"]);
    assert_eq!(bench.ok(&["ls", "-l", "card.img"]).lines().nth(1), Some("f      9  1970-01-01 00:00:05  new"));
    assert_eq!(bench.ok(&["cat", "card.img", "/street/new", "/new"]), "00000042\n00000042\n");
    bench.file("none", b"");
    bench.ok(&["put", "card.img", "none", "/street/water"]);
    assert_eq!(bench.ok(&["ls", "-l", "card.img", "/street/water"]).split_whitespace().nth(1), Some("0"));
    assert_eq!(bench.run_with(&["put", "card.img", "-", "/street/typed"], b"by hand").code, 0);
    assert_eq!(bench.ok(&["cat", "card.img", "/street/typed"]), "by hand");
    bench.ok(&["check", "--explain", "card.img"]);
}

#[test]
fn names_may_have_accents() {
    let bench = Bench::with_card();
    bench.file("Skj\u{f8}rn\u{e9}", b"7");
    bench.ok(&["put", "card.img", "Skj\u{f8}rn\u{e9}"]);
    assert_eq!(bench.ok(&["ls", "card.img"]), "Skj\u{f8}rn\u{e9}\n");
    bench.ok(&["get", "card.img", "/Skj\u{f8}rn\u{e9}", "copy"]);
    assert_eq!(bench.read("copy"), b"7");
    assert_eq!(bench.ok(&["check", "--explain", "card.img"]), "card.img: well formed\n  0 directories, 1 file, 0 devices\n");
}

#[test]
fn put_of_many_does_what_it_can() {
    let bench = Bench::with_card();
    bench.file("many/a", b"a");
    bench.file("many/b", b"b");
    bench.file("many/tab\there", b"c");
    symlink(".", bench.path("many/round")).expect("a link");
    let run = bench.run(&["put", "-r", "card.img", "many"]);
    let told = "mfs: many/round: a link to a folder is left out\n\
                mfs: card.img:/many/tab\\x09here: refused 4: ";
    assert!(run.code == 5 && run.err.starts_with(told) && run.err.ends_with("mfs: 3 done, 2 not\n"), "{run:?}");
    assert_eq!(bench.ok(&["ls", "card.img", "many"]), "a\nb\n");
    bench.fails(&["put", "card.img", "many"], 3, "mfs: many: is a folder: use -r to put it with all in it");
    bench.fails(&["put", "card.img", "gone"], 3, "mfs: gone: No such file or directory (os error 2)");
}

#[test]
fn append_adds_at_the_end_and_makes_the_file() {
    let bench = Bench::with_street();
    bench.file("more", b"00000042\n");
    bench.ok(&["append", "--time", TIME, "card.img", "more", "/street/water"]);
    assert_eq!(bench.ok(&["cat", "card.img", "/street/water"]), "00000041\n00000042\n");
    bench.ok(&["append", "card.img", "more", "/fresh"]);
    assert_eq!(bench.ok(&["cat", "card.img", "/fresh"]), "00000042\n");
    bench.file("none", b"");
    let before = bench.read("card.img");
    bench.ok(&["append", "card.img", "none", "/fresh"]);
    assert_eq!(bench.read("card.img"), before);
    assert_eq!(bench.run_with(&["append", "card.img", "-", "/fresh"], b"!").code, 0);
    assert_eq!(bench.ok(&["cat", "card.img", "/fresh"]), "00000042\n!");
}

#[test]
fn put_at_changes_bytes_and_keeps_the_tail() {
    let bench = Bench::with_street();
    bench.file("new", b"42");
    bench.ok(&["put", "--at", "6", "--time", "5", "card.img", "new", "/street/water"]);
    assert_eq!(bench.ok(&["cat", "card.img", "/street/water"]), "00000042\n");
    assert_eq!(bench.ok(&["ls", "-l", "card.img", "/street/water"]), "f      9  1970-01-01 00:00:05  /street/water\n");
    // Across the edge of two blocks, and to the very end.
    bench.file("long", &[b'x'; 600]);
    bench.ok(&["put", "--at=400", "card.img", "long", "/street/old/gas"]);
    bench.file("end", b"yz");
    bench.ok(&["put", "--at", "1198", "card.img", "end", "/street/old/gas"]);
    let gas = bench.ok(&["cat", "card.img", "/street/old/gas"]);
    assert_eq!(gas, [&"g".repeat(400)[..], &"x".repeat(600), &"g".repeat(198), "yz"].concat());
    assert_eq!(bench.run_with(&["put", "--at", "0", "card.img", "-", "/street/water"], b"1").code, 0);
    assert_eq!(bench.ok(&["cat", "card.img", "/street/water"]), "10000042\n");
    let before = bench.read("card.img");
    assert_eq!(
        bench.ok(&["put", "--dry-run", "--at", "1", "--time", "6", "card.img", "new", "/street/water"]),
        "would put /street/water (2 bytes)\nwould change 2 blocks\n"
    );
    let longer = "'mfs info card.img PATH' tells the file's size, and 'mfs append' makes it longer";
    let past = format!("mfs: card.img:/street/water: refused 19: the bytes would go past the end of the file: {longer}");
    bench.fails(&["put", "--at", "8", "card.img", "new", "/street/water"], 1, &past);
    let outside = format!("mfs: card.img:/street/water: refused 12: the target is outside the file: {longer}");
    bench.fails(&["put", "--at", "10", "card.img", "new", "/street/water"], 1, &outside);
    bench.file("none", b"");
    bench.fails(
        &["put", "--at", "0", "card.img", "none", "/street/water"],
        1,
        "mfs: card.img:/street/water: refused 13: there is no byte to write",
    );
    let run = bench.run(&["put", "--at", "0", "card.img", "new", "/street/none"]);
    assert!(run.code == 1 && run.err.contains("refused 5"), "{run:?}");
    assert!(bench.read("card.img") == before);
    bench.ok(&["check", "--explain", "card.img"]);
}

#[test]
fn mkdir_makes_one_or_all_on_the_way() {
    let bench = Bench::with_card();
    bench.ok(&["mkdir", "card.img", "/a", "/a/b/"]);
    bench.ok(&["mkdir", "-p", "card.img", "/a/b/c/d", "/a"]);
    assert_eq!(bench.ok(&["ls", "-R", "card.img", "/a/b"]), "/a/b:\nc\n\n/a/b/c:\nd\n\n/a/b/c/d:\n");
    bench.fails(
        &["mkdir", "card.img", "/x/y"],
        1,
        "mfs: card.img:/x/y: refused 5: a directory on the way is not there: use -p to make those, too",
    );
}

#[test]
fn rm_removes_one_or_all_within() {
    let bench = Bench::with_street();
    let empty = Bench::with_card();
    bench.ok(&["rm", "card.img", "/street/water"]);
    bench.ok(&["rm", "-r", "--time", TIME, "card.img", "/street"]);
    assert_eq!(bench.ok(&["ls", "card.img"]), "");
    assert_eq!(bench.ok(&["dump", "card.img", "superblock"]), empty.ok(&["dump", "card.img", "superblock"]));
    assert_eq!(bench.ok(&["dump", "card.img", "bitmap"]), empty.ok(&["dump", "card.img", "bitmap"]));
    bench.ok(&["check", "card.img"]);
}

#[test]
fn a_dry_run_stores_nothing() {
    let bench = Bench::with_street();
    let before = bench.read("card.img");
    bench.file("new", b"12");
    assert_eq!(bench.ok(&["put", "--dry-run", "card.img", "new"]), "would put /new (2 bytes)\nwould change 4 blocks\n");
    let removed = bench.ok(&["rm", "-r", "--dry-run", "card.img", "/street/old"]);
    assert_eq!(removed.lines().next(), Some("would rm /street/old/gas"));
    assert_eq!(bench.ok(&["mkdir", "--dry-run", "card.img", "/d"]), "would mkdir /d\nwould change 3 blocks\n");
    assert!(bench.ok(&["append", "--dry-run", "card.img", "new", "/street/water"]).starts_with("would append /street/water"));
    let formatted = bench.ok(&["format", "--dry-run", "--force", "card.img"]);
    assert_eq!(formatted, "card.img: would be formatted, 4200 blocks (2.0M), superblock at block 8\n");
    bench.ok(&["format", "--dry-run", "--blocks", "4200", "other.img"]);
    assert!(!bench.has("other.img") && !bench.has("other.img.mfs-new"));
    assert!(bench.read("card.img") == before, "a dry run has changed the card");
}

#[test]
fn dump_shows_parts_as_they_stand() {
    let bench = Bench::with_street();
    let superblock = bench.ok(&["dump", "card.img", "superblock"]);
    assert!(superblock.contains("signature    MOROS FS\n") && superblock.contains("used count   20\n"), "{superblock}");
    let bitmap = bench.ok(&["dump", "card.img", "bitmap"]);
    let runs =
        "       12 to        19  used  (8)\n       20 to      4107  free  (4088)\n     4108 to      4199  out of reach  (92)\n";
    assert_eq!(bitmap.split_once('\n').map(|(_, runs)| runs), Some(runs));
    let block = bench.ok(&["dump", "card.img", "block", "8"]);
    let first = "block 8: superblock\n00000000  4d 4f 52 4f 53 20 46 53  02 00 00 00 10 68 00 00  |MOROS FS.....h..|\n";
    assert!(block.starts_with(first), "{block}");
    assert_eq!(block.lines().count(), 33);
}

#[test]
fn map_draws_the_card() {
    let bench = Bench::with_street();
    let drawn = bench.ok(&["map", "card.img"]);
    let lines: Vec<&str> = drawn.lines().collect();
    assert_eq!(lines[0], "card.img: 4 blocks a cell");
    // Blocks 0 to 7, the superblock with the bitmap, directories, files.
    assert!(lines[1].starts_with("        0   Sdf...") || lines[1].starts_with("        0   Sdd..."), "{drawn}");
    assert!(lines[17].ends_with("-----"), "{drawn}");
    assert!(lines[18].starts_with("S superblock   d directory") && lines[18].ends_with("- free, out of reach"), "{drawn}");
    bench.ok(&["map", "--svg", "card.svg", "card.img"]);
    let svg = String::from_utf8(bench.read("card.svg")).expect("text");
    assert!(svg.starts_with("<svg ") && svg.ends_with("</svg>\n"));
    assert!(svg.contains("<title>block 8: superblock</title>") && svg.contains(": file /street/old/gas</title>"), "{svg}");
    assert!(svg.contains("<title>block 12: directory /</title>"), "{svg}");
}

#[test]
fn help_speaks_of_every_command() {
    let bench = Bench::new();
    let overview = bench.ok(&["help"]);
    assert_eq!(bench.ok(&["--help"]), overview);
    let commands: Vec<&str> = overview.lines().skip(3).take_while(|line| !line.is_empty()).collect();
    assert_eq!(commands.len(), 16);
    for line in commands {
        let name = line.split_whitespace().next().expect("a name");
        let about = bench.ok(&["help", name]);
        assert!(about.starts_with(&format!("mfs {name}")), "{about}");
        assert_eq!(bench.ok(&[name, "--help"]), about);
    }
    assert_eq!(bench.ok(&["--version"]), format!("mfs {}\n", env!("CARGO_PKG_VERSION")));
}

#[test]
fn the_manual_and_the_completion_know_every_command_and_option() {
    let folder = std::path::Path::new(env!("CARGO_MANIFEST_DIR"));
    let read = |name: &str| std::fs::read_to_string(folder.join(name)).unwrap_or_else(|error| panic!("{name}: {error}"));
    let (manual, completion, readme) = (read("man/mfs.1"), read("completions/mfs.bash"), read("README.md"));
    let bench = Bench::new();
    for line in bench.ok(&["help"]).lines().skip(3).take_while(|line| !line.is_empty()) {
        let name = line.split_whitespace().next().expect("a name");
        assert!(manual.contains(&format!("\n.SS {name}\n")), "the manual has no {name}");
        assert!(
            completion.split_whitespace().any(|word| word.trim_matches(['"', '\'', ')']) == name),
            "the completion has no {name}"
        );
        assert!(readme.contains(&format!("mfs {name}")), "the README has no {name}");
        let about = bench.ok(&["help", name]);
        let synopsis = about.lines().next().expect("a synopsis");
        for option in synopsis.split(['[', ']', ' ']).filter(|word| word.starts_with('-')) {
            assert!(completion.contains(option), "the completion has no {option} of {name}");
            assert!(manual.contains(&option.replace('-', "\\-")), "the manual has no {option} of {name}");
        }
    }
}
