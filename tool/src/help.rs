//! The commands: what they are called, what they take, and what `help` says of them.
use crate::args::Call;
use crate::failure::Failure;
use crate::output::Output;
use crate::{changing, check, copying, df, dump, format, listing, map, removing};

pub struct Command {
    pub name: &'static str,
    /// As it stands in a usage line, without `mfs`.
    pub synopsis: &'static str,
    /// In one line.
    pub about: &'static str,
    pub details: &'static str,
    pub flags: &'static [&'static str],
    /// The fewest and the most words after the command.
    pub words: (usize, usize),
    pub run: fn(&Call) -> Result<(), Failure>,
}

impl Command {
    pub fn takes(&self, flag: &str) -> bool {
        self.flags.contains(&flag)
    }
}

const MANY: usize = usize::MAX;

pub const COMMANDS: [Command; 16] = [
    Command {
        name: "ls",
        synopsis: "ls [-l] [-R] IMAGE [PATH...]",
        about: "list a directory",
        details: "  -l  kind (d directory, f file, v device), size, time (UTC) and name\n  -R  directories within, too",
        flags: &["-l", "-R"],
        words: (1, MANY),
        run: listing::ls,
    },
    Command {
        name: "tree",
        synopsis: "tree IMAGE [PATH]",
        about: "list a directory and all within as a tree",
        details: "  Directories end in a slash.",
        flags: &[],
        words: (1, 2),
        run: listing::tree,
    },
    Command {
        name: "info",
        synopsis: "info IMAGE [PATH]",
        about: "the volume's numbers, or an entry's",
        details: "  With a PATH: kind, size, time and, of a file, the first block.",
        flags: &[],
        words: (1, 2),
        run: listing::info,
    },
    Command {
        name: "df",
        synopsis: "df IMAGE",
        about: "how much is used, free, and free in reach",
        details: "  Blocks past a volume's last whole 4096 may be free and yet never be allocated: they are out of reach.\n  \
                  So are the last blocks of a card of version 1 that the bitmap has no bit for.",
        flags: &[],
        words: (1, 1),
        run: df::df,
    },
    Command {
        name: "room",
        synopsis: "room IMAGE N",
        about: "are N blocks free in reach?",
        details: "  Says yes or no, and how many bytes of the bitmap were read to tell: no more than it takes.",
        flags: &[],
        words: (2, 2),
        run: df::room,
    },
    Command {
        name: "cat",
        synopsis: "cat IMAGE PATH...",
        about: "write files to the standard output",
        details: "  The bytes as they are, also with --json.",
        flags: &[],
        words: (2, MANY),
        run: copying::cat,
    },
    Command {
        name: "get",
        synopsis: "get [-r] IMAGE PATH... [TARGET]",
        about: "copy files from the card",
        details: "  TARGET is a file or folder of the host, the present folder if it is left out.\n  \
                  -r  directories with all in them; devices are left out\n  \
                  A file is written as TARGET.mfs-part and renamed when it is whole.",
        flags: &["-r"],
        words: (2, MANY),
        run: copying::get,
    },
    Command {
        name: "put",
        synopsis: "put [-r] [--at POSITION] [--time SECONDS] [--dry-run] IMAGE SOURCE... [PATH]",
        about: "copy files to the card",
        details: "  SOURCE is a file of the host, or - for the standard input. PATH is a file or directory on the\n  \
                  card, the root if it is left out. A file that is there is replaced.\n  \
                  -r         folders with all in them\n  \
                  --at       one SOURCE over the bytes that the file PATH has there, counted from 0: what\n             \
                  stands before and behind stays, and the file is no longer than it was\n  \
                  --time     seconds since 1970 for the entries, now if it is left out\n  \
                  --dry-run  do everything but store it",
        flags: &["-r", "--at", "--time", "--dry-run"],
        words: (2, MANY),
        run: copying::put,
    },
    Command {
        name: "append",
        synopsis: "append [--time SECONDS] [--dry-run] IMAGE SOURCE PATH",
        about: "add a file's bytes at the end of one on the card",
        details: "  SOURCE is a file of the host, or - for the standard input. PATH is made if it is not there.",
        flags: &["--time", "--dry-run"],
        words: (3, 3),
        run: copying::append,
    },
    Command {
        name: "mkdir",
        synopsis: "mkdir [-p] [--time SECONDS] [--dry-run] IMAGE PATH...",
        about: "make directories",
        details: "  -p  those on the way, too; it is no fault if they are there",
        flags: &["-p", "--time", "--dry-run"],
        words: (2, MANY),
        run: changing::mkdir,
    },
    Command {
        name: "rm",
        synopsis: "rm [-r] [--time SECONDS] [--dry-run] IMAGE PATH...",
        about: "remove files, devices and directories",
        details: "  -r  directories with all in them",
        flags: &["-r", "--time", "--dry-run"],
        words: (2, MANY),
        run: removing::rm,
    },
    Command {
        name: "format",
        synopsis: "format [--blocks N] [--force] [--dry-run] IMAGE",
        about: "make an empty volume",
        details: "  The superblock goes to block 8 unless -k says otherwise.\n  \
                  --blocks  of 512 bytes: makes the file, which is not there yet\n  \
                  --force   also where the file is not blank: drops all that it holds",
        flags: &["--blocks", "--force", "--dry-run"],
        words: (1, 1),
        run: format::format,
    },
    Command {
        name: "check",
        synopsis: "check [--explain] IMAGE...",
        about: "whether volumes are well formed",
        details: "  The verdict is that of the proved library.\n  \
                  --explain  where it is damage: every rule that is broken (W1 to W5), the block and the path",
        flags: &["--explain"],
        words: (1, MANY),
        run: check::check,
    },
    Command {
        name: "dump",
        synopsis: "dump IMAGE superblock|bitmap|block N",
        about: "show a part as it stands",
        details: "  The superblock's fields, the bitmap's runs of equal bits, or the bytes of any block.",
        flags: &[],
        words: (2, 3),
        run: dump::dump,
    },
    Command {
        name: "map",
        synopsis: "map [--svg FILE] IMAGE",
        about: "draw the card",
        details: "  Superblock, bitmap, directories, files, free blocks and those out of reach, with the findings of\n  \
                  check --explain marked.\n  --svg  into a file, as SVG",
        flags: &["--svg"],
        words: (1, 1),
        run: map::map,
    },
    Command {
        name: "help",
        synopsis: "help [COMMAND]",
        about: "say this, or more of a command",
        details: "  'mfs --version' says the version.",
        flags: &[],
        words: (0, 1),
        run: help,
    },
];

pub fn command(name: &str) -> Option<&'static Command> {
    COMMANDS.iter().find(|command| command.name == name)
}

const OPTIONS: &str = "\
Options, anywhere on the line:
  -k BLOCK|auto   the superblock's block; auto looks for it and says what it took, and so it is if -k is left out,
                  but without a word where it is block 8
  --code 0|1|auto the card's size code: 0 is blocks of 512 bytes, 1 of 1024; auto goes by the card's own mark, and so it
                  is if --code is left out, but a format takes 0 then
  --json          one object a line
  -q, --quiet     no progress bar, and no remark but that a change was rolled back
  --no-progress   no progress bar";

const CODES: &str = "\
Leaves with 0 done, 1 refused, 2 usage, 3 a file of the host, 4 damaged, 5 some done and some not,
70 a fault of the tool. A change is stored whole or not at all: an interrupted one is rolled back by the next run.";

pub fn help(call: &Call) -> Result<(), Failure> {
    let mut out = Output::new(&call.options);
    match call.words.first().map(|word| word.to_string_lossy()) {
        None => out.line(&overview())?,
        Some(word) if word == "version" => out.line(concat!("mfs ", env!("CARGO_PKG_VERSION")))?,
        Some(word) => {
            let about = command(&word).ok_or_else(|| call.usage(format!("there is no command '{word}'")))?;
            out.line(&format!("mfs {}\n\n{}\n\n{}\n\n{OPTIONS}", about.synopsis, about.about, about.details))?;
        }
    }
    out.end()
}

fn overview() -> String {
    let lines: Vec<String> = COMMANDS.iter().map(|command| format!("  {:<7} {}", command.name, command.about)).collect();
    format!("mfs [OPTION...] COMMAND IMAGE ...\n\nCommands:\n{}\n\n{OPTIONS}\n\n{CODES}", lines.join("\n"))
}
