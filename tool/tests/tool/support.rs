//! A folder of its own for each test, and the tool run in it.
use std::fs;
use std::io::Write;
use std::path::{Path, PathBuf};
use std::process::{Child, Command, Output, Stdio};
use std::sync::atomic::{AtomicU32, Ordering};

pub const TIME: &str = "1700000000";

/// A folder that is removed at the end.
pub struct Bench {
    pub folder: PathBuf,
}

/// What a run of the tool left.
#[derive(Debug, PartialEq, Eq)]
pub struct Run {
    pub code: i32,
    pub out: String,
    pub err: String,
}

static FOLDERS: AtomicU32 = AtomicU32::new(0);

impl Bench {
    pub fn new() -> Bench {
        let number = FOLDERS.fetch_add(1, Ordering::Relaxed);
        let folder = std::env::temp_dir().join(format!("mfs-tool-test-{}-{number}", std::process::id()));
        fs::create_dir_all(&folder).expect("a folder for the test");
        Bench { folder }
    }

    /// With a formatted card of 4,200 blocks, `card.img`.
    pub fn with_card() -> Bench {
        let bench = Bench::new();
        bench.ok(&["format", "--blocks", "4200", "card.img"]);
        bench
    }

    /// With a card that has `/street/water` (9 bytes), `/street/old/gas` (1,200 bytes) and the empty `/street/old/void`.
    pub fn with_street() -> Bench {
        let bench = Bench::with_card();
        bench.file("street/water", b"00000041\n");
        bench.file("street/old/gas", &[b'g'; 1200]);
        bench.file("street/old/void", b"");
        bench.ok(&["put", "-r", "--time", TIME, "card.img", "street"]);
        bench
    }

    pub fn path(&self, name: &str) -> PathBuf {
        self.folder.join(name)
    }

    /// Makes a file of the host, with the folders on the way.
    pub fn file(&self, name: &str, bytes: &[u8]) {
        let path = self.path(name);
        fs::create_dir_all(path.parent().expect("a folder")).expect("folders");
        // A new file: some hosts write one that is cut and filled again to the disk at once, which takes long.
        let _ = fs::remove_file(&path);
        fs::write(path, bytes).expect("a file");
    }

    pub fn read(&self, name: &str) -> Vec<u8> {
        fs::read(self.path(name)).unwrap_or_else(|error| panic!("{name}: {error}"))
    }

    pub fn has(&self, name: &str) -> bool {
        self.path(name).exists()
    }

    /// Changes bytes of a file.
    pub fn patch(&self, name: &str, at: usize, bytes: &[u8]) {
        let mut image = self.read(name);
        image[at..at + bytes.len()].copy_from_slice(bytes);
        fs::write(self.path(name), image).expect("the file");
    }

    pub fn command(&self, words: &[&str]) -> Command {
        command_in(&self.folder, words)
    }

    pub fn run(&self, words: &[&str]) -> Run {
        Run::of(self.command(words).stdin(Stdio::null()).output().expect("the tool runs"))
    }

    /// Runs the tool with something on its standard input.
    pub fn run_with(&self, words: &[&str], input: &[u8]) -> Run {
        let mut child = self.start(words);
        child.stdin.take().expect("a pipe").write_all(input).expect("the tool reads");
        Run::of(child.wait_with_output().expect("the tool ends"))
    }

    /// Starts the tool with a pipe for its standard input, which is open as long as the child has it.
    pub fn start(&self, words: &[&str]) -> Child {
        let mut command = self.command(words);
        command.stdin(Stdio::piped()).stdout(Stdio::piped()).stderr(Stdio::piped()).spawn().expect("the tool runs")
    }

    /// A run that must do what it is asked, without a word on the standard error.
    pub fn ok(&self, words: &[&str]) -> String {
        let run = self.run(words);
        assert_eq!((run.code, run.err.as_str()), (0, ""), "{words:?}: {run:?}");
        run.out
    }

    /// A run that must fail with that number and that line on the standard error, and print nothing else.
    pub fn fails(&self, words: &[&str], code: i32, line: &str) {
        let run = self.run(words);
        assert_eq!((run.code, run.err.trim_end()), (code, line), "{words:?}: {run:?}");
        assert_eq!(run.out, "", "{words:?}");
    }
}

impl Drop for Bench {
    fn drop(&mut self) {
        let _ = fs::remove_dir_all(&self.folder);
    }
}

impl Run {
    pub fn of(output: Output) -> Run {
        Run {
            code: output.status.code().unwrap_or(-1),
            out: String::from_utf8_lossy(&output.stdout).into_owned(),
            err: String::from_utf8_lossy(&output.stderr).into_owned(),
        }
    }
}

/// The tool as it was built, run in a folder.
pub fn command_in(folder: &Path, words: &[&str]) -> Command {
    let mut command = Command::new(env!("CARGO_BIN_EXE_mfs"));
    command.current_dir(folder).args(words).env("NO_COLOR", "1");
    command
}
