//! The command line.
use crate::code;
use crate::failure::Failure;
use crate::help::{self, Command};
use std::ffi::{OsStr, OsString};
use std::os::unix::ffi::OsStrExt;
use std::path::Path;

/// Where the superblock is.
#[derive(Clone, Copy, Debug, PartialEq, Eq)]
pub enum Place {
    /// Where the mark is found, and no word of it where that is the usual block.
    Usual,
    /// Where the mark is found.
    Auto,
    Block(u32),
}

/// Options that every command takes.
#[derive(Clone, Debug)]
pub struct Options {
    pub place: Place,
    /// The card's size code; none where it is found with the mark, or 0 for a format.
    pub code: Option<u8>,
    pub json: bool,
    pub quiet: bool,
    pub progress: bool,
}

/// Options of one command or another.
#[derive(Clone, Debug, Default)]
pub struct Flags {
    pub long: bool,
    pub recursive: bool,
    pub parents: bool,
    pub dry_run: bool,
    pub force: bool,
    pub explain: bool,
    /// Where in a file bytes are put over those that are there.
    pub at: Option<u32>,
    pub time: Option<u64>,
    pub blocks: Option<u32>,
    pub svg: Option<OsString>,
}

/// A command with all it was given.
pub struct Call {
    pub command: &'static Command,
    pub options: Options,
    pub flags: Flags,
    pub words: Vec<OsString>,
}

impl Call {
    /// The image's file: the first word, which every command but `help` has.
    pub fn image(&self) -> &Path {
        Path::new(&self.words[0])
    }

    pub fn usage(&self, reason: impl Into<String>) -> Failure {
        Failure::usage(self.command.name, reason)
    }
}

/// A path on the card: slashes at its end say nothing more, and a listing would not take them.
pub fn card_path(word: &OsStr) -> Vec<u8> {
    let bytes = word.as_bytes();
    let end = bytes.iter().rposition(|&byte| byte != b'/').map_or(0, |last| last + 1);
    if end == 0 {
        return b"/".to_vec();
    }
    let start: &[u8] = if bytes[0] == b'/' { b"" } else { b"/" };
    [start, &bytes[..end]].concat()
}

/// Whether failures, that of the command line too, are told as objects.
pub fn wants_json(words: &[OsString]) -> bool {
    words.iter().take_while(|word| *word != "--").any(|word| word == "--json")
}

/// Words and options in any order; `--` ends the options.
pub fn parse(words: Vec<OsString>) -> Result<Call, Failure> {
    let mut parser = Parser {
        command: None,
        options: Options { place: Place::Usual, code: None, json: false, quiet: false, progress: true },
        flags: Flags::default(),
        words: Vec::new(),
    };
    let mut rest = words.into_iter();
    let mut options_end = false;
    while let Some(word) = rest.next() {
        if options_end || word == "-" || !word.as_bytes().starts_with(b"-") {
            parser.word(word)?;
        } else if word == "--" {
            options_end = true;
        } else {
            parser.option(&word, &mut rest)?;
        }
    }
    parser.end()
}

struct Parser {
    command: Option<&'static Command>,
    options: Options,
    flags: Flags,
    words: Vec<OsString>,
}

impl Parser {
    fn word(&mut self, word: OsString) -> Result<(), Failure> {
        if self.command.is_some() {
            self.words.push(word);
            return Ok(());
        }
        let known = word.to_str().and_then(help::command);
        let unknown = || Failure::Usage { reason: format!("there is no command '{}'", word.to_string_lossy()), command: None };
        self.command = Some(known.ok_or_else(unknown)?);
        Ok(())
    }

    fn option(&mut self, word: &OsStr, rest: &mut impl Iterator<Item = OsString>) -> Result<(), Failure> {
        let text = word.to_string_lossy().into_owned();
        let (name, mut given) = split_option(&text);
        if let Some(name @ ("-k" | "--code" | "--at" | "--time" | "--blocks" | "--svg")) = Some(name) {
            let value = given.take().map(OsString::from).or_else(|| rest.next());
            let value = value.ok_or_else(|| self.complaint(format!("{name} wants a value")))?;
            return self.valued(name, &value);
        }
        if given.is_some() {
            return Err(self.complaint(format!("{name} takes no value")));
        }
        if self.global(name) {
            return Ok(());
        }
        let letters: Vec<String> = match name.strip_prefix('-') {
            Some(letters) if !letters.starts_with('-') => letters.chars().map(|c| format!("-{c}")).collect(),
            _ => vec![name.to_string()],
        };
        letters.iter().try_for_each(|letter| self.flag(letter))
    }

    fn complaint(&self, reason: String) -> Failure {
        Failure::Usage { reason, command: self.command.map(|command| command.name) }
    }

    fn global(&mut self, name: &str) -> bool {
        match name {
            "--json" => self.options.json = true,
            "--quiet" | "-q" => self.options.quiet = true,
            "--no-progress" => self.options.progress = false,
            "--help" | "-h" | "--version" => {
                // `mfs --help`, `mfs put --help` and `mfs --version` are words of `help`.
                let about = if name == "--version" { Some("version") } else { self.command.map(|command| command.name) };
                self.command = help::command("help");
                self.words = about.map(OsString::from).into_iter().collect();
            }
            _ => return false,
        }
        true
    }

    /// An option with a value. Those of one command are known by the command's list.
    fn valued(&mut self, name: &str, value: &OsStr) -> Result<(), Failure> {
        let text = value.to_string_lossy();
        match name {
            "-k" if text == "auto" => self.options.place = Place::Auto,
            "-k" => self.options.place = Place::Block(self.number(name, &text)?),
            "--code" => self.options.code = code::accept(&text)?,
            _ => {
                self.must_take(name)?;
                match name {
                    "--at" => self.flags.at = Some(self.number(name, &text)?),
                    "--time" => self.flags.time = Some(self.number(name, &text)?),
                    "--blocks" => self.flags.blocks = Some(self.number(name, &text)?),
                    _ => self.flags.svg = Some(value.to_owned()),
                }
            }
        }
        Ok(())
    }

    fn number<T: std::str::FromStr>(&self, name: &str, text: &str) -> Result<T, Failure> {
        text.parse().map_err(|_| self.complaint(format!("{name} wants a number, not '{text}'")))
    }

    fn must_take(&self, name: &str) -> Result<(), Failure> {
        match self.command {
            Some(command) if command.takes(name) => Ok(()),
            _ => Err(self.complaint(format!("there is no option {name} here"))),
        }
    }

    fn flag(&mut self, name: &str) -> Result<(), Failure> {
        self.must_take(name)?;
        match name {
            "-l" => self.flags.long = true,
            "-r" | "-R" => self.flags.recursive = true,
            "-p" => self.flags.parents = true,
            "--dry-run" => self.flags.dry_run = true,
            "--force" => self.flags.force = true,
            "--explain" => self.flags.explain = true,
            other => unreachable!("{other} is in a command's list and not here"),
        }
        Ok(())
    }

    fn end(self) -> Result<Call, Failure> {
        let Some(command) = self.command else {
            return Err(Failure::Usage { reason: "which command?".to_string(), command: None });
        };
        let (fewest, most) = command.words;
        if self.words.len() < fewest {
            return Err(self.complaint(format!("too few words: it is used as 'mfs {}'", command.synopsis)));
        }
        if self.words.len() > most {
            return Err(self.complaint(format!("too many words: it is used as 'mfs {}'", command.synopsis)));
        }
        Ok(Call { command, options: self.options, flags: self.flags, words: self.words })
    }
}

/// `--time=5` and `-k8` have their value with them.
fn split_option(text: &str) -> (&str, Option<&str>) {
    if let Some((name, value)) = text.split_once('=') {
        return (name, Some(value));
    }
    match text.strip_prefix("-k") {
        Some(value) if !value.is_empty() => ("-k", Some(value)),
        _ => (text, None),
    }
}

#[cfg(test)]
mod tests {
    use super::*;

    fn parsed(line: &str) -> Result<Call, Failure> {
        parse(line.split_whitespace().map(OsString::from).collect())
    }

    #[test]
    fn options_stand_anywhere() {
        let call = parsed("ls -k8192 a.img -lR --json /x").expect("a good line");
        assert_eq!((call.options.place, call.options.json), (Place::Block(8192), true));
        assert!(call.flags.long && call.flags.recursive);
        assert_eq!(call.words, ["a.img", "/x"]);
    }

    #[test]
    fn a_word_after_two_dashes_is_no_option() {
        assert_eq!(parsed("mkdir a.img -- -p").expect("a good line").words, ["a.img", "-p"]);
    }

    #[test]
    fn card_paths_are_full_and_end_in_no_slash() {
        let paths = ["a", "/a/", "//", "", "/a//b///"].map(|word| card_path(OsStr::new(word)));
        assert_eq!(paths, [&b"/a"[..], b"/a", b"/", b"/", b"/a//b"]);
    }
}
