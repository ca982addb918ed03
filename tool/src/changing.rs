//! What the commands that change a card share, and `mkdir`.
use crate::args::{card_path, Call};
use crate::failure::{Failure, Tally};
use crate::image::Changing;
use crate::json::Object;
use crate::library::Kind;
use crate::output::Output;

/// A change in the making: calls on the private mapping, stored once at the end.
pub struct Change<'a> {
    pub call: &'a Call,
    pub image: Changing,
    pub out: Output,
    pub tally: Tally,
}

impl<'a> Change<'a> {
    /// Opens the image and runs the proved check, so that a damaged card is refused before anything else is said.
    pub fn begin(call: &'a Call) -> Result<Change<'a>, Failure> {
        let out = Output::new(&call.options);
        let image = Changing::open(call, &out)?;
        let verdict = image.view().check();
        verdict.map_err(|refusal| image.refused(refusal, b""))?;
        Ok(Change { call, image, out, tally: Tally::default() })
    }

    /// Counts a thing that was done or not.
    pub fn count(&mut self, answer: Result<(), Failure>) {
        self.tally.take(answer, self.call.options.json);
    }

    /// Tells what was done to a path: an object for programs; people hear of it in a dry run only.
    pub fn did(&mut self, verb: &str, path: &[u8], bytes: Option<u64>) -> Result<(), Failure> {
        if self.call.flags.dry_run && !self.out.json {
            let size = bytes.map_or(String::new(), |bytes| format!(" ({bytes} bytes)"));
            return self.out.line(&format!("would {verb} {}{size}", crate::human::name(path)));
        }
        self.out.done(|| {
            let object = Object::new().text("did", verb).bytes("path", path);
            match bytes {
                Some(bytes) => object.number("bytes", bytes),
                None => object,
            }
        })
    }

    /// Stores what was done, if anything was, and answers for all of it.
    pub fn end(mut self) -> Result<(), Failure> {
        let blocks = if self.tally.done > 0 { self.image.store_changes()? } else { 0 };
        let dry_run = self.call.flags.dry_run;
        if dry_run && !self.out.json {
            self.out.line(&format!("would change {}", crate::human::count(blocks, "block")))?;
        } else {
            self.out.done(|| Object::new().number("blocks_changed", blocks).flag("stored", !dry_run))?;
        }
        self.out.end()?;
        self.tally.answer()
    }
}

pub fn mkdir(call: &Call) -> Result<(), Failure> {
    let mut change = Change::begin(call)?;
    for word in &call.words[1..] {
        let path = card_path(word);
        let answer = if call.flags.parents { make_parents(&mut change, &path) } else { make(&mut change, &path) };
        change.count(answer);
    }
    change.end()
}

pub fn make(change: &mut Change, path: &[u8]) -> Result<(), Failure> {
    let made = change.image.volume().create_dir(path);
    made.map_err(|refusal| change.image.not_created(refusal, path, "use -p to make those, too"))?;
    change.did("mkdir", path, None)
}

/// Makes each directory of a path that is not there.
fn make_parents(change: &mut Change, path: &[u8]) -> Result<(), Failure> {
    let ends = path.iter().enumerate().skip(1).filter(|(_, &byte)| byte == b'/').map(|(at, _)| at).chain([path.len()]);
    for end in ends {
        if path != b"/" {
            make_if_missing(change, &path[..end])?;
        }
    }
    Ok(())
}

/// Makes a directory, unless it is there.
pub fn make_if_missing(change: &mut Change, path: &[u8]) -> Result<(), Failure> {
    let found = change.image.view().info(path);
    if found.is_ok_and(|entry| entry.kind == Kind::Dir) {
        return Ok(());
    }
    make(change, path)
}
