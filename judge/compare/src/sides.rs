//! Both sides on the same image, call by call.
use crate::call::{Answer, Call, Place, SLOTS};
use crate::domain::{full_path, outside, Before, Reason};
use crate::original::Original;
use crate::ours::Ours;
use crate::party::Party;
use crate::{watch, wipe};
use mfs::{Handle, Refusal};
use std::cell::OnceCell;
use std::fmt;
use std::panic::{catch_unwind, AssertUnwindSafe};
use volumes::{entries, Entry, Geometry};

/// The two sides, and what is known of the volume they are on.
pub struct Sides<'a> {
    pub ours: Ours,
    original: &'a mut dyn Original,
    k: u32,
    /// The entries of the image as it is now, read when they are asked for.
    entries: OnceCell<Vec<Entry>>,
    /// Since its file was opened another handle wrote it, or something was deleted or formatted: only then may it have been cut.
    perhaps_cut: [bool; SLOTS],
}

/// What became of a call.
#[derive(Debug)]
pub enum Verdict {
    /// Both answered this; a refusal has the library's number.
    Same(Answer, Option<u32>),
    LeftOut(Reason),
    /// No handle is in the call's slot, the page's directory is gone, or a listing would begin past the last entry.
    NotMade,
    Differs(Difference),
}

/// How the sides differ.
#[derive(Debug, PartialEq, Eq)]
pub struct Difference {
    /// Who made the call on our side.
    pub by: &'static str,
    pub ours: String,
    pub original: String,
    /// The first block in which the images differ.
    pub block: Option<usize>,
}

impl fmt::Display for Difference {
    fn fmt(&self, f: &mut fmt::Formatter<'_>) -> fmt::Result {
        writeln!(f, "  {:<13} {}", format!("the {}:", self.by), self.ours)?;
        writeln!(f, "  the original: {}", self.original)?;
        match self.block {
            Some(block) => write!(f, "  the images differ, first in block {block}"),
            None => write!(f, "  the images are the same"),
        }
    }
}

impl<'a> Sides<'a> {
    /// Both sides with the same image, whose superblock is in block `k`.
    pub fn new(by: &'static dyn Party, original: &'a mut dyn Original, image: Vec<u8>, k: u32) -> Sides<'a> {
        original.load(&image);
        Sides { ours: Ours::new(by, image, k), original, k, entries: OnceCell::new(), perhaps_cut: [false; SLOTS] }
    }

    /// The volume as it is now, before a call with a handle.
    fn before<'b>(&'b self, handle: Option<&'b Handle>) -> Before<'b> {
        Before { image: &self.ours.image, geometry: self.geometry(), entries: self.entries(), handle }
    }

    /// The first address of the directory at a place, all of whose path names directories.
    pub fn dir_at(&self, place: &Place) -> Option<u32> {
        self.before(None).dir_at(&full_path(place))
    }

    pub fn geometry(&self) -> Geometry {
        Geometry::of(&self.ours.image, self.k).expect("the image holds a volume")
    }

    pub fn entries(&self) -> &[Entry] {
        self.entries.get_or_init(|| entries(&self.ours.image, self.k))
    }

    /// The image on the original's device.
    pub fn original_image(&self) -> Vec<u8> {
        self.original.dump()
    }

    /// Makes a call on both sides, or leaves it out.
    pub fn step(&mut self, call: &Call) -> Verdict {
        watch::call();
        if !self.can_be_made(call) {
            return Verdict::NotMade;
        }
        if *call == Call::Format && self.format_never_ends() {
            return Verdict::LeftOut(Reason::FormatNeverEnds);
        }
        let listed = self.listed(call);
        let handle = call.slot().and_then(|slot| self.ours.handle(slot).cloned());
        let before = wipe::Before::of(self.ours.by, call, &self.ours.image, self.k);
        let ours = self.ours.make(call);
        let verdict = match (&ours, listed) {
            (Err(refusal), _) if outside(refusal.number()) => self.refused_outside(*refusal, call, handle.as_ref(), before),
            (Ok(_), Some(reason)) | (Err(_), Some(reason @ Reason::SeekOverflows)) => {
                self.undo(call, handle);
                self.left_out(reason, call)
            }
            _ => self.compare(call, ours, before),
        };
        self.note_cuts(call, &verdict);
        verdict
    }

    fn left_out(&self, reason: Reason, call: &Call) -> Verdict {
        let whole = call.slot().is_some_and(|slot| !self.perhaps_cut[slot]);
        if reason == Reason::ResumesElsewhere && whole {
            let original = "its handle resumes elsewhere, though nothing cut the file".to_string();
            return Verdict::Differs(self.difference("accepted".to_string(), original, None));
        }
        Verdict::LeftOut(reason)
    }

    /// Keeps account of the handles whose files were perhaps cut by an accepted call.
    fn note_cuts(&mut self, call: &Call, verdict: &Verdict) {
        if !matches!(verdict, Verdict::Same(_, None)) {
            return;
        }
        match *call {
            Call::Open { slot, .. } | Call::CreateFile { slot, .. } => self.perhaps_cut[slot] = false,
            Call::Delete { .. } | Call::Format => self.perhaps_cut = [true; SLOTS],
            Call::Write { slot, .. } => {
                let written = self.ours.file(slot).map(|file| file.addr);
                for other in (0..SLOTS).filter(|&other| other != slot) {
                    self.perhaps_cut[other] |= self.ours.file(other).map(|file| file.addr) == written;
                }
            }
            _ => {}
        }
    }

    /// The library's side as it was before the call, which the original has not made.
    fn undo(&mut self, call: &Call, handle: Option<Handle>) {
        if call.changes() {
            self.ours.image = self.original.dump();
        }
        if let Some(slot) = call.slot() {
            self.ours.set_handle(slot, handle);
        }
    }

    fn can_be_made(&self, call: &Call) -> bool {
        match call {
            Call::Read { slot, .. } | Call::Seek { slot, .. } | Call::Write { slot, .. } | Call::Patch { slot, .. } => {
                self.ours.handle(*slot).is_some()
            }
            Call::ListOn { page, .. } => self.page_is_current(*page),
            Call::List { place, from, .. } if *from > 0 => self.dir_at(place).is_none_or(|dir| *from <= self.count_of(dir)),
            _ => true,
        }
    }

    /// The number of a directory's entries. The original can't begin a listing past the last, only go on with one.
    fn count_of(&self, dir: u32) -> u32 {
        self.entries().iter().filter(|entry| entry.dir == dir).count() as u32
    }

    /// Whether the directory of a page is still the one at the path where its listing was begun.
    fn page_is_current(&self, page: usize) -> bool {
        match (self.ours.page(page), self.original.page(page)) {
            (Some((place, _)), Some((addr, _))) => self.dir_at(place) == Some(addr),
            _ => false,
        }
    }

    fn format_never_ends(&self) -> bool {
        Geometry::new(self.k, (self.ours.image.len() / volumes::BLOCK_SIZE) as u32).is_none()
    }

    fn listed(&self, call: &Call) -> Option<Reason> {
        if matches!(call, Call::Format) {
            return None;
        }
        let handle = call.slot().and_then(|slot| self.ours.handle(slot));
        let resume = call.slot().and_then(|slot| self.original.resume(slot));
        self.before(handle).listed(call, resume)
    }

    /// The original isn't asked. The library must have had cause, and left its image as the original's is.
    fn refused_outside(
        &mut self,
        refusal: Refusal,
        call: &Call,
        handle: Option<&Handle>,
        before: Option<wipe::Before>,
    ) -> Verdict {
        let number = refusal.number();
        let block = self.original.first_difference(&self.ours.image);
        let volume = self.before(handle);
        if block.is_none() && volume.nothing_to_create_with(number, call) {
            return self.compare(call, Err(refusal), before);
        }
        if block.is_none() && volume.gives_cause(number, call) {
            return Verdict::LeftOut(Reason::Refusal(number));
        }
        let fault = if block.is_some() { "and changed the image" } else { "without cause" };
        Verdict::Differs(self.difference(format!("refused {number}, {fault}"), "not asked".to_string(), block))
    }

    fn compare(&mut self, call: &Call, ours: Result<Answer, Refusal>, before: Option<wipe::Before>) -> Verdict {
        let original = self.make_original(call);
        if let Some(before) = before {
            before.wipe(self.original);
        }
        if call.changes() {
            self.entries.take();
        }
        let block = self.original.first_difference(&self.ours.image);
        let number = ours.as_ref().err().map(|refusal| refusal.number());
        let ours = ours.unwrap_or(Answer::Refused);
        let states = call.slot().map(|slot| (self.ours.file(slot), self.original.file(slot)));
        let same_state = states.is_none_or(|(ours, original)| ours == original);
        if ours == original && same_state && block.is_none() {
            return Verdict::Same(original, number);
        }
        let (our_state, original_state) = states.unwrap_or((None, None));
        let refusal = number.map_or(String::new(), |number| format!(" {number}"));
        let ours = format!("{ours:?}{refusal}; then {our_state:?}");
        Verdict::Differs(self.difference(ours, format!("{original:?}; then {original_state:?}"), block))
    }

    fn difference(&self, ours: String, original: String, block: Option<usize>) -> Difference {
        Difference { by: self.ours.by.name(), ours, original, block }
    }

    /// The original's answer; inside the domain a panic is a difference.
    fn make_original(&mut self, call: &Call) -> Answer {
        catch_unwind(AssertUnwindSafe(|| self.original.make(call))).unwrap_or_else(|cause| {
            let message = cause.downcast_ref::<String>().cloned();
            let text = message.or_else(|| cause.downcast_ref::<&str>().map(|text| text.to_string()));
            Answer::Panicked(text.unwrap_or_default())
        })
    }
}
