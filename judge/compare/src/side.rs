// One build of the original as an `Original`. This text is included once for each build, with `moros` as the build's name.
use super::Original;
use crate::call::{written_bytes, Answer, Call, FileState, Place, Seek, SLOTS, UNTOUCHED};

pub struct Side {
    turn: moros::Turn,
    files: [Option<moros::File>; SLOTS],
    pages: [Option<moros::Dir>; SLOTS],
}

impl Side {
    pub fn take() -> Side {
        Side { turn: moros::Turn::take(), files: [const { None }; SLOTS], pages: [const { None }; SLOTS] }
    }

    /// The path as the original takes it, after the working directory was set.
    fn at<'a>(&self, place: &'a Place) -> std::borrow::Cow<'a, str> {
        self.turn.set_dir(&String::from_utf8_lossy(&place.cwd));
        String::from_utf8_lossy(&place.path)
    }

    fn keep(&mut self, slot: usize, file: Option<moros::File>) -> Answer {
        match file {
            None => Answer::Refused,
            Some(file) => {
                let state = state_of(&file);
                self.files[slot] = Some(file);
                Answer::Opened(state)
            }
        }
    }

    fn list(&mut self, page: usize, place: &Place, from: u32, len: usize) -> Answer {
        let Some(mut dir) = self.turn.open_dir(&self.at(place)) else { return Answer::Refused };
        if from > 0 {
            // A buffer for just the entries before that number: the original has no other way to begin at one.
            let before = dir.name_lens(&self.turn).iter().take(from as usize).map(|name| 14 + name).sum::<usize>();
            dir.read(&self.turn, &mut vec![0; before + 1]).expect("a listing is never refused");
        }
        self.pages[page] = Some(dir);
        self.list_on(page, len)
    }

    fn list_on(&mut self, page: usize, len: usize) -> Answer {
        let dir = self.pages[page].as_mut().expect("a listing was begun on this page");
        let mut buf = vec![UNTOUCHED; len];
        match dir.read(&self.turn, &mut buf) {
            Ok(bytes) => Answer::Listed { bytes, next: dir.next_entry(), buf },
            Err(()) => Answer::Refused,
        }
    }

    fn read(&mut self, slot: usize, len: usize) -> Answer {
        let file = self.files[slot].as_mut().expect("a file is open in this slot");
        let mut buf = vec![UNTOUCHED; len];
        match file.read(&self.turn, &mut buf) {
            Ok(count) => Answer::Read { count, file: state_of(file), buf },
            Err(()) => Answer::Refused,
        }
    }

    fn seek(&mut self, slot: usize, to: Seek) -> Answer {
        let file = self.files[slot].as_mut().expect("a file is open in this slot");
        let from = match to {
            Seek::Start(to) => moros::SeekFrom::Start(to),
            Seek::Current(by) => moros::SeekFrom::Current(by),
            Seek::End(by) => moros::SeekFrom::End(by),
        };
        match file.seek(from) {
            Ok(position) => Answer::Sought(FileState { position, ..state_of(file) }),
            Err(()) => Answer::Refused,
        }
    }

    fn write(&mut self, slot: usize, bytes: &[u8]) -> Answer {
        let file = self.files[slot].as_mut().expect("a file is open in this slot");
        match file.write(&self.turn, bytes) {
            Ok(count) => Answer::Written { count, file: state_of(file) },
            Err(()) => Answer::Refused,
        }
    }

    /// The original has no such call, and this is what it means in the original's own: the bytes behind are read, and written
    /// once more behind the new ones.
    fn patch(&mut self, slot: usize, bytes: &[u8]) -> Answer {
        let file = self.files[slot].as_mut().expect("a file is open in this slot");
        let (start, size) = (file.position(), file.size());
        let end = start + bytes.len() as u32;
        let mut behind = vec![UNTOUCHED; size - end as usize];
        let steps = [
            file.seek(moros::SeekFrom::Start(end)).is_ok(),
            file.read(&self.turn, &mut behind) == Ok(behind.len()),
            file.seek(moros::SeekFrom::Start(start)).is_ok(),
            file.write(&self.turn, &[bytes, &behind].concat()) == Ok(size - start as usize),
            file.seek(moros::SeekFrom::Start(end)).is_ok(),
        ];
        if steps.contains(&false) {
            return Answer::Refused;
        }
        Answer::Written { count: bytes.len(), file: state_of(file) }
    }

    fn info(&self, place: &Place) -> Answer {
        match self.turn.info(&self.at(place)) {
            Some(info) => Answer::Info { kind: info.kind, size: info.size, time: info.time, name: info.name.into_bytes() },
            None => Answer::Refused,
        }
    }
}

impl Original for Side {
    fn load(&mut self, image: &[u8]) {
        self.turn.load(image);
        self.files = [const { None }; SLOTS];
        self.pages = [const { None }; SLOTS];
    }

    fn dump(&self) -> Vec<u8> {
        self.turn.dump()
    }

    fn first_difference(&self, image: &[u8]) -> Option<usize> {
        self.turn.first_difference(image)
    }

    fn block(&self, addr: u32) -> Vec<u8> {
        self.turn.block(addr)
    }

    fn wipe(&mut self, addr: u32) {
        self.turn.wipe(addr);
    }

    fn make(&mut self, call: &Call) -> Answer {
        match call {
            Call::Format => {
                self.turn.format();
                Answer::Done
            }
            Call::Usage => Answer::Usage(self.turn.usage().map(|bytes| bytes as u64)),
            Call::Open { slot, place } => {
                let file = self.turn.open(&self.at(place));
                self.keep(*slot, file)
            }
            Call::Info { place } => self.info(place),
            Call::List { page, place, from, len } => self.list(*page, place, *from, *len),
            Call::ListOn { page, len } => self.list_on(*page, *len),
            Call::Read { slot, len } => self.read(*slot, *len),
            Call::Seek { slot, to } => self.seek(*slot, *to),
            Call::CreateFile { slot, place, time } => {
                self.turn.set_time(*time);
                let file = self.turn.create_file(&self.at(place));
                self.keep(*slot, file)
            }
            Call::CreateDir { place, time } => {
                self.turn.set_time(*time);
                self.turn.create_dir(&self.at(place)).map_or(Answer::Refused, |_| Answer::Done)
            }
            Call::Delete { place, time } => {
                self.turn.set_time(*time);
                self.turn.delete(&self.at(place)).map_or(Answer::Refused, |()| Answer::Done)
            }
            Call::Write { slot, len, seed, time } => {
                self.turn.set_time(*time);
                self.write(*slot, &written_bytes(*len, *seed))
            }
            Call::Patch { slot, len, seed, time } => {
                self.turn.set_time(*time);
                self.patch(*slot, &written_bytes(*len, *seed))
            }
        }
    }

    fn file(&self, slot: usize) -> Option<FileState> {
        self.files[slot].as_ref().map(state_of)
    }

    fn resume(&self, slot: usize) -> Option<(usize, u32)> {
        self.files[slot].as_ref().map(moros::File::resume)
    }

    fn page(&self, page: usize) -> Option<(u32, u32)> {
        self.pages[page].as_ref().map(|dir| (dir.addr(), dir.next_entry()))
    }
}

fn state_of(file: &moros::File) -> FileState {
    FileState { addr: file.addr(), size: file.size() as u32, position: file.position() }
}
