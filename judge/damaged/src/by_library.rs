//! The proved library's outcome of a case, through its exports, every buffer and out parameter at a guard page.
use crate::case::{Answer, Call, Case, Values};
use crate::guard::{self, Area, Guarded};
use mfs::raw;
use model::{Handle, Listed, Room, SeekFrom, Usage, NAME_LEN};

/// The buffers of a call; after the call they hold what it left.
pub struct Library {
    pub image: Area,
    pub buf: Area,
    pub work: Area,
    /// The four numbers of a handle, its name, and for the calls that answer a handle the name's length.
    pub number: Area,
    pub name: Area,
    len: Area,
    cwd: Area,
    path: Area,
    /// Other out parameters.
    outs: [Area; 3],
}

/// What stands in out parameters before a call.
const UNTOUCHED: u8 = 0x5a;

impl Library {
    pub fn new() -> Library {
        let small = || Area::new(0);
        Library {
            image: small(),
            buf: small(),
            work: small(),
            number: small(),
            name: small(),
            len: small(),
            cwd: small(),
            path: small(),
            outs: [small(), small(), small()],
        }
    }

    /// Makes the call of a case.
    pub fn run(&mut self, case: &Case, guarded: Guarded) -> Answer {
        self.image.place(&case.image, guarded);
        self.buf.place(&case.buf, guarded);
        self.run_on_standing(case, guarded)
    }

    /// Makes the call of a case on the image and the buffer that stand already.
    pub fn run_on_standing(&mut self, case: &Case, guarded: Guarded) -> Answer {
        self.cwd.place(&case.cwd, guarded);
        self.path.place(&case.path, guarded);
        self.work.place(&case.work, guarded);
        self.place_handle(case, guarded);
        for (out, size) in self.outs.iter_mut().zip(out_sizes(case.call)) {
            out.place(&[UNTOUCHED; 8][..size], guarded);
        }
        guard::start_clock();
        match unsafe { self.call_export(case) } {
            0 => Ok(self.values(case.call)),
            refusal => Err(refusal),
        }
    }

    /// Checks the image that the last call left.
    pub fn check_again(&mut self, case: &Case, guarded: Guarded) -> u32 {
        self.work.place(&vec![UNTOUCHED; mfs::work_len(self.image.len())], guarded);
        guard::start_clock();
        unsafe { raw::mfs_c_check(self.image.ptr(), self.image.len(), case.k, case.code, self.work.ptr(), self.work.len()) }
    }

    /// Asks for room once more. Of the image only the bytes up to `end` are there, and a guard page right after them; its length is
    /// told whole.
    pub fn room_before(&mut self, case: &Case, count: u32, end: usize) -> Answer {
        self.image.place(&case.image[..end], Guarded::End);
        for out in &mut self.outs[..2] {
            out.place(&[UNTOUCHED; 4], Guarded::End);
        }
        guard::start_clock();
        match unsafe {
            raw::mfs_c_room(self.image.ptr(), case.image.len(), case.k, case.code, count, self.outs[0].ptr(), self.outs[1].ptr())
        } {
            0 => Ok(self.answered_room()),
            refusal => Err(refusal),
        }
    }

    /// A handle is given to some calls and answered by others.
    fn place_handle(&mut self, case: &Case, guarded: Guarded) {
        if answers_handle(case.call) || case.call == Call::Info {
            self.number.place(&[UNTOUCHED; 16], guarded);
            self.name.place(&[UNTOUCHED; NAME_LEN], guarded);
        } else {
            self.number.place(&number_bytes(&case.handle), guarded);
            self.name.place(&case.handle.name, guarded);
        }
        self.len.place(&[UNTOUCHED; size_of::<usize>()], guarded);
    }

    unsafe fn call_export(&mut self, case: &Case) -> u32 {
        let (img, img_len, k, code) = (self.image.ptr(), self.image.len(), case.k, case.code);
        let (cwd, cwd_len) = (self.cwd.ptr(), self.cwd.len());
        let (path, path_len) = (self.path.ptr(), self.path.len());
        let (buf, buf_len) = (self.buf.ptr(), self.buf.len());
        let (work, work_len) = (self.work.ptr(), self.work.len());
        let (number, name, len) = (self.number.ptr(), self.name.ptr(), case.handle.len);
        let [a, b, c] = &self.outs;
        match case.call {
            Call::Format => raw::mfs_c_format(img, img_len, k, code),
            Call::Usage => raw::mfs_c_usage(img, img_len, k, code, a.ptr(), b.ptr(), c.ptr()),
            Call::Room(count) => raw::mfs_c_room(img, img_len, k, code, count, a.ptr(), b.ptr()),
            Call::Check => raw::mfs_c_check(img, img_len, k, code, work, work_len),
            Call::Open => raw::mfs_c_open(img, img_len, k, code, cwd, cwd_len, path, path_len, number, name, self.len.ptr()),
            Call::Info => raw::mfs_c_info(
                img,
                img_len,
                k,
                code,
                cwd,
                cwd_len,
                path,
                path_len,
                a.ptr(),
                b.ptr(),
                c.ptr(),
                name,
                self.len.ptr(),
            ),
            Call::List => {
                raw::mfs_c_list(img, img_len, k, code, cwd, cwd_len, path, path_len, case.from, buf, buf_len, a.ptr(), b.ptr())
            }
            Call::Read => raw::mfs_c_read(img, img_len, k, code, number, name, len, buf, buf_len, a.ptr()),
            Call::Seek(SeekFrom::Start(to)) => raw::mfs_c_seek_start(number, name, len, to),
            Call::Seek(SeekFrom::Current(by)) => raw::mfs_c_seek_current(number, name, len, by),
            Call::Seek(SeekFrom::End(by)) => raw::mfs_c_seek_end(number, name, len, by),
            Call::CreateFile => raw::mfs_c_create_file(
                img,
                img_len,
                k,
                code,
                cwd,
                cwd_len,
                path,
                path_len,
                case.time,
                work,
                work_len,
                number,
                name,
                self.len.ptr(),
            ),
            Call::CreateDir => {
                raw::mfs_c_create_dir(img, img_len, k, code, cwd, cwd_len, path, path_len, case.time, work, work_len)
            }
            Call::Delete => raw::mfs_c_delete(img, img_len, k, code, cwd, cwd_len, path, path_len, case.time, work, work_len),
            Call::Write => {
                raw::mfs_c_write(img, img_len, k, code, number, name, len, buf, buf_len, case.time, work, work_len, a.ptr())
            }
            Call::Patch => {
                raw::mfs_c_patch(img, img_len, k, code, number, name, len, buf, buf_len, case.time, work, work_len, a.ptr())
            }
        }
    }

    /// The values of an accepted call, from its out parameters.
    fn values(&self, call: Call) -> Values {
        match call {
            Call::Usage => Values::Usage(Usage { size: self.out(0), used: self.out(1), free: self.out(2) }),
            Call::Room(_) => self.answered_room(),
            Call::Open | Call::CreateFile => Values::Handle(self.answered_handle()),
            Call::Info => self.answered_info(),
            Call::List => Values::Listed(Listed { bytes: self.out(0) as usize, next: self.out(1) as u32 }),
            Call::Read | Call::Write | Call::Patch => Values::Bytes(self.out(0) as usize),
            Call::Format | Call::Check | Call::Seek(_) | Call::CreateDir | Call::Delete => Values::None,
        }
    }

    /// Neither yes nor no is a difference from every answer of the model.
    fn answered_room(&self) -> Values {
        match self.out(0) {
            flag @ 0..=1 => Values::Room(Room { enough: flag == 1, bytes: self.out(1) as u32 }),
            _ => Values::None,
        }
    }

    fn answered_handle(&self) -> Handle {
        let bytes = self.number.bytes();
        let number = |i: usize| u32::from_ne_bytes(bytes[4 * i..4 * i + 4].try_into().expect("four bytes"));
        Handle {
            dir: number(0),
            addr: number(1),
            size: number(2),
            position: number(3),
            name: self.answered_name(),
            len: self.answered_len(),
        }
    }

    fn answered_info(&self) -> Values {
        let (kind, size, time) = (self.out(0) as u8, self.out(1) as u32, self.out(2));
        Values::Info { kind, size, time, name: self.answered_name(), len: self.answered_len() }
    }

    fn answered_name(&self) -> [u8; NAME_LEN] {
        self.name.bytes().try_into().expect("the name's array")
    }

    fn answered_len(&self) -> usize {
        usize::from_ne_bytes(self.len.bytes().try_into().expect("a length's bytes"))
    }

    /// An out parameter, of as many bytes as the call has there.
    fn out(&self, i: usize) -> u64 {
        match *self.outs[i].bytes() {
            [a] => u64::from(a),
            [a, b, c, d] => u64::from(u32::from_ne_bytes([a, b, c, d])),
            ref eight => u64::from_ne_bytes(eight.try_into().expect("eight bytes")),
        }
    }

    /// Whether a refused call left its out parameters.
    pub fn outs_are_untouched(&self, call: Call) -> bool {
        let areas = self.outs.iter().chain([&self.len]);
        let handle = [&self.number, &self.name];
        let handle_is_out = answers_handle(call) || call == Call::Info;
        areas.chain(handle.into_iter().filter(|_| handle_is_out)).all(|area| area.bytes().iter().all(|&byte| byte == UNTOUCHED))
    }

    /// Whether the bytes beside all buffers are as they were.
    pub fn margins_are_whole(&self) -> bool {
        let buffers = [&self.image, &self.buf, &self.work, &self.number, &self.name, &self.len, &self.cwd, &self.path];
        buffers.into_iter().chain(&self.outs).all(Area::margin_is_whole)
    }

    /// Whether the inputs that no call may change are as they were.
    pub fn inputs_are_whole(&self, case: &Case) -> bool {
        self.cwd.bytes() == case.cwd && self.path.bytes() == case.path
    }
}

fn answers_handle(call: Call) -> bool {
    matches!(call, Call::Open | Call::CreateFile)
}

/// Bytes of the out parameters that are no part of a handle, in the order of the exports.
fn out_sizes(call: Call) -> [usize; 3] {
    match call {
        Call::Usage => [8, 8, 8],
        Call::Room(_) => [4, 4, 0],
        Call::Info => [1, 4, 8],
        Call::List => [size_of::<usize>(), 4, 0],
        Call::Read | Call::Write | Call::Patch => [size_of::<usize>(), 0, 0],
        _ => [0; 3],
    }
}

/// The four numbers of a handle, as the exports take them.
pub fn number_bytes(handle: &Handle) -> Vec<u8> {
    [handle.dir, handle.addr, handle.size, handle.position].iter().flat_map(|number| number.to_ne_bytes()).collect()
}
