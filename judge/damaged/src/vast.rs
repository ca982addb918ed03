//! Images and buffers of some GiB at the limits: address space, and hardly any memory, since no call touches more than a few blocks.
use crate::by_library::{number_bytes, Library};
use crate::by_model::{change, look};
use crate::case::{show, Call, Case, Values};
use crate::forms::forms;
use crate::guard::{fail, Area, Guarded};
use crate::judge::same;
use crate::tally::Tally;
use model::{Handle, Known, NAME_LEN, SIZES};
use volumes::{Form, Geometry, Rng, Style, Tree, ROOT};

const K: u32 = 8;
/// As far as images and buffers are compared: bitmap, root and the first files of the largest volume lie before it.
const LOOKED_AT: usize = 4 << 20;
const MAX_FILE: usize = i32::MAX as usize;

/// The largest image and one that is a block longer; buffers whose lengths do not fit 31 or 32 bits.
pub fn compare(library: &mut Library, tally: &mut Tally) {
    for &form in forms(Known::TODAY).iter().filter(|&&form| form != Form::V1) {
        largest_images(form, library, tally);
    }
    longest_buffers(library, tally);
}

fn largest_images(form: Form, library: &mut Library, tally: &mut Tally) {
    let size = SIZES[usize::from(form.code())];
    let work = vec![0xff; size.max_blocks / 8];
    let mut case = Case { path: b"/m1".to_vec(), code: u32::from(form.code()), work, ..empty_case(Call::Usage) };
    let calls = [
        Call::Usage,
        Call::Format,
        Call::Check,
        Call::CreateFile,
        Call::Write,
        Call::Room(1),
        Call::Room(u32::MAX),
        Call::Open,
        Call::CreateDir,
        Call::Delete,
        Call::Usage,
    ];
    for blocks in [size.max_blocks + 1, size.max_blocks] {
        let mut pair = Pair::new(library, blocks * size.block, size.capacity + 1);
        for call in calls {
            case.call = call;
            pair.compare(&mut case, tally);
        }
    }
}

fn longest_buffers(library: &mut Library, tally: &mut Tally) {
    let mut tree = Tree::new();
    tree.file(ROOT, b"m1", 0, 1000);
    let geometry = Geometry::new(K, 4107).expect("a volume");
    let volume = tree.lay(geometry, Style::PLAIN, &mut Rng::new(1)).expect("room for a file");
    let handle = model::open(&volume.image, K, b"/", b"/m1").expect("the file");
    let case = Case { handle, work: vec![0xff; 512], ..empty_case(Call::Write) };
    let (left, wide) = (MAX_FILE - 1000, u32::MAX as usize + 1);
    let mut calls = vec![
        (Call::Write, 1000, left),
        (Call::Write, 1000, left + 1),
        (Call::Write, 0, MAX_FILE + 1),
        (Call::Write, 1000, wide + 1),
        (Call::Read, 10, wide + 3),
        (Call::List, 0, wide + 1),
    ];
    if Known::TODAY.patch {
        // In 32 bits the sum of the last two would lie inside the file.
        calls.extend([
            (Call::Patch, 1000, left),
            (Call::Patch, 0, MAX_FILE + 1),
            (Call::Patch, 0, wide),
            (Call::Patch, 10, wide + 3),
        ]);
    }
    for (call, position, len) in calls {
        let mut case = Case { call, path: b"/".to_vec(), ..case.clone() };
        case.handle.position = position;
        let mut pair = Pair::new(library, volume.image.len(), len);
        pair.library.image.bytes_mut().copy_from_slice(&volume.image);
        pair.image.bytes_mut().copy_from_slice(&volume.image);
        pair.compare(&mut case, tally);
    }
}

pub fn empty_case(call: Call) -> Case {
    let handle = Handle { dir: 0, addr: 0, size: 0, position: 0, name: [0; NAME_LEN], len: 0 };
    let none = Vec::new;
    Case { call, image: none(), k: K, code: 0, cwd: none(), path: none(), from: 0, time: 1, handle, buf: none(), work: none() }
}

/// Image and buffer of both sides.
struct Pair<'a> {
    library: &'a mut Library,
    image: Area,
    buf: Area,
}

impl Pair<'_> {
    /// Images and buffers that are all zero.
    fn new(library: &mut Library, image: usize, buf: usize) -> Pair<'_> {
        let guarded = |len: usize| {
            let mut area = Area::new(len);
            area.stand(len, Guarded::End);
            area
        };
        library.image = guarded(image);
        library.buf = guarded(buf);
        Pair { library, image: guarded(image), buf: guarded(buf) }
    }

    /// Makes the call on both sides; an accepted write's handle is kept for the next call.
    fn compare(&mut self, case: &mut Case, tally: &mut Tally) {
        let (mut handle, mut work) = (case.handle.clone(), case.work.clone());
        let expected = if case.call.changes_the_image() {
            change(case, Known::TODAY, self.image.bytes_mut(), &mut handle, self.buf.bytes(), &mut work)
        } else {
            look(case, Known::TODAY, self.image.bytes(), &mut handle, self.buf.bytes_mut(), &mut work)
        };
        let answer = self.library.run_on_standing(case, Guarded::End);
        if answer != expected {
            let (image, buf) = (self.image.len(), self.buf.len());
            println!("on an image of {image} bytes and a buffer of {buf} bytes, and else on\n{case}");
            fail(&format!("the library answers {}, the model {}", show(&answer), show(&expected)));
        }
        let start = |area: &Area| area.bytes()[..area.len().min(LOOKED_AT)].to_vec();
        same("image", &start(&self.library.image), &start(&self.image)).unwrap_or_else(|why| fail(&why));
        same("buffer", &start(&self.library.buf), &start(&self.buf)).unwrap_or_else(|why| fail(&why));
        same("work buffer", self.library.work.bytes(), &work).unwrap_or_else(|why| fail(&why));
        if case.call.takes_handle() {
            same("handle", self.library.number.bytes(), &number_bytes(&handle)).unwrap_or_else(|why| fail(&why));
        }
        tally.add(case.call, &answer);
        case.handle = handle;
        if let Ok(Values::Handle(opened)) = answer {
            case.handle = opened;
        }
    }
}
