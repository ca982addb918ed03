//! The model's outcome of a case.
use crate::case::{Answer, Call, Case, Values};
use model::{Handle, Info, Known, Mount, Refusal};

/// The answer, and everything that the call may change as it is afterwards.
pub struct Outcome {
    pub answer: Answer,
    /// None where the call can't change it.
    pub image: Option<Vec<u8>>,
    pub handle: Handle,
    pub buf: Vec<u8>,
    pub work: Vec<u8>,
}

/// By a model that knows as much.
pub fn run(case: &Case, known: Known) -> Outcome {
    let (mut handle, mut buf, mut work) = (case.handle.clone(), case.buf.clone(), case.work.clone());
    if case.call.changes_the_image() {
        let mut image = case.image.clone();
        let answer = change(case, known, &mut image, &mut handle, &buf, &mut work);
        Outcome { answer, image: Some(image), handle, buf, work }
    } else {
        let answer = look(case, known, &case.image, &mut handle, &mut buf, &mut work);
        Outcome { answer, image: None, handle, buf, work }
    }
}

/// A call that changes the image. Image, handle and buffers are those given here and not those of the case.
pub fn change(case: &Case, known: Known, image: &mut [u8], handle: &mut Handle, buf: &[u8], work: &mut [u8]) -> Answer {
    let Case { cwd, path, time, .. } = case;
    let mount = Mount { k: case.k, code: case.code, known };
    let answer = match case.call {
        Call::Format => model::format(image, mount).map(|()| Values::None),
        Call::CreateFile => model::create_file(image, mount, cwd, path, *time, work).map(Values::Handle),
        Call::CreateDir => model::create_dir(image, mount, cwd, path, *time, work).map(|()| Values::None),
        Call::Delete => model::delete(image, mount, cwd, path, *time, work).map(|()| Values::None),
        Call::Write => model::write(image, mount, handle, buf, *time, work).map(Values::Bytes),
        Call::Patch => model::patch(image, mount, handle, buf, *time, work).map(Values::Bytes),
        other => unreachable!("{other:?} changes no image"),
    };
    answer.map_err(Refusal::number)
}

/// A call that doesn't change the image.
pub fn look(case: &Case, known: Known, image: &[u8], handle: &mut Handle, buf: &mut [u8], work: &mut [u8]) -> Answer {
    let Case { cwd, path, from, .. } = case;
    let mount = Mount { k: case.k, code: case.code, known };
    let answer = match case.call {
        Call::Usage => model::usage(image, mount).map(Values::Usage),
        Call::Room(count) => model::room(image, mount, count).map(Values::Room),
        Call::Check => model::check(image, mount, work).map(|()| Values::None),
        Call::Open => model::open(image, mount, cwd, path).map(Values::Handle),
        Call::Info => model::info(image, mount, cwd, path).map(info_values),
        Call::List => model::list(image, mount, cwd, path, *from, buf).map(Values::Listed),
        Call::Read => model::read(image, mount, handle, buf).map(Values::Bytes),
        Call::Seek(to) => model::seek(handle, to).map(|()| Values::None),
        other => unreachable!("{other:?} changes the image"),
    };
    answer.map_err(Refusal::number)
}

fn info_values(info: Info) -> Values {
    let Info { kind, size, time, name, len } = info;
    Values::Info { kind: kind as u8, size, time, name, len }
}
