//! A case on both sides: the same answer and the same bytes, and what must hold whatever the answer is.
use crate::by_library::{number_bytes, Library};
use crate::by_model::{self, Outcome};
use crate::case::{show, Answer, Call, Case, Values};
use crate::guard::Guarded;
use model::{Known, SIZES};
use volumes::Geometry;

/// The outcome that both sides agree on, or what is wrong.
pub fn judge(case: &Case, guarded: Guarded, library: &mut Library) -> Result<Outcome, String> {
    let expected = by_model::run(case, Known::TODAY);
    let answer = library.run(case, guarded);
    compare(&expected, &answer, case, library)?;
    look_from_outside(&answer, case, library)?;
    if let (Call::Room(count), Ok(Values::Room(room))) = (case.call, &answer) {
        read_no_further(case, count, room.bytes, &answer, library)?;
    }
    if answer.is_ok() && case.call.changes_the_image() {
        look_at_free_blocks(case, library.image.bytes())?;
        let refusal = library.check_again(case, guarded);
        if refusal != 0 {
            return Err(format!("the call is accepted, and then the check refuses the volume: {refusal}"));
        }
    }
    Ok(expected)
}

fn compare(expected: &Outcome, answer: &Answer, case: &Case, library: &Library) -> Result<(), String> {
    if *answer != expected.answer {
        return Err(format!("the library answers {}\nthe model answers   {}", show(answer), show(&expected.answer)));
    }
    same("image", library.image.bytes(), expected.image.as_ref().unwrap_or(&case.image))?;
    same("buffer", library.buf.bytes(), &expected.buf)?;
    same("work buffer", library.work.bytes(), &expected.work)?;
    if case.call.takes_handle() {
        same("handle", library.number.bytes(), &number_bytes(&expected.handle))?;
        same("handle's name", library.name.bytes(), &expected.handle.name)?;
    }
    Ok(())
}

/// What must hold of every call, without asking the model.
fn look_from_outside(answer: &Answer, case: &Case, library: &Library) -> Result<(), String> {
    if !library.margins_are_whole() {
        return Err("a byte beside a buffer was changed".to_string());
    }
    if !library.inputs_are_whole(case) {
        return Err("a byte of the path or of the working directory was changed".to_string());
    }
    if answer.is_err() {
        if !library.outs_are_untouched(case.call) {
            return Err("a refused call changed an out parameter".to_string());
        }
        let handle_changed = case.call.takes_handle() && library.number.bytes() != number_bytes(&case.handle);
        if library.image.bytes() != case.image || library.buf.bytes() != case.buf || handle_changed {
            return Err("a refused call changed the image, the buffer or the handle".to_string());
        }
    }
    Ok(())
}

/// What a call gave back is zero, and what was free before it and is free after it has the bytes that it had. A format looks at
/// no bit that was there before.
fn look_at_free_blocks(case: &Case, after: &[u8]) -> Result<(), String> {
    let geometry = Geometry::read(after, case.k, case.code).filter(|_| case.call != Call::Format);
    let Some(geometry) = geometry else { return Ok(()) };
    let size = geometry.form().block_size();
    let bytes = |image: &[u8], addr: u32| image[geometry.place(addr)..][..size].to_vec();
    for addr in (geometry.data()..geometry.blocks()).filter(|&addr| !geometry.taken(after, addr)) {
        let was_taken = geometry.taken(&case.image, addr);
        if was_taken && Known::TODAY.wiping && bytes(after, addr).iter().any(|&byte| byte != 0) {
            return Err(format!("block {addr} was given back, and is not zero"));
        }
        if !was_taken && bytes(after, addr) != bytes(&case.image, addr) {
            return Err(format!("block {addr} is free and was, and has changed"));
        }
    }
    Ok(())
}

/// Room reads no byte after the bytes of the bitmap that it names: a guard page stands there.
fn read_no_further(case: &Case, count: u32, bytes: u32, answer: &Answer, library: &mut Library) -> Result<(), String> {
    let end = SIZES[case.code as usize].block * (case.k as usize + 2) + bytes as usize;
    let again = library.room_before(case, count, end);
    if again != *answer {
        return Err(format!("the library answers {}, and without the bytes behind {}", show(answer), show(&again)));
    }
    Ok(())
}

/// Where two runs of bytes first differ.
pub fn same(what: &str, library: &[u8], model: &[u8]) -> Result<(), String> {
    if library == model {
        return Ok(());
    }
    let place = library.iter().zip(model).position(|(a, b)| a != b).unwrap_or(library.len().min(model.len()));
    let (block, byte) = (place / 512, place % 512);
    let (ours, theirs) = (library.get(place), model.get(place));
    Err(format!("the {what} differs first in block {block} byte {byte}: the library has {ours:?}, the model {theirs:?}"))
}
