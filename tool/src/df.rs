//! `df` and `room`: how much is used, free, and free within reach of allocation; whether so many blocks are.
use crate::args::Call;
use crate::failure::Failure;
use crate::human;
use crate::image::Reading;
use crate::json::Object;
use crate::output::Output;

pub fn df(call: &Call) -> Result<(), Failure> {
    let mut out = Output::new(&call.options);
    let image = Reading::open(call, &out)?;
    let usage = image.view().usage().map_err(|refusal| image.refused(refusal, b""))?;
    let geometry = image.geometry()?;
    let in_reach = u64::from(geometry.free_in_reach(image.bytes()));
    if out.json {
        let object = Object::new().text("image", &image.name).number("size", usage.size).number("used", usage.used);
        let object = object.number("free", usage.free).number("free_in_reach", in_reach * image.mount.block() as u64);
        out.object(&object.number("blocks_in_reach", in_reach))?;
        return out.end();
    }
    out.line("    Size     Used     Free  In reach  Use%  Image")?;
    let [size, used, free] = [usage.size, usage.used, usage.free].map(human::size);
    let percent = (usage.used * 100).div_ceil(usage.size.max(1));
    let reach = human::size(in_reach * image.mount.block() as u64);
    out.line(&format!("{size:>8} {used:>8} {free:>8} {reach:>9} {percent:>4}%  {}", image.name))?;
    out.line(&format!("{} in reach of allocation", human::count(in_reach, "block")))?;
    out.end()
}

pub fn room(call: &Call) -> Result<(), Failure> {
    let mut out = Output::new(&call.options);
    let word = call.words[1].to_string_lossy();
    let count: u32 = word.parse().map_err(|_| call.usage(format!("'{word}' is no number of blocks")))?;
    let image = Reading::open(call, &out)?;
    let room = image.view().room(count).map_err(|refusal| image.refused(refusal, b""))?;
    if out.json {
        let object = Object::new().text("image", &image.name).number("blocks", count).flag("enough", room.enough);
        out.object(&object.number("bytes_read", room.bytes))?;
        return out.end();
    }
    let blocks = human::count(u64::from(count), "block");
    let told = if room.enough { format!("yes: {blocks} in reach") } else { format!("no: fewer than {blocks} in reach") };
    out.line(&format!("{told} ({} of the bitmap read)", human::count(u64::from(room.bytes), "byte")))?;
    out.end()
}
