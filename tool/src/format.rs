//! `format`: makes a file, or a file that is there, a volume with an empty root.
use crate::args::{Call, Place};
use crate::failure::Failure;
use crate::human;
use crate::image::Changing;
use crate::json::Object;
use crate::layout::{Geometry, Mount, Superblock, USUAL_K};
use crate::library::{self, Refusal};
use crate::mapping::Private;
use crate::output::Output;
use crate::undo;
use std::fs::{self, File};
use std::io;
use std::os::unix::fs::FileExt;
use std::path::{Path, PathBuf};

pub fn format(call: &Call) -> Result<(), Failure> {
    let mut out = Output::new(&call.options);
    let k = match call.options.place {
        Place::Block(k) => k,
        Place::Auto | Place::Usual => USUAL_K,
    };
    let mount = Mount { k, code: call.options.code.unwrap_or(0) };
    let blocks = match call.image().exists() {
        true => format_there(call, mount, &out)?,
        false => format_new(call, mount)?,
    };
    let name = call.image().display().to_string();
    if blocks < mount.bits() {
        let text = format!("with fewer than {} blocks nothing can be created on it", mount.bits());
        out.note(&name, &text);
    }
    let would = if call.flags.dry_run { "would be formatted" } else { "formatted" };
    let size = human::size(u64::from(blocks) * mount.block() as u64);
    let object = || {
        let object = Object::new().text("did", "format").text("image", &name);
        object.number("blocks", blocks).number("superblock", k).flag("stored", !call.flags.dry_run)
    };
    out.either(object, || format!("{name}: {would}, {blocks} blocks ({size}), superblock at block {k}"))?;
    out.end()
}

/// Why a format was refused: its block count and K alone decide.
fn refused(refusal: Refusal, blocks: u64, mount: Mount, name: &str) -> Failure {
    if let Err(failure) = crate::advice::good_length(blocks * mount.block() as u64, mount, name) {
        return failure;
    }
    let k = mount.k;
    let reason = format!("{blocks} blocks with the superblock in block {k} leave no data area that can be");
    let advice = "take one block more or less".to_string();
    Failure::Refused { subject: name.to_string(), number: refusal.number, reason, advice }
}

/// The blocks that a format writes.
fn written(image: &[u8], mount: Mount) -> std::ops::RangeInclusive<u32> {
    let data = Geometry::of(image, mount).map_or(mount.k, Geometry::data);
    mount.k..=data
}

/// A file that is there is not formatted over what it may hold, unless that is asked for.
fn format_there(call: &Call, mount: Mount, out: &Output) -> Result<u32, Failure> {
    let (mut image, len) = Changing::open_to_format(call, mount, call.flags.blocks, out)?;
    crate::advice::good_length(len, mount, &image.name)?;
    let k = mount.k;
    let before = Superblock::at(image.bytes(), mount).is_some_and(|superblock| superblock.is_marked());
    let blank = is_blank(image.bytes(), mount);
    if !call.flags.force && !blank {
        let what = if before {
            format!("it holds an MFS volume, at block {k}")
        } else {
            format!("block {k} and those after are not blank")
        };
        let advice = "--force drops all that it holds".to_string();
        return Err(Failure::Refused { subject: image.name, number: 7, reason: what, advice });
    }
    let done = library::format(image.bytes_mut(), mount);
    let blocks = len / mount.block() as u64;
    done.map_err(|refusal| refused(refusal, blocks, mount, &image.name))?;
    let range = written(image.bytes(), mount);
    image.store(range)?;
    Ok(blocks as u32)
}

/// Whether the blocks that a format would write are all zero.
fn is_blank(image: &[u8], mount: Mount) -> bool {
    let (k, blocks) = (mount.k, mount.blocks_of(image));
    let data = Geometry::new(mount, blocks).map_or(k, Geometry::data);
    (k..=data.min(blocks - 1)).all(|addr| mount.block_in(image, addr).iter().all(|&byte| byte == 0))
}

/// A new file is made under another name first, so that it is never there half made.
fn format_new(call: &Call, mount: Mount) -> Result<u32, Failure> {
    let Some(blocks) = call.flags.blocks else {
        return Err(call.usage(format!("{} is not there: give --blocks N to make it", call.image().display())));
    };
    let name = call.image().display().to_string();
    crate::advice::good_length(u64::from(blocks) * mount.block() as u64, mount, &name)?;
    let new = new_of(call.image());
    let made = make(&new, blocks, mount, &name);
    let kept = made.and_then(|()| match call.flags.dry_run {
        true => Ok(()),
        false => {
            fs::rename(&new, call.image()).and_then(|()| undo::sync_folder_of(call.image())).map_err(|e| Failure::host(&name, e))
        }
    });
    if kept.is_err() || call.flags.dry_run {
        // What was begun is not needed; nothing more can be done where that fails too.
        let _ = fs::remove_file(&new);
    }
    kept.map(|()| blocks)
}

fn new_of(image: &Path) -> PathBuf {
    let mut name = image.as_os_str().to_owned();
    name.push(".mfs-new");
    PathBuf::from(name)
}

fn make(new: &Path, blocks: u32, mount: Mount, name: &str) -> Result<(), Failure> {
    let failed = |error: io::Error| Failure::host(name, error);
    let file = File::options().read(true).write(true).create(true).truncate(true).open(new).map_err(failed)?;
    // All but what the format writes stays a hole.
    file.set_len(u64::from(blocks) * mount.block() as u64).map_err(failed)?;
    let mut map = Private::of(&file, blocks as usize * mount.block()).map_err(failed)?;
    library::format(&mut map, mount).map_err(|refusal| refused(refusal, u64::from(blocks), mount, name))?;
    let range = written(&map, mount);
    let bytes = *range.start() as usize * mount.block()..(*range.end() as usize + 1) * mount.block();
    file.write_all_at(&map[bytes.clone()], bytes.start as u64).map_err(failed)?;
    file.sync_all().map_err(failed)
}
