//! What the tests of version 1 and of 1,024-byte blocks share.
#![allow(dead_code)] // each test program takes what it needs
pub mod life;

use model::{check, Answer, Geometry, Handle, Known, Mount, Refusal, SeekFrom};
use volumes::{Form, Rng, Style, Tree, Volume};

pub const K: u32 = 8;
pub const TIME: u64 = 1_700_000_000;

/// A card of that form with its superblock in block 8, for a model that knows all.
pub fn mount(form: Form) -> Mount {
    Mount { k: K, code: u32::from(form.code()), known: Known::ALL }
}

/// A work buffer that is long enough for every card here.
pub fn work() -> Vec<u8> {
    vec![0xa5; 4096]
}

pub fn checked(image: &[u8], mount: Mount) -> Answer<()> {
    check(image, mount, &mut work())
}

/// What the card says of its places: D, the blocks of the data area, the bits of the bitmap, the reach, the bytes of the work
/// buffer.
pub fn parts(image: &[u8], mount: Mount) -> Answer<[usize; 5]> {
    let numbers = |geo: Geometry| [geo.d(), geo.data_blocks(), geo.bitmap_bits(), geo.reach(), geo.work_len()];
    model::geometry(image, mount).map(numbers)
}

/// A tree laid one block after the other, with random bytes wherever the volume doesn't speak.
pub fn laid(tree: Tree, form: Form, blocks: u32) -> Volume {
    let geometry = volumes::Geometry::of_form(form, K, blocks).expect("a volume of that size");
    tree.lay(geometry, Style { stale: true, ..Style::PLAIN }, &mut Rng::new(5)).expect("the tree fits")
}

/// The bytes of a file, read in one call.
pub fn contents(image: &[u8], mount: Mount, path: &[u8]) -> Answer<Vec<u8>> {
    let mut handle = model::open(image, mount, b"/", path)?;
    let mut buf = vec![0; handle.size as usize + 3];
    let count = model::read(image, mount, &mut handle, &mut buf)?;
    assert_eq!((count, handle.position), (handle.size as usize, handle.size), "a whole read");
    buf.truncate(count);
    Ok(buf)
}

/// A handle on the file at a path, at that position.
pub fn opened(image: &[u8], mount: Mount, path: &[u8], position: u32) -> Handle {
    let mut handle = model::open(image, mount, b"/", path).expect("the file is there");
    model::seek(&mut handle, SeekFrom::Start(position)).expect("the position is in the file");
    handle
}

/// Every changing call is refused by that number, and leaves the image.
pub fn no_change(image: &[u8], mount: Mount, handle: &Handle, refusal: Refusal) {
    let mut card = image.to_vec();
    assert_eq!(model::create_file(&mut card, mount, b"/", b"/new", TIME, &mut work()), Err(refusal));
    assert_eq!(model::create_dir(&mut card, mount, b"/", b"/new", TIME, &mut work()), Err(refusal));
    assert_eq!(model::delete(&mut card, mount, b"/", b"/m1", TIME, &mut work()), Err(refusal));
    assert_eq!(model::write(&mut card, mount, &mut handle.clone(), b"new", TIME, &mut work()), Err(refusal));
    assert!(card == image, "a refused call changed the card");
}

/// A file whose block leads to itself is walked for as many blocks as the data area has, with or without a bit, and no further.
pub fn circle_ends_after(mut volume: Volume, mount: Mount, data_blocks: u32) {
    let capacity = volume.geometry.form().capacity() as u32;
    let (addr, link) = (volume.entries[0].chain[0], volume.geometry.place(volume.entries[0].chain[0]));
    volume.image[link..link + 4].copy_from_slice(&addr.to_be_bytes());
    let entry = volume.geometry.place(volume.geometry.data()) + 4;
    volume.image[entry + 5..entry + 9].copy_from_slice(&i32::MAX.to_be_bytes());
    let read_at = |position| {
        let mut handle = opened(&volume.image, mount, &volume.entries[0].path, position);
        model::read(&volume.image, mount, &mut handle, &mut [0])
    };
    assert_eq!(read_at(data_blocks * capacity - 1), Ok(1));
    assert_eq!(read_at(data_blocks * capacity), Err(Refusal::Damaged));
}
