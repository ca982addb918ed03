//! The images that calls are made on.
use crate::by_model::Outcome;
use crate::case::{Case, Values};
use crate::damage::damage;
use crate::forms::{draw_form, draw_small_form};
use model::{Handle, Known, Mount};
use volumes::{entries_of, random_of, Entry, Form, Geometry, Rng, Size, Style, Tree, Volume, Wish, HEADER, ROOT};

/// An image, and what is known of it for aiming calls.
pub struct Scene {
    pub image: Vec<u8>,
    pub k: u32,
    /// What the card is or was drawn as, and what it was drawn from.
    pub form: Form,
    pub known: Known,
    /// What the volume held before it was damaged, or holds.
    pub entries: Vec<Entry>,
    /// Handles that calls have answered.
    pub handles: Vec<Handle>,
    /// How the image was made.
    pub made: String,
    pub well_formed: bool,
}

/// An image of one of the forms that are known.
pub fn draw(known: Known, rng: &mut Rng) -> Scene {
    let scene = match rng.below(20) {
        0..=7 => whole(draw_form(known, rng), rng),
        8..=14 => damaged(draw_form(known, rng), rng),
        15..=17 => wild(draw_small_form(known, rng), rng),
        18 => noise(draw_small_form(known, rng), rng),
        _ => cut(draw_form(known, rng), rng),
    };
    Scene { known, ..scene }
}

fn draw_volume(form: Form, rng: &mut Rng) -> Volume {
    match rng.below(200) {
        0 => return crowded(form, rng),
        1..=5 => return deep(form, rng),
        _ => {}
    }
    let size = match rng.below(40) {
        0 => Size::Large,
        1..=10 => Size::Usual,
        _ => Size::Small,
    };
    let k = match rng.below(16) {
        0 => 0,
        1 => 1,
        2 => rng.below(40) as u32,
        // A few data blocks, and all in reach.
        3 if size == Size::Usual => 4090,
        _ => 8,
    };
    let entries = *rng.pick(&[0, 1, 3, 6, 12, 25, 60]);
    let depth = if rng.one_in(4) { *rng.pick(&[2, 5, 15, 16, 16, 16]) } else { 0 };
    let free = rng.one_in(3).then(|| rng.below(4) as u32);
    random_of(form, Wish { k, size, entries, depth, free }, rng)
}

/// A root directory of some thousand names, so many that a filter of hashed names can't tell them all apart.
fn crowded(form: Form, rng: &mut Rng) -> Volume {
    let mut tree = Tree::new();
    let entries = rng.between(1000, 8000);
    for number in 0..entries {
        tree.file(ROOT, format!("meter {number:x}").as_bytes(), number, 0);
    }
    let geometry = Geometry::of_form(form, 8, 10_000).expect("a volume");
    tree.lay(geometry, Style::PLAIN, rng).expect("room for all entries")
}

/// A line of directories as deep as can be, with files in the last one.
fn deep(form: Form, rng: &mut Rng) -> Volume {
    let mut tree = Tree::new();
    let mut last = ROOT;
    for _ in 0..16 {
        last = tree.dir(last, b"d", 1);
    }
    tree.file(last, b"a", 2, 600);
    tree.file(last, b"b", 3, 0);
    let blocks = match form {
        Form::V1 => *rng.pick(&[4107, 4108]),
        Form::V2 => *rng.pick(&[40, 4107]),
        Form::Large => *rng.pick(&[40, 8203]),
    };
    tree.lay(Geometry::of_form(form, 8, blocks).expect("a volume"), Style::PLAIN, rng).expect("room for the line")
}

fn whole(form: Form, rng: &mut Rng) -> Scene {
    let volume = draw_volume(form, rng);
    let made = format!("a well-formed volume, {:?}", volume.geometry);
    Scene::new(volume, made, true)
}

/// A volume with one to three edits.
fn damaged(form: Form, rng: &mut Rng) -> Scene {
    let mut volume = draw_volume(form, rng);
    let edits = *rng.pick(&[1, 1, 1, 1, 2, 2, 3]);
    let done = damage(&mut volume, edits, rng);
    let made = format!("a volume, {:?}, edited: {}", volume.geometry, done.join("; "));
    Scene::new(volume, made, false)
}

/// A volume that ends early, at a block or within one, or an empty image.
fn cut(form: Form, rng: &mut Rng) -> Scene {
    let mut volume = draw_volume(form, rng);
    let block = form.block_size();
    let len = match rng.below(6) {
        0 => 0,
        1 => volume.image.len() - 1,
        2 => volume.image.len() / block / 2 * block,
        3 => volume.image.len() - block,
        4 => volume.geometry.place(volume.geometry.blocks() - 1),
        _ => rng.below(volume.image.len() as u64) as usize,
    };
    volume.image.truncate(len);
    let made = format!("a volume, {:?}, cut to {len} bytes", volume.geometry);
    Scene::new(volume, made, false)
}

impl Scene {
    fn new(volume: Volume, made: String, well_formed: bool) -> Scene {
        let Volume { image, geometry, entries } = volume;
        let scene = Scene::unknown(image, geometry.k(), geometry.form(), made);
        Scene { entries, well_formed, ..scene }
    }

    /// An image of which nothing is known.
    fn unknown(image: Vec<u8>, k: u32, form: Form, made: String) -> Scene {
        let (entries, handles) = (Vec::new(), Vec::new());
        Scene { image, k, form, known: Known::TODAY, entries, handles, made, well_formed: false }
    }

    /// The size code that its calls say beside K.
    pub fn code(&self) -> u32 {
        u32::from(self.form.code())
    }

    /// For asking the model of it.
    pub fn mount(&self) -> Mount {
        Mount { k: self.k, code: self.code(), known: Known::ALL }
    }

    /// How many calls are made on it, one after the other: more where they can change it.
    pub fn calls(&self) -> usize {
        let reach = self.geometry().map_or(0, Geometry::reach);
        if self.well_formed && reach > 0 {
            30
        } else {
            10
        }
    }

    /// Takes note of what a call left: its image, a handle, and after an accepted change another well-formed volume.
    pub fn go_on(&mut self, case: Case, outcome: Outcome) {
        let changed = outcome.answer.is_ok() && case.call.changes_the_image();
        match outcome.answer {
            Ok(Values::Handle(handle)) => self.handles.push(handle),
            Ok(_) if case.call.takes_handle() => self.handles.push(outcome.handle),
            _ => {}
        }
        self.image = outcome.image.unwrap_or(case.image);
        if changed {
            let geometry = Geometry::read(&self.image, case.k, case.code).expect("a volume");
            (self.k, self.form) = (case.k, geometry.form());
            self.entries = entries_of(&self.image, geometry);
            self.well_formed = true;
        }
    }

    /// What the superblock says of the volume's places, where such a volume can be in the image.
    pub fn geometry(&self) -> Option<Geometry> {
        let blocks = self.image.len() / self.form.block_size();
        Geometry::read(&self.image, self.k, self.code()).filter(|geometry| geometry.blocks() as usize <= blocks)
    }
}

/// A small image of random bytes, sometimes one that can't be formatted; half the time with a superblock that fits.
fn noise(form: Form, rng: &mut Rng) -> Scene {
    let k = rng.below(10) as u32;
    let n = if rng.one_in(4) { k + 3 } else { rng.between(1, 40) as u32 };
    let mut image = vec![0; n as usize * form.block_size()];
    rng.fill(&mut image);
    if let (Some(geometry), true) = (Geometry::of_form(form, k, n), rng.one_in(2)) {
        put_superblock(&mut image, geometry, rng);
    }
    Scene::unknown(image, k, form, "random bytes".to_string())
}

fn put_superblock(image: &mut [u8], geometry: Geometry, rng: &mut Rng) {
    let superblock = &mut image[geometry.place(geometry.k())..][..geometry.form().block_size()];
    superblock.fill(0);
    superblock[..10].copy_from_slice(b"MOROS FS\x02\x00");
    superblock[9] = geometry.form().code();
    superblock[10..14].copy_from_slice(&geometry.blocks().to_be_bytes());
    let used = rng.below(u64::from(geometry.blocks()) + 2) as u32;
    superblock[14..18].copy_from_slice(&used.to_be_bytes());
}

/// A superblock, and data blocks that are all directory blocks of random entries with few names, linked at random: walks through it
/// run in circles, into each other and out of the area.
fn wild(form: Form, rng: &mut Rng) -> Scene {
    let k = rng.below(10) as u32;
    let geometry = Geometry::of_form(form, k, k + 3 + rng.between(2, 12) as u32).expect("a small volume");
    let mut image = vec![0; geometry.place(geometry.blocks())];
    put_superblock(&mut image, geometry, rng);
    for addr in geometry.data()..geometry.blocks() {
        let next = if rng.one_in(3) { 0 } else { draw_wild_address(geometry, rng) };
        let block = &mut image[geometry.place(addr)..][..form.block_size()];
        block[..4].copy_from_slice(&next.to_be_bytes());
        fill_wild_block(&mut block[4..], geometry, rng);
    }
    Scene::unknown(image, k, form, format!("wild links, {geometry:?}"))
}

fn draw_wild_address(geometry: Geometry, rng: &mut Rng) -> u32 {
    match rng.below(8) {
        0 => *rng.pick(&[0, geometry.data() - 1, geometry.blocks(), u32::MAX]),
        _ => geometry.data() + rng.below(u64::from(geometry.data_blocks())) as u32,
    }
}

/// The names of a wild volume, made of the letters that drawn paths have.
const WILD_NAMES: [&[u8]; 7] = [b"a", b"b", b".", b"ab", b"a.", b"\x7f", b"a/b"];

fn fill_wild_block(data: &mut [u8], geometry: Geometry, rng: &mut Rng) {
    let mut at = 0;
    for _ in 0..rng.below(9) {
        let name = *rng.pick(&WILD_NAMES);
        at = put_wild_entry(data, at, name, geometry, rng);
    }
    if rng.one_in(3) {
        fill_to_the_end(data, at, geometry, rng);
    }
}

/// More entries, the last of which ends before, at or after the last place where an entry may end.
fn fill_to_the_end(data: &mut [u8], mut at: usize, geometry: Geometry, rng: &mut Rng) {
    let end = data.len() - *rng.pick(&[2, 1, 0]);
    while end - at > 2 * (HEADER + 255) {
        at = put_wild_entry(data, at, &[b'a'; 200], geometry, rng);
    }
    let names = end - at - 2 * HEADER;
    let at = put_wild_entry(data, at, &vec![b'a'; names / 2], geometry, rng);
    put_wild_entry(data, at, &vec![b'b'; names - names / 2], geometry, rng);
}

fn put_wild_entry(data: &mut [u8], at: usize, name: &[u8], geometry: Geometry, rng: &mut Rng) -> usize {
    let end = at + HEADER + name.len();
    data[at] = *rng.pick(&[0, 0, 0, 0, 1, 1, 1, 1, 1, 2, 3]);
    data[at + 1..at + 5].copy_from_slice(&draw_wild_address(geometry, rng).to_be_bytes());
    let block = data.len() as u32;
    let size = *rng.pick(&[0, 1, 300, block, block + 1, 4000, i32::MAX as u32, 0x8000_0000, u32::MAX]);
    data[at + 5..at + 9].copy_from_slice(&size.to_be_bytes());
    data[at + 9..at + 17].copy_from_slice(&rng.next_u64().to_be_bytes());
    data[at + 17] = name.len() as u8;
    data[at + HEADER..end].copy_from_slice(name);
    end
}

#[cfg(test)]
mod tests {
    use super::*;
    use crate::by_model;
    use crate::draw::{draw_case, draw_check};
    use crate::tally::Tally;

    /// Draws a card and makes calls on it by a model that knows all forms. What an accepted change leaves passes the check.
    fn play(form: Form, tally: &mut Tally, rng: &mut Rng) {
        let mut scene = draw(Known::ALL, rng);
        for number in 0..scene.calls() {
            let counts = scene.form == form;
            let case = if number == 0 { draw_check(&mut scene, rng) } else { draw_case(&mut scene, rng) };
            let outcome = by_model::run(&case, Known::ALL);
            if counts {
                tally.add(case.call, &outcome.answer);
            }
            if let (Ok(_), Some(image)) = (&outcome.answer, &outcome.image) {
                let mount = Mount { k: case.k, code: case.code, known: Known::ALL };
                assert_eq!(model::check(image, mount, &mut vec![0; image.len() / 4096 + 1]), Ok(()), "{case}");
            }
            scene.go_on(case, outcome);
        }
    }

    #[test]
    fn cards_of_all_forms_are_drawn() {
        for (seed, form) in [Form::V1, Form::V2, Form::Large].into_iter().enumerate() {
            let mut tally = Tally::new();
            let mut rng = Rng::new(seed as u64);
            while tally.calls() < 800 {
                play(form, &mut tally, &mut rng);
            }
            assert!(tally.missed().len() < 30, "{form:?} without {:?}", tally.missed());
        }
    }
}
