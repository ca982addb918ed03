//! `map`: the card as a picture, in the terminal or as SVG.
use crate::args::Call;
use crate::check;
use crate::failure::Failure;
use crate::human;
use crate::image::Reading;
use crate::json::Object;
use crate::layout::Geometry;
use crate::output::Output;
use crate::svg;
use crate::walker::{self, Kind, Walk};
use std::collections::HashSet;
use std::io::IsTerminal;

/// Columns of the picture in a terminal, and rows at most: a cell stands for several blocks where the card has more.
const COLUMNS: u32 = 64;
const ROWS: u32 = 32;

/// What a block is. Where a cell stands for several blocks, the last of them in this order is shown.
#[derive(Clone, Copy, Debug, PartialEq, Eq, PartialOrd, Ord)]
pub enum Part {
    Outside,
    Free,
    OutOfReach,
    File,
    Device,
    Dir,
    Bitmap,
    Superblock,
    Finding,
}

impl Part {
    pub const ALL: [Part; 9] = [
        Part::Superblock,
        Part::Bitmap,
        Part::Dir,
        Part::File,
        Part::Device,
        Part::Free,
        Part::OutOfReach,
        Part::Outside,
        Part::Finding,
    ];

    /// The letter, the words of the legend, the terminal's colour and that of the SVG.
    fn looks(self) -> (char, &'static str, u8, &'static str) {
        match self {
            Part::Superblock => ('S', "superblock", 35, "#7b3294"),
            Part::Bitmap => ('B', "bitmap", 34, "#2c7fb8"),
            Part::Dir => ('d', "directory", 33, "#e6a000"),
            Part::File => ('f', "file", 32, "#4daf4a"),
            Part::Device => ('v', "device", 36, "#41b6c4"),
            Part::Free => ('.', "free", 37, "#eeeeee"),
            Part::OutOfReach => ('-', "free, out of reach", 90, "#bdbdbd"),
            Part::Outside => (' ', "not of the volume", 90, "#ffffff"),
            Part::Finding => ('!', "finding of check --explain", 31, "#e31a1c"),
        }
    }

    pub fn letter(self) -> char {
        self.looks().0
    }

    pub fn words(self) -> &'static str {
        self.looks().1
    }

    pub fn fill(self) -> &'static str {
        self.looks().3
    }
}

/// A card with all that is known of its blocks.
pub struct Card<'a> {
    pub name: &'a str,
    pub blocks: u32,
    geometry: Geometry,
    walk: Walk<'a>,
    found: HashSet<u32>,
}

impl<'a> Card<'a> {
    fn of(image: &'a Reading) -> Result<Card<'a>, Failure> {
        let geometry = image.geometry()?;
        let walk = walker::walk(image.bytes(), geometry);
        let found = walk.findings.iter().map(|finding| finding.block).collect();
        let blocks = image.mount.blocks_of(image.bytes());
        Ok(Card { name: &image.name, blocks, geometry, walk, found })
    }

    pub fn findings(&self) -> usize {
        self.walk.findings.len()
    }

    fn part(&self, addr: u32) -> Part {
        let geometry = self.geometry;
        if self.found.contains(&addr) || (geometry.holds(addr) && self.walk.has_wrong_bit(addr)) {
            return Part::Finding;
        }
        if !geometry.holds(addr) {
            return match addr {
                addr if addr == geometry.mount.k => Part::Superblock,
                addr if (geometry.bitmap()..geometry.data()).contains(&addr) => Part::Bitmap,
                _ => Part::Outside,
            };
        }
        match self.walk.owner_kind(addr) {
            Some(Kind::Dir) => Part::Dir,
            Some(Kind::File) => Part::File,
            Some(Kind::Device) => Part::Device,
            None if addr - geometry.data() < geometry.reach() => Part::Free,
            None => Part::OutOfReach,
        }
    }

    /// Blocks that one cell stands for, so that there are no more than `cells` of them.
    pub fn blocks_a_cell(&self, cells: u32) -> u32 {
        self.blocks.div_ceil(cells).next_power_of_two()
    }

    /// The cells of the picture, each with its first block.
    pub fn cells(&self, blocks_a_cell: u32) -> impl Iterator<Item = (u32, Part)> + '_ {
        (0..self.blocks).step_by(blocks_a_cell as usize).map(move |first| {
            let last = self.blocks.min(first + blocks_a_cell);
            (first, (first..last).map(|addr| self.part(addr)).max().unwrap_or(Part::Outside))
        })
    }

    /// The path of what has a block, if something has.
    pub fn path(&self, addr: u32) -> Option<Vec<u8>> {
        self.geometry.holds(addr).then(|| self.walk.owner(addr)).flatten()
    }
}

pub fn map(call: &Call) -> Result<(), Failure> {
    let mut out = Output::new(&call.options);
    let image = Reading::open(call, &out)?;
    let card = Card::of(&image)?;
    let number = image.view().check().err().map_or(0, |refusal| refusal.number);
    check::agree(&image.name, number, card.findings())?;
    match &call.flags.svg {
        Some(file) => {
            let name = file.to_string_lossy();
            std::fs::write(file, svg::picture(&card)).map_err(|error| Failure::host(&*name, error))?;
            out.done(|| Object::new().text("did", "map").text("svg", &name))?;
        }
        None if out.json => runs(&card, &mut out)?,
        None => draw(&card, &mut out)?,
    }
    out.end()
}

/// Neighbours of one kind and path as one object.
fn runs(card: &Card, out: &mut Output) -> Result<(), Failure> {
    let look = |addr| (card.part(addr), card.walk.owner_id(addr));
    let mut start = 0;
    for addr in 1..=card.blocks {
        if addr < card.blocks && look(addr) == look(start) {
            continue;
        }
        let object = Object::new().number("from", start).number("to", addr - 1).text("kind", card.part(start).words());
        out.object(&match card.path(start) {
            Some(path) => object.bytes("path", &path),
            None => object,
        })?;
        start = addr;
    }
    Ok(())
}

fn draw(card: &Card, out: &mut Output) -> Result<(), Failure> {
    let in_colour = std::io::stdout().is_terminal() && std::env::var_os("NO_COLOR").is_none();
    let size = card.blocks_a_cell(COLUMNS * ROWS);
    let cells: Vec<(u32, Part)> = card.cells(size).collect();
    out.line(&format!("{}: {} a cell", card.name, human::count(u64::from(size), "block")))?;
    for row in cells.chunks(COLUMNS as usize) {
        let line: String = row.iter().map(|(_, part)| shown(*part, in_colour)).collect();
        out.line(format!("{:>9} {line}", row[0].0).trim_end())?;
    }
    let seen: HashSet<char> = cells.iter().map(|(_, part)| part.letter()).collect();
    let legend = Part::ALL.iter().filter(|part| seen.contains(&part.letter()) && **part != Part::Outside);
    let legend: Vec<String> = legend.map(|part| format!("{} {}", shown(*part, in_colour), part.words())).collect();
    out.line(&legend.join("   "))?;
    match card.findings() {
        0 => Ok(()),
        found => out.line(&format!("{}: 'mfs check --explain' tells them", human::count(found as u64, "finding"))),
    }
}

fn shown(part: Part, in_colour: bool) -> String {
    let (letter, _, colour, _) = part.looks();
    if in_colour {
        format!("\x1b[{colour}m{letter}\x1b[0m")
    } else {
        letter.to_string()
    }
}
