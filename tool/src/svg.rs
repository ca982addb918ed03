//! The card's picture as SVG.
use crate::human;
use crate::map::{Card, Part};
use std::fmt::Write;

const COLUMNS: u32 = 96;
const ROWS: u32 = 96;
/// Points of a cell, and of the margin around the cells.
const CELL: u32 = 8;
const MARGIN: u32 = 16;
/// Points of a line of the legend.
const LINE: u32 = 18;

pub fn picture(card: &Card) -> String {
    let size = card.blocks_a_cell(COLUMNS * ROWS);
    let rows = card.blocks.div_ceil(size).div_ceil(COLUMNS);
    let legend = Part::ALL.len() as u32;
    let (width, height) = (COLUMNS * CELL + 2 * MARGIN, rows * CELL + 3 * MARGIN + (legend + 1) * LINE);
    let mut svg = format!(
        "<svg xmlns=\"http://www.w3.org/2000/svg\" width=\"{width}\" height=\"{height}\" \
         viewBox=\"0 0 {width} {height}\" font-family=\"sans-serif\" font-size=\"12\">\n"
    );
    let title = format!("{}: {}, {} a cell", card.name, human::count(u64::from(card.blocks), "block"), size);
    let _ = writeln!(svg, "<text x=\"{MARGIN}\" y=\"{MARGIN}\">{}</text>", escaped(&title));
    push_cells(&mut svg, card, size);
    for (line, part) in Part::ALL.into_iter().enumerate() {
        let y = rows * CELL + 2 * MARGIN + line as u32 * LINE;
        let _ = writeln!(
            svg,
            "<rect x=\"{MARGIN}\" y=\"{y}\" width=\"12\" height=\"12\" fill=\"{}\" stroke=\"#999\"/>\
             <text x=\"{}\" y=\"{}\">{}</text>",
            part.fill(),
            MARGIN + 20,
            y + 11,
            part.words()
        );
    }
    svg.push_str("</svg>\n");
    svg
}

/// Neighbours in a row that are alike are one box.
fn push_cells(svg: &mut String, card: &Card, size: u32) {
    let cells: Vec<(u32, Part)> = card.cells(size).collect();
    let owner = |first| if size == 1 { card.path(first) } else { None };
    for row in cells.chunks(COLUMNS as usize) {
        for alike in row.chunk_by(|a, b| a.1 == b.1 && owner(a.0) == owner(b.0)) {
            let (first, part) = alike[0];
            push_box(svg, card, [first, first + size * alike.len() as u32 - 1], size, part);
        }
    }
}

/// A box, with what it is in a title, which viewers show where the pointer rests.
fn push_box(svg: &mut String, card: &Card, [first, last]: [u32; 2], size: u32, part: Part) {
    let place = first / size;
    let (x, y) = (MARGIN + place % COLUMNS * CELL, MARGIN + LINE / 2 + place / COLUMNS * CELL);
    let width = (last + 1 - first) / size * CELL;
    let last = last.min(card.blocks - 1);
    let blocks = if first == last { format!("block {first}") } else { format!("blocks {first} to {last}") };
    let path = if size == 1 { card.path(first) } else { None };
    let path = path.map_or(String::new(), |path| format!(" {}", human::name(&path)));
    let _ = writeln!(
        svg,
        "<rect x=\"{x}\" y=\"{y}\" width=\"{width}\" height=\"{CELL}\" fill=\"{}\" stroke=\"#ccc\" stroke-width=\"0.5\">\
         <title>{}</title></rect>",
        part.fill(),
        escaped(&format!("{blocks}: {}{path}", part.words()))
    );
}

fn escaped(text: &str) -> String {
    text.replace('&', "&amp;").replace('<', "&lt;").replace('>', "&gt;")
}
