//! A chart of the time of one update over the number of meters, as SVG: a panel for each size of volume, axes by powers of ten.
use std::fmt::Write;

/// Sizes in the units of the drawing.
const PANEL: f64 = 420.0;
const HEIGHT: f64 = 380.0;
const LEFT: f64 = 70.0;
const TOP: f64 = 40.0;
const WIDE: f64 = 320.0;
const HIGH: f64 = 260.0;
/// A colour and a dash for each line.
const STYLES: [(&str, &str); 4] = [("#1f6f4a", "6 4"), ("#1f6f4a", "none"), ("#b4451f", "6 4"), ("#b4451f", "none")];

/// One line of a panel: its name, and pairs of meters and nanoseconds.
pub struct Line {
    pub name: &'static str,
    pub points: Vec<(f64, f64)>,
}

pub struct Panel {
    pub title: String,
    pub lines: Vec<Line>,
}

/// The powers of ten that hold all of these between them.
fn decades(values: impl Iterator<Item = f64>) -> (i32, i32) {
    let (low, high) = values.fold((f64::MAX, f64::MIN), |(low, high), v| (low.min(v.log10()), high.max(v.log10())));
    (low.floor() as i32, high.ceil() as i32)
}

/// Where a value stands between two powers of ten, from 0 to 1.
fn share(value: f64, (low, high): (i32, i32)) -> f64 {
    (value.log10() - f64::from(low)) / f64::from((high - low).max(1))
}

/// The whole drawing. Every panel has the same scale, so that they can be compared.
pub fn draw(panels: &[Panel]) -> String {
    let points = || panels.iter().flat_map(|panel| &panel.lines).flat_map(|line| &line.points);
    let (across, up) = (decades(points().map(|point| point.0)), decades(points().map(|point| point.1)));
    let mut svg = String::new();
    let width = PANEL * panels.len() as f64;
    let head = r#"xmlns="http://www.w3.org/2000/svg" font-family="sans-serif" font-size="12""#;
    writeln!(svg, r#"<svg {head} width="{width}" height="{HEIGHT}">"#).expect("a string");
    writeln!(svg, r#"<rect width="{width}" height="{HEIGHT}" fill="white"/>"#).expect("a string");
    for (i, panel) in panels.iter().enumerate() {
        writeln!(svg, r#"<g transform="translate({} {TOP})">"#, LEFT + PANEL * i as f64).expect("a string");
        draw_panel(&mut svg, panel, across, up).expect("a string");
        svg.push_str("</g>\n");
    }
    svg.push_str("</svg>\n");
    svg
}

fn draw_panel(svg: &mut String, panel: &Panel, across: (i32, i32), up: (i32, i32)) -> std::fmt::Result {
    writeln!(svg, r#"<text x="{}" y="-16" text-anchor="middle" font-size="14">{}</text>"#, WIDE / 2.0, panel.title)?;
    for power in across.0..=across.1 {
        let x = WIDE * share(10f64.powi(power), across);
        writeln!(svg, r##"<path d="M{x:.1} 0V{HIGH}" stroke="#ddd"/>"##)?;
        writeln!(svg, r#"<text x="{x:.1}" y="{}" text-anchor="middle">{}</text>"#, HIGH + 16.0, 10f64.powi(power))?;
    }
    for power in up.0..=up.1 {
        let y = HIGH * (1.0 - share(10f64.powi(power), up));
        writeln!(svg, r##"<path d="M0 {y:.1}H{WIDE}" stroke="#ddd"/>"##)?;
        writeln!(svg, r#"<text x="-6" y="{:.1}" text-anchor="end">{}</text>"#, y + 4.0, crate::table::time(10f64.powi(power)))?;
    }
    writeln!(svg, r#"<text x="{}" y="{}" text-anchor="middle">meters</text>"#, WIDE / 2.0, HIGH + 34.0)?;
    for (i, (line, (colour, dash))) in panel.lines.iter().zip(STYLES).enumerate() {
        let stroke = format!(r#"fill="none" stroke="{colour}" stroke-width="2" stroke-dasharray="{dash}""#);
        let place = |&(x, y): &(f64, f64)| format!("{:.1},{:.1}", WIDE * share(x, across), HIGH * (1.0 - share(y, up)));
        let points: Vec<String> = line.points.iter().map(place).collect();
        writeln!(svg, r#"<polyline points="{}" {stroke}/>"#, points.join(" "))?;
        let (x, y) = (170.0 * (i % 2) as f64, HIGH + 52.0 + 16.0 * (i / 2) as f64);
        writeln!(svg, r#"<path d="M{x} {}h24" {stroke}/>"#, y - 4.0)?;
        writeln!(svg, r#"<text x="{}" y="{y}">{}</text>"#, x + 30.0, line.name)?;
    }
    Ok(())
}

#[cfg(test)]
mod tests {
    use super::{decades, draw, share, Line, Panel};

    #[test]
    fn values_lie_between_their_decades() {
        assert_eq!(decades([120.0, 9000.0].into_iter()), (2, 4));
        assert_eq!(share(1000.0, (2, 4)), 0.5);
    }

    #[test]
    fn a_drawing_has_each_line_of_each_panel() {
        let panel = |title: &str| Panel {
            title: title.to_string(),
            lines: ["ours, full", "the Rust, full"].map(|name| Line { name, points: vec![(100.0, 1e4), (1000.0, 2e5)] }).into(),
        };
        let svg = draw(&[panel("64 MiB"), panel("1024 MiB")]);
        assert_eq!(svg.matches("<polyline").count(), 4);
        assert!(svg.starts_with("<svg") && svg.ends_with("</svg>\n"));
    }
}
