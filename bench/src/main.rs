//! The calls of the proved library timed beside those of the original Rust, on the same images in one run; and the check beside a
//! plain loop that only touches the same blocks. docs/BENCHMARKS.md says how to run it, and what it showed.
//!
//! No time is asserted. That both sides give the same answers and leave the same images is asserted in every run.
mod calls;
mod chart;
mod images;
mod night;
mod rows;
mod side;
mod table;
mod timing;
mod whole_check;

use calls::{Call, Timed};
use chart::{Line, Panel};
use images::{Fill, LARGE, SMALL};
use night::{Figures, Night};
use rows::{Group, Row, GROUPS};
use side::{Original, Ours};
use std::process::ExitCode;
use timing::median;
use whole_check::Full;

const USAGE: &str = "usage: bench [--runs N] [--only TEXT] [--chart FILE.svg]
     | bench --callgrind-check long|short MIB
     | bench --callgrind-names COUNT
     | bench --image long|short|meters MIB FILE";
const NO_ORIGINAL: &str =
    "The original Rust was not at hand, so only this library is timed. To compare, give the folder that holds src/sys/fs: \
                           MOROS_SRC=FOLDER RUSTC_BOOTSTRAP=1 cargo run --release -p bench";

/// What a timing is asked for.
struct Wish<'a> {
    runs: usize,
    /// Only rows whose label has this text in it.
    only: &'a str,
    /// Where the chart of the updates goes, if one is wanted.
    chart: Option<&'a str>,
}

fn main() -> ExitCode {
    let args: Vec<String> = std::env::args().skip(1).collect();
    let args: Vec<&str> = args.iter().map(String::as_str).collect();
    let done = match args[..] {
        ["--callgrind-check", fill, mib] => check_and_touch_once(fill, mib),
        ["--callgrind-names", count] => check_names_once(count),
        ["--image", holds, mib, file] => write_image(holds, mib, file),
        _ => read_wish(&args).map(|wish| time_all(&wish)),
    };
    match done {
        Some(()) => ExitCode::SUCCESS,
        None => {
            eprintln!("{USAGE}");
            ExitCode::from(2)
        }
    }
}

fn read_wish<'a>(args: &[&'a str]) -> Option<Wish<'a>> {
    let mut wish = Wish { runs: 11, only: "", chart: None };
    for pair in args.chunks(2) {
        match *pair {
            ["--runs", runs] => wish.runs = runs.parse().ok().filter(|&runs| runs > 0)?,
            ["--only", text] => wish.only = text,
            ["--chart", file] => wish.chart = Some(file),
            _ => return None,
        }
    }
    Some(wish)
}

fn time_all(wish: &Wish) {
    println!("Runs, of which each figure is the median: {}", wish.runs);
    let mut original = Original::at_hand();
    if original.is_none() {
        println!("{NO_ORIGINAL}");
    }
    time_calls(wish, original.as_mut());
    time_nights(wish, original.as_mut());
    time_checks(wish);
}

fn time_calls(wish: &Wish, mut original: Option<&mut Original>) {
    let of_interest =
        |group: &'static Group| group.rows.iter().filter(|row| row.label.contains(wish.only)).collect::<Vec<&Row>>();
    let wanted: Vec<_> =
        GROUPS.iter().map(|group| (group.image, of_interest(group))).filter(|(_, rows)| !rows.is_empty()).collect();
    if wanted.is_empty() {
        return;
    }
    table::head(&["call", "ours", "its check", "the rest", "the Rust", "ours / Rust", "rest / Rust"]);
    for (image, rows) in wanted {
        time_group(image, &rows, original.as_deref_mut(), wish.runs);
    }
}

fn time_group(image: fn() -> Vec<u8>, rows: &[&Row], mut original: Option<&mut Original>, runs: usize) {
    let mut ours = Ours::new(image());
    if let Some(original) = &mut original {
        original.load(ours.image());
    }
    for row in rows {
        time_call(row, &mut ours, original.as_deref_mut(), runs);
    }
}

fn time_call(row: &Row, ours: &mut Ours, mut original: Option<&mut Original>, runs: usize) {
    let (mut own, mut others) = (Vec::new(), Vec::new());
    for run in 0..runs {
        let Some(original) = original.as_deref_mut() else {
            own.push(row.call.time(ours));
            continue;
        };
        let (mine, theirs) = time_both(&row.call, ours, original, run % 2 == 0);
        assert!(mine.answer == theirs.answer, "the answers differ: {}", row.label);
        original.assert_image(ours.image(), row.label);
        own.push(mine);
        others.push(theirs.whole);
    }
    table::line(&cells(row, &own, others));
}

/// One run on both sides; who comes first changes from run to run.
fn time_both(call: &Call, ours: &mut Ours, original: &mut Original, ours_first: bool) -> (Timed, Timed) {
    if ours_first {
        let mine = call.time(ours);
        (mine, call.time(original))
    } else {
        let theirs = call.time(original);
        (call.time(ours), theirs)
    }
}

fn cells(row: &Row, own: &[Timed], others: Vec<f64>) -> Vec<String> {
    let over_runs = |figure: fn(&Timed) -> f64| median(own.iter().map(figure).collect());
    let [whole, check, rest] = [over_runs(|timed| timed.whole), over_runs(|timed| timed.check), over_runs(|timed| timed.rest)];
    let other = (!others.is_empty()).then(|| median(others));
    let where_checked = |cell: String| if matches!(row.call, Call::Checked(..)) { cell } else { String::new() };
    let beside_other = |ours: f64| other.map_or(String::new(), |other| table::ratio(ours, other));
    vec![
        row.label.to_string(),
        table::time(whole),
        where_checked(table::time(check)),
        where_checked(table::time(rest)),
        other.map_or(String::new(), table::time),
        beside_other(whole),
        where_checked(beside_other(rest)),
    ]
}

fn time_nights(wish: &Wish, mut original: Option<&mut Original>) {
    let wanted: Vec<Night> = Night::all().into_iter().filter(|night| night.label().contains(wish.only)).collect();
    if wanted.is_empty() {
        return;
    }
    table::head(&[
        "open, read, seek, write 8 bytes",
        "ours",
        "its check",
        "the Rust",
        "ours / Rust",
        "a night, ours",
        "a night, the Rust",
    ]);
    let mut timed = Vec::new();
    for night in wanted {
        let figures = night.time(original.as_deref_mut(), wish.runs);
        let whole = |one: f64| table::time(one * f64::from(night.meters));
        table::line(&[
            night.label(),
            table::time(figures.ours),
            table::time(figures.check),
            figures.original.map_or(String::new(), table::time),
            figures.original.map_or(String::new(), |original| table::ratio(figures.ours, original)),
            whole(figures.ours),
            figures.original.map_or(String::new(), whole),
        ]);
        timed.push((night, figures));
    }
    if let Some(file) = wish.chart {
        std::fs::write(file, chart::draw(&panels(&timed))).expect("the chart's file");
        println!("\nThe chart is in {file}.");
    }
}

/// A line of the chart: its name, whether it is of full volumes, and its figure of a row.
type Drawn = (&'static str, bool, fn(&Figures) -> Option<f64>);

/// A panel for each size of volume, with a line for each side and fill that has been timed.
fn panels(timed: &[(Night, Figures)]) -> Vec<Panel> {
    let lines: [Drawn; 4] = [
        ("ours, nearly empty", false, |figures| Some(figures.ours)),
        ("ours, full", true, |figures| Some(figures.ours)),
        ("the Rust, nearly empty", false, |figures| figures.original),
        ("the Rust, full", true, |figures| figures.original),
    ];
    let line = |mib: u32, (name, full, figure): Drawn| {
        let here = timed.iter().filter(|(night, _)| night.mib == mib && night.full == full);
        let points = here.filter_map(|(night, figures)| Some((f64::from(night.meters), figure(figures)?))).collect();
        Line { name, points }
    };
    let panel = |mib| Panel { title: format!("{mib} MiB, one update"), lines: lines.map(|of| line(mib, of)).into() };
    [SMALL, LARGE].map(panel).into()
}

fn time_checks(wish: &Wish) {
    let kinds = [
        (Fill::Long, "files of 1 MiB"),
        (Fill::Scattered, "files of 1 MiB, blocks scattered"),
        (Fill::Short, "files of one block"),
    ];
    let volumes =
        [SMALL, LARGE].into_iter().flat_map(|mib| kinds.map(|(fill, holds)| (mib, fill, format!("check, {mib} MiB, {holds}"))));
    let wanted: Vec<_> = volumes.filter(|(_, _, label)| label.contains(wish.only)).collect();
    if wanted.is_empty() {
        return;
    }
    table::head(&["check of a full volume", "blocks", "check", "plain loop", "check / loop", "check, a block", "loop, a block"]);
    for (mib, fill, label) in wanted {
        time_check(&label, Full::new(mib, fill), wish.runs);
    }
}

fn time_check(label: &str, mut full: Full, runs: usize) {
    let blocks = f64::from(full.blocks());
    let figures = full.time(runs);
    table::line(&[
        label.to_string(),
        full.blocks().to_string(),
        table::time(figures.check),
        table::time(figures.touch),
        table::ratio(figures.check, figures.touch),
        table::time(figures.check / blocks),
        table::time(figures.touch / blocks),
    ]);
}

/// Writes an image for the check in C that stands in bench/twin.
fn write_image(holds: &str, mib: &str, file: &str) -> Option<()> {
    let mib = mib.parse().ok()?;
    let image = match holds {
        "long" => images::full(mib, Fill::Long).image,
        "short" => images::full(mib, Fill::Short).image,
        "meters" => images::meters(mib, 1000, false),
        _ => return None,
    };
    std::fs::write(file, image).expect("the image's file");
    Some(())
}

/// One check of a volume of 64 MiB with so many short files in one directory, for callgrind to count.
fn check_names_once(count: &str) -> Option<()> {
    let image = images::directory(64, count.parse().ok()?);
    let mut work = vec![0; image.len() / 4096];
    mfs::check(&image, original_k8::K, mfs::CODE_512, &mut work).expect("a well-formed volume");
    Some(())
}

/// What the script bench/callgrind counts: one check and one plain loop. The number of blocks is all that is printed.
fn check_and_touch_once(fill: &str, mib: &str) -> Option<()> {
    let fill = match fill {
        "long" => Fill::Long,
        "short" => Fill::Short,
        _ => return None,
    };
    let mut full = Full::new(mib.parse().ok()?, fill);
    full.check();
    full.touch();
    println!("{}", full.blocks());
    Some(())
}
