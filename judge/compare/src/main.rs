//! Compares the proved library with the original Rust, or records the original's answers to a fixed list of calls.
use compare::edges::compare_edges;
use compare::formats::compare_formats;
use compare::original::{ABSENT, PRESENT};
use compare::paths::compare_paths;
use compare::record::record;
use compare::sequences::{compare_old_cards, compare_sequences};
use compare::tally::Tally;
use compare::trial::Found;
use compare::watch;
use model::Known;
use std::io::{stdout, BufWriter, Write};
use std::process::ExitCode;
use std::time::Instant;

const USAGE: &str = "usage: compare [--old-cards] [--calls N] [--seed S], or compare --record > FILE";

struct Arguments {
    calls: u64,
    seed: u64,
    record: bool,
    /// Cards of version 1 and nothing else.
    old_cards: bool,
}

fn main() -> ExitCode {
    let Some(arguments) = read_arguments() else {
        eprintln!("{USAGE}");
        return ExitCode::from(2);
    };
    if arguments.record {
        return write_list();
    }
    if !PRESENT {
        println!("{ABSENT}");
        return ExitCode::SUCCESS;
    }
    run(&arguments)
}

/// Without the original there is no list, and a file that was to hold it must not seem one.
fn write_list() -> ExitCode {
    if !PRESENT {
        eprintln!("{ABSENT}");
        return ExitCode::FAILURE;
    }
    let mut out = BufWriter::new(stdout().lock());
    match record(&mut out).and_then(|()| out.flush()) {
        Ok(()) => ExitCode::SUCCESS,
        Err(e) => {
            eprintln!("the list was not written: {e}");
            ExitCode::FAILURE
        }
    }
}

fn run(arguments: &Arguments) -> ExitCode {
    watch::start();
    let began = Instant::now();
    let mut tally = Tally::default();
    match compare_all(arguments, &mut tally) {
        Ok(sequences) => {
            let last = arguments.seed + sequences.max(1) - 1;
            println!("{tally}");
            println!("no difference; seeds {} to {last}, {} seconds", arguments.seed, began.elapsed().as_secs());
            ExitCode::SUCCESS
        }
        Err(found) => {
            println!("{found}");
            ExitCode::FAILURE
        }
    }
}

fn compare_all(arguments: &Arguments, tally: &mut Tally) -> Result<u64, Box<Found>> {
    if arguments.old_cards {
        return compare_old_cards(arguments.seed, arguments.calls, tally);
    }
    compare_formats(arguments.seed, tally)?;
    let formats = tally.compared();
    println!("format: {formats} calls compared");
    compare_paths(tally)?;
    let paths = tally.compared();
    println!("short paths: {} calls compared", paths - formats);
    compare_edges(tally)?;
    let edges = tally.compared();
    println!("edges: {} calls compared", edges - paths);
    let sequences = compare_sequences(arguments.seed, arguments.calls, tally)?;
    println!("{sequences} sequences: {} calls compared", tally.compared() - edges);
    if Known::TODAY.version_1 {
        let before = tally.compared();
        compare_old_cards(arguments.seed, arguments.calls / 5, tally)?;
        println!("cards of version 1: {} calls compared", tally.compared() - before);
    }
    Ok(sequences)
}

fn read_arguments() -> Option<Arguments> {
    let mut arguments = Arguments { calls: 50_000, seed: 1, record: false, old_cards: false };
    let mut given = std::env::args().skip(1);
    while let Some(name) = given.next() {
        match name.as_str() {
            "--calls" => arguments.calls = given.next()?.parse().ok()?,
            "--seed" => arguments.seed = given.next()?.parse().ok()?,
            "--record" => arguments.record = true,
            "--old-cards" => arguments.old_cards = true,
            _ => return None,
        }
    }
    Some(arguments)
}
