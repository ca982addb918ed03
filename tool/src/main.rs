//! `mfs`: list, read, change, check and draw MFS card images. What is on a card is decided by the proved library alone
//! (`library.rs`); the tool around it finds the volume in the file, keeps the file whole while it is changed, and explains.
mod advice;
mod args;
mod changing;
mod check;
mod code;
mod copying;
mod df;
mod dump;
mod failure;
mod format;
mod help;
mod host;
mod human;
mod image;
mod json;
mod layout;
mod library;
mod listing;
mod map;
mod mapping;
mod output;
mod progress;
mod removing;
mod svg;
mod undo;
mod walker;

use std::process::ExitCode;

fn main() -> ExitCode {
    host::die_of_closed_pipes();
    let words: Vec<_> = std::env::args_os().skip(1).collect();
    let json = args::wants_json(&words);
    let answer = args::parse(words).and_then(|call| (call.command.run)(&call));
    match answer {
        Ok(()) => ExitCode::SUCCESS,
        Err(failure) => {
            output::complain(&failure, json);
            ExitCode::from(failure.code())
        }
    }
}
