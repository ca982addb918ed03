//! What the tool says: results on the standard output, all else on the standard error.
use crate::args::Options;
use crate::failure::Failure;
use crate::json::Object;
use std::io::{self, BufWriter, Stdout, Write};

/// The results of a command.
pub struct Output {
    to: BufWriter<Stdout>,
    pub json: bool,
    quiet: bool,
}

impl Output {
    pub fn new(options: &Options) -> Output {
        Output { to: BufWriter::with_capacity(1 << 16, io::stdout()), json: options.json, quiet: options.quiet }
    }

    /// A line for people.
    pub fn line(&mut self, text: &str) -> Result<(), Failure> {
        self.bytes(text.as_bytes())?;
        self.bytes(b"\n")
    }

    /// An object for programs.
    pub fn object(&mut self, object: &Object) -> Result<(), Failure> {
        self.line(&object.line())
    }

    /// The object with `--json`, the line otherwise.
    pub fn either(&mut self, object: impl FnOnce() -> Object, line: impl FnOnce() -> String) -> Result<(), Failure> {
        if self.json {
            self.object(&object())
        } else {
            self.line(&line())
        }
    }

    /// The object with `--json`; people hear nothing of what went as they wished.
    pub fn done(&mut self, object: impl FnOnce() -> Object) -> Result<(), Failure> {
        if self.json {
            self.object(&object())
        } else {
            Ok(())
        }
    }

    pub fn bytes(&mut self, bytes: &[u8]) -> Result<(), Failure> {
        self.to.write_all(bytes).map_err(|error| Failure::host("standard output", error))
    }

    pub fn flush(&mut self) -> Result<(), Failure> {
        self.to.flush().map_err(|error| Failure::host("standard output", error))
    }

    /// To be called last: a full disk below the standard output shows only then.
    pub fn end(mut self) -> Result<(), Failure> {
        self.flush()
    }

    /// A remark, on the standard error.
    pub fn note(&self, subject: &str, text: &str) {
        if !self.quiet {
            self.warn(subject, text);
        }
    }

    /// What must be said, also where remarks are not wanted.
    pub fn warn(&self, subject: &str, text: &str) {
        if self.json {
            say(&Object::new().text("note", text).text("subject", subject).line());
        } else {
            say(&format!("mfs: {subject}: {text}"));
        }
    }
}

/// A line on the standard error. Nothing can be done where that fails.
fn say(line: &str) {
    let _ = writeln!(io::stderr().lock(), "{line}");
}

/// Tells a failure, on the standard error.
pub fn complain(failure: &Failure, json: bool) {
    if let Some(line) = if json { as_object(failure) } else { as_text(failure) } {
        say(&line);
    }
}

fn as_text(failure: &Failure) -> Option<String> {
    let with_advice = |text: String, advice: &str| if advice.is_empty() { text } else { format!("{text}: {advice}") };
    Some(match failure {
        Failure::Refused { subject, number, reason, advice } => {
            with_advice(format!("mfs: {subject}: refused {number}: {reason}"), advice)
        }
        Failure::Usage { reason, command: Some(command) } => format!("mfs {command}: {reason}\nTry 'mfs help {command}'."),
        Failure::Usage { reason, command: None } => format!("mfs: {reason}\nTry 'mfs help'."),
        Failure::Host { subject, reason, advice } => with_advice(format!("mfs: {subject}: {reason}"), advice),
        Failure::Part { done, failed } => format!("mfs: {done} done, {failed} not"),
        Failure::Bug { reason } => format!("mfs: {reason}: this is a fault of the tool: please report it with the image"),
        Failure::Told(_) => return None,
    })
}

fn as_object(failure: &Failure) -> Option<String> {
    let object = Object::new();
    let object = match failure {
        Failure::Refused { subject, number, reason, advice } => object
            .text("error", "refused")
            .number("number", *number)
            .text("subject", subject)
            .text("reason", reason)
            .text("advice", advice),
        Failure::Usage { reason, .. } => object.text("error", "usage").text("reason", reason),
        Failure::Host { subject, reason, advice } => {
            object.text("error", "host").text("subject", subject).text("reason", reason).text("advice", advice)
        }
        Failure::Part { done, failed } => {
            object.text("error", "part").number("done", *done as u64).number("failed", *failed as u64)
        }
        Failure::Bug { reason } => object.text("error", "bug").text("reason", reason),
        Failure::Told(_) => return None,
    };
    Some(object.number("exit", failure.code()).line())
}
