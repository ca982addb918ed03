//! Why a command did not do what it was asked, and the number that it leaves with.

/// The numbers that the tool leaves with; the manual lists them.
mod exit {
    pub const REFUSED: u8 = 1;
    pub const USAGE: u8 = 2;
    pub const HOST: u8 = 3;
    pub const DAMAGED: u8 = 4;
    pub const PART: u8 = 5;
    /// What sysexits.h calls an internal error: the walker and the proved check do not agree.
    pub const BUG: u8 = 70;
}

/// The number of the refusal that says that a volume is damaged.
pub const DAMAGED: u32 = 17;

#[derive(Clone, Debug, PartialEq, Eq)]
pub enum Failure {
    /// The library refused a call, or the tool refused on a volume's behalf before calling it.
    Refused { subject: String, number: u32, reason: String, advice: String },
    /// The command line makes no sense.
    Usage { reason: String, command: Option<&'static str> },
    /// A file of the host could not be read or written.
    Host { subject: String, reason: String, advice: String },
    /// A command on many things did some of them; each failure was told when it was met.
    Part { done: usize, failed: usize },
    /// Told already, with this number to leave with.
    Told(u8),
    /// The tool is wrong.
    Bug { reason: String },
}

impl Failure {
    pub fn usage(command: &'static str, reason: impl Into<String>) -> Failure {
        Failure::Usage { reason: reason.into(), command: Some(command) }
    }

    pub fn host(subject: impl Into<String>, reason: impl ToString) -> Failure {
        Failure::Host { subject: subject.into(), reason: reason.to_string(), advice: String::new() }
    }

    /// The number that the tool leaves with.
    pub fn code(&self) -> u8 {
        match self {
            Failure::Refused { number: DAMAGED, .. } => exit::DAMAGED,
            Failure::Refused { .. } => exit::REFUSED,
            Failure::Usage { .. } => exit::USAGE,
            Failure::Host { .. } => exit::HOST,
            Failure::Part { .. } => exit::PART,
            Failure::Told(code) => *code,
            Failure::Bug { .. } => exit::BUG,
        }
    }
}

/// How many things a command on many things did, and what failed.
#[derive(Default)]
pub struct Tally {
    pub done: usize,
    failed: Vec<u8>,
}

impl Tally {
    /// Counts one thing; a failure is told at once, so that the rest can go on.
    pub fn take(&mut self, answer: Result<(), Failure>, json: bool) {
        match answer {
            Ok(()) => self.done += 1,
            Err(Failure::Told(code)) => self.failed.push(code),
            Err(failure) => {
                self.failed.push(failure.code());
                crate::output::complain(&failure, json);
            }
        }
    }

    /// Everything done is success, a part is 5, and nothing leaves with the number of what failed first.
    pub fn answer(self) -> Result<(), Failure> {
        match (self.done, self.failed.first()) {
            (_, None) => Ok(()),
            (0, Some(&first)) => Err(Failure::Told(first)),
            (done, Some(_)) => Err(Failure::Part { done, failed: self.failed.len() }),
        }
    }
}

#[cfg(test)]
mod tests {
    use super::*;

    #[test]
    fn damage_has_a_number_of_its_own() {
        let refused =
            |number| Failure::Refused { subject: String::new(), number, reason: String::new(), advice: String::new() }.code();
        assert_eq!([refused(2), refused(17), refused(9)], [1, 4, 1]);
    }

    #[test]
    fn nothing_done_is_not_a_part() {
        let mut tally = Tally::default();
        tally.take(Err(Failure::Told(3)), false);
        assert_eq!(tally.answer(), Err(Failure::Told(3)));
        let mut tally = Tally { done: 2, ..Tally::default() };
        tally.take(Err(Failure::Told(1)), false);
        assert_eq!(tally.answer(), Err(Failure::Part { done: 2, failed: 1 }));
    }
}
