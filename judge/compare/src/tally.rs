//! How many calls were compared, and how many left out.
use crate::call::Call;
use crate::domain::Reason;
use crate::sides::Verdict;
use std::collections::BTreeMap;
use std::fmt;

/// Counts by kind of call and answer, and by the reason for leaving out.
#[derive(Debug, Default)]
pub struct Tally {
    compared: BTreeMap<(&'static str, String), u64>,
    left_out: BTreeMap<Reason, u64>,
    not_made: u64,
}

impl Tally {
    pub fn count(&mut self, call: &Call, verdict: &Verdict) {
        match verdict {
            Verdict::Same(_, refusal) => {
                let answer = refusal.map_or("accepted".to_string(), |number| format!("refused {number}"));
                *self.compared.entry((call.kind(), answer)).or_default() += 1;
            }
            Verdict::LeftOut(reason) => *self.left_out.entry(*reason).or_default() += 1,
            Verdict::NotMade => self.not_made += 1,
            Verdict::Differs(_) => {}
        }
    }

    pub fn add(&mut self, other: Tally) {
        for (what, count) in other.compared {
            *self.compared.entry(what).or_default() += count;
        }
        for (reason, count) in other.left_out {
            *self.left_out.entry(reason).or_default() += count;
        }
        self.not_made += other.not_made;
    }

    /// The number of calls compared.
    pub fn compared(&self) -> u64 {
        self.compared.values().sum()
    }
}

impl fmt::Display for Tally {
    fn fmt(&self, f: &mut fmt::Formatter<'_>) -> fmt::Result {
        for ((kind, answer), count) in &self.compared {
            writeln!(f, "  {count:>9}  {kind}, {answer}")?;
        }
        for (reason, count) in &self.left_out {
            writeln!(f, "  {count:>9}  left out: {reason}")?;
        }
        writeln!(f, "  {:>9}  not made: nothing open there, or a listing from past the last entry", self.not_made)?;
        write!(f, "  {:>9}  compared in all", self.compared())
    }
}
