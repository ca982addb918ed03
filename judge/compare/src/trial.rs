//! An image and the calls on it: what to report where the sides differ, and the search for the shortest sequence that still does.
use crate::call::Call;
use crate::original::Original;
use crate::party::Party;
use crate::sides::{Difference, Sides, Verdict};
use std::fmt;

/// The image that calls begin with.
pub struct Start {
    /// Who makes the calls on our side.
    pub by: &'static dyn Party,
    pub k: u32,
    pub image: Vec<u8>,
    /// What the image is.
    pub what: String,
    /// The image holds no volume before the first call, which formats it.
    pub raw: bool,
}

/// Calls of which the last one differs.
pub struct Found {
    pub start: String,
    pub calls: Vec<Call>,
    /// The number of the last call among those that were made.
    pub number: usize,
    pub difference: Difference,
}

impl fmt::Display for Found {
    fn fmt(&self, f: &mut fmt::Formatter<'_>) -> fmt::Result {
        writeln!(f, "DIFFERENCE at call {} on {}; these calls show it:", self.number, self.start)?;
        for call in &self.calls {
            writeln!(f, "  {call}")?;
        }
        write!(f, "{}", self.difference)
    }
}

impl Start {
    /// Both sides at the beginning.
    pub fn sides<'a>(&self, original: &'a mut dyn Original) -> Sides<'a> {
        Sides::new(self.by, original, self.image.clone(), self.k)
    }

    /// Leaves out calls as long as the last one still differs.
    pub fn shorten(&self, made: Vec<Call>, difference: Difference, original: &mut dyn Original) -> Found {
        let mut found = Found { start: self.what.clone(), number: made.len(), calls: made, difference };
        let mut part = found.calls.len() / 2;
        while part > 0 {
            let mut end = found.calls.len() - 1;
            while end > 0 {
                let from = end.saturating_sub(part);
                let mut fewer = found.calls.clone();
                fewer.drain(from..end);
                if let Some(difference) = self.replay(&fewer, original) {
                    found.calls = fewer;
                    found.difference = difference;
                }
                end = from;
            }
            part /= 2;
        }
        found
    }

    /// The difference of the last call, if it and no other differs.
    fn replay(&self, calls: &[Call], original: &mut dyn Original) -> Option<Difference> {
        if self.raw && calls.first() != Some(&Call::Format) {
            return None;
        }
        let mut sides = self.sides(original);
        let (last, before) = calls.split_last()?;
        for call in before {
            if matches!(sides.step(call), Verdict::Differs(_)) {
                return None;
            }
        }
        match sides.step(last) {
            Verdict::Differs(difference) => Some(difference),
            _ => None,
        }
    }
}
