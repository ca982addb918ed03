//! How often each call got each answer.
use crate::case::{Answer, Call};
use std::fmt;

/// Refusals have numbers up to 19.
const NUMBERS: usize = 20;

/// The number that no refusal has any more.
const UNUSED: usize = 18;

pub struct Tally {
    counts: [[u64; NUMBERS]; Call::TABLE.len()],
}

impl Tally {
    pub fn new() -> Tally {
        Tally { counts: [[0; NUMBERS]; Call::TABLE.len()] }
    }

    pub fn add(&mut self, call: Call, answer: &Answer) {
        let number = answer.as_ref().err().copied().unwrap_or(0);
        self.counts[call.row()][number as usize] += 1;
    }

    pub fn calls(&self) -> u64 {
        self.counts.iter().flatten().sum()
    }

    /// The answers that the rules name for a call and that no call got.
    pub fn missed(&self) -> Vec<String> {
        let mut missed = Vec::new();
        for ((name, refusals), counts) in Call::TABLE.iter().zip(&self.counts).take(Call::ROWS) {
            for number in [0].iter().chain(refusals.iter()) {
                if counts[*number as usize] == 0 {
                    missed.push(format!("{name} {number}"));
                }
            }
        }
        missed
    }
}

impl fmt::Display for Tally {
    fn fmt(&self, f: &mut fmt::Formatter) -> fmt::Result {
        write!(f, "{:<12}", "answer")?;
        write!(f, "{:>8}", "ok")?;
        let numbers = || (1..NUMBERS).filter(|&number| number != UNUSED);
        for number in numbers() {
            write!(f, "{number:>7}")?;
        }
        for ((name, refusals), counts) in Call::TABLE.iter().zip(&self.counts).take(Call::ROWS) {
            write!(f, "\n{name:<12}{:>8}", counts[0])?;
            for (number, count) in numbers().map(|number| (number, counts[number])) {
                let cell = if refusals.contains(&(number as u32)) { count.to_string() } else { "-".to_string() };
                write!(f, "{cell:>7}")?;
            }
        }
        Ok(())
    }
}
