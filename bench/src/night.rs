//! A collector's night: each meter's file is opened and read, and its counter written over. One such update is timed, at several
//! sizes of the volume, numbers of meters and fills; what a night takes follows from it.
use crate::images::{self, COUNTER, LARGE, SMALL};
use crate::side::{Original, Ours, Side};
use crate::timing::{median, once};

/// The meters of which an update is timed in each run, evenly spread: a directory's last entries take longer to find.
const SAMPLE: u32 = 5;

/// A volume that a night is timed on.
pub struct Night {
    pub mib: u32,
    pub meters: u32,
    /// No block is free, or nearly all are.
    pub full: bool,
}

/// The medians of several runs, for one update.
pub struct Figures {
    pub ours: f64,
    /// The check alone, right before.
    pub check: f64,
    pub original: Option<f64>,
}

impl Night {
    /// Every volume that has a row.
    pub fn all() -> Vec<Night> {
        let mut all = Vec::new();
        for mib in [SMALL, LARGE] {
            for full in [false, true] {
                all.extend([100, 1000, 10_000].map(|meters| Night { mib, meters, full }));
            }
        }
        all
    }

    pub fn label(&self) -> String {
        format!("update, {} MiB, {}, {} meters", self.mib, if self.full { "full" } else { "nearly empty" }, self.meters)
    }

    /// Times updates on both sides, one after the other in each run. That both read the same and leave the same image is asserted.
    pub fn time(&self, mut original: Option<&mut Original>, runs: usize) -> Figures {
        let mut ours = Ours::new(images::meters(self.mib, self.meters, self.full));
        if let Some(original) = &mut original {
            original.load(ours.image());
        }
        let (mut own, mut check, mut others) = (Vec::new(), Vec::new(), Vec::new());
        for run in 0..runs {
            for path in self.sample() {
                ours.check();
                check.push(once(|| ours.check()).0);
                let counter = [run as u8; COUNTER as usize];
                let (time, read) = once(|| update(&mut ours, &path, counter));
                own.push(time);
                if let Some(original) = original.as_deref_mut() {
                    let (time, same) = once(|| update(original, &path, counter));
                    assert!(read == same, "the counters differ: {path}");
                    others.push(time);
                }
            }
            if let Some(original) = original.as_deref_mut() {
                original.assert_image(ours.image(), &self.label());
            }
        }
        Figures { ours: median(own), check: median(check), original: (!others.is_empty()).then(|| median(others)) }
    }

    /// The paths of the meters that are timed.
    fn sample(&self) -> Vec<String> {
        (1..=SAMPLE).map(|i| images::meter(self.meters / SAMPLE * i - 1)).collect()
    }
}

/// Opens a meter's file, reads its counter, and stores another over it. Answers what it read.
fn update<S: Side>(side: &mut S, path: &str, counter: [u8; COUNTER as usize]) -> [u8; COUNTER as usize] {
    let mut file = side.open(path);
    let mut read = [0; COUNTER as usize];
    assert_eq!(side.read(&mut file, &mut read), read.len(), "bytes read");
    side.seek(&mut file, 0);
    side.write(&mut file, &counter);
    read
}

#[cfg(test)]
mod tests {
    use super::Night;

    #[test]
    fn the_last_meter_is_among_those_timed() {
        let night = Night { mib: 64, meters: 10_000, full: false };
        assert_eq!(night.sample().last().map(String::as_str), Some("/d00009/m00999"));
    }

    #[test]
    fn an_update_is_timed_on_a_small_volume() {
        let figures = Night { mib: 1, meters: 100, full: true }.time(None, 1);
        assert!(figures.ours > 0.0 && figures.original.is_none());
    }
}
