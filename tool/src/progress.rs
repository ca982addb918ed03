//! A bar on the standard error, where that is a terminal and the work takes more than a second.
use crate::args::Options;
use std::io::{self, IsTerminal, Write};
use std::time::{Duration, Instant};

/// Work shorter than this shows no bar.
const PATIENCE: Duration = Duration::from_secs(1);
/// The bar is drawn anew no more often than this.
const PAUSE: Duration = Duration::from_millis(100);
const WIDTH: u64 = 30;

pub struct Progress {
    label: &'static str,
    started: Instant,
    /// None while no bar stands on the screen.
    drawn: Option<Instant>,
    enabled: bool,
}

impl Progress {
    pub fn new(label: &'static str, options: &Options) -> Progress {
        let enabled = options.progress && !options.quiet && io::stderr().is_terminal();
        Progress { label, started: Instant::now(), drawn: None, enabled }
    }

    /// So much of the work is done.
    pub fn at(&mut self, done: u64, total: u64) {
        let now = Instant::now();
        let due = self.drawn.map_or(self.started + PATIENCE, |drawn| drawn + PAUSE);
        if self.enabled && now >= due {
            self.drawn = Some(now);
            let _ = write!(io::stderr().lock(), "\r{}", bar(self.label, done, total));
        }
    }
}

impl Drop for Progress {
    fn drop(&mut self) {
        if self.drawn.is_some() {
            let _ = write!(io::stderr().lock(), "\r\x1b[K");
        }
    }
}

fn bar(label: &str, done: u64, total: u64) -> String {
    let total = total.max(1);
    let part = |of: u64| (u128::from(done.min(total)) * u128::from(of) / u128::from(total)) as u64;
    let filled = part(WIDTH) as usize;
    format!("{label} [{}{}] {:3}%", "#".repeat(filled), ".".repeat(WIDTH as usize - filled), part(100))
}

#[cfg(test)]
mod tests {
    use super::bar;

    #[test]
    fn the_bar_fills_from_the_left() {
        assert_eq!(bar("put", 0, 0), "put [..............................]   0%");
        assert_eq!(bar("put", 1, 2), "put [###############...............]  50%");
        assert_eq!(bar("put", 9, 2), "put [##############################] 100%");
    }
}
