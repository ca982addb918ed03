//! Makes a case that is judged wrong as small as can be found in some seconds.
use crate::by_library::Library;
use crate::case::Case;
use crate::guard::Guarded;
use crate::judge::judge;
use model::SIZES;
use std::time::{Duration, Instant};

const PATIENCE: Duration = Duration::from_secs(20);

struct Shrinker<'a> {
    smallest: Case,
    guarded: Guarded,
    library: &'a mut Library,
    until: Instant,
    /// Whether a smaller case was found since this was last set to false.
    found: bool,
}

/// One of a case's buffers.
type Field = fn(&mut Case) -> &mut Vec<u8>;

/// Tries smaller cases, and keeps those that are still judged wrong, until none is.
pub fn shrink(case: &Case, guarded: Guarded, library: &mut Library) -> Case {
    let until = Instant::now() + PATIENCE;
    let mut shrinker = Shrinker { smallest: case.clone(), guarded, library, until, found: true };
    while shrinker.found {
        shrinker.found = false;
        shrinker.shrink_once();
    }
    shrinker.smallest
}

impl Shrinker<'_> {
    fn shrink_once(&mut self) {
        let buffers: [Field; 4] = [|case| &mut case.path, |case| &mut case.cwd, |case| &mut case.buf, |case| &mut case.work];
        for field in buffers {
            self.shorten(field);
        }
        self.shrink_numbers();
        self.cut_image();
        let contents: [Field; 3] = [|case| &mut case.buf, |case| &mut case.work, |case| &mut case.image];
        for field in contents {
            let len = field(&mut self.smallest).len();
            self.clear(field, 0, len);
        }
    }

    /// Keeps a changed case that is still wrong.
    fn attempt(&mut self, change: impl Fn(&mut Case)) -> bool {
        if Instant::now() > self.until {
            return false;
        }
        let mut changed = self.smallest.clone();
        change(&mut changed);
        let is_wrong = judge(&changed, self.guarded, self.library).is_err();
        if is_wrong {
            self.smallest = changed;
            self.found = true;
        }
        is_wrong
    }

    /// Removes runs of bytes, long ones first.
    fn shorten(&mut self, field: Field) {
        let mut run = field(&mut self.smallest).len();
        while run > 0 {
            let mut at = 0;
            while at + run <= field(&mut self.smallest).len() {
                let removed = self.attempt(|changed| {
                    field(changed).drain(at..at + run);
                });
                if !removed {
                    at += run;
                }
            }
            run /= 2;
        }
    }

    /// Makes a run of bytes zero, or as much of its halves as can be.
    fn clear(&mut self, field: Field, start: usize, end: usize) {
        let is_zero = field(&mut self.smallest)[start..end].iter().all(|&byte| byte == 0);
        if is_zero || self.attempt(|changed| field(changed)[start..end].fill(0)) || end - start == 1 {
            return;
        }
        let middle = start + (end - start) / 2;
        self.clear(field, start, middle);
        self.clear(field, middle, end);
    }

    fn shrink_numbers(&mut self) {
        let numbers: [fn(&mut Case) -> &mut u32; 5] = [
            |case| &mut case.from,
            |case| &mut case.handle.position,
            |case| &mut case.handle.size,
            |case| &mut case.handle.addr,
            |case| &mut case.handle.dir,
        ];
        for number in numbers {
            if *number(&mut self.smallest) != 0 {
                self.attempt(|changed| *number(changed) = 0);
            }
        }
        if self.smallest.time != 0 {
            self.attempt(|changed| changed.time = 0);
        }
        if self.smallest.handle.name.iter().any(|&byte| byte != 0) {
            self.attempt(|changed| changed.handle.name.fill(0));
        }
    }

    /// Removes blocks from the end, many at first.
    fn cut_image(&mut self) {
        let block = SIZES.get(self.smallest.code as usize).map_or(512, |size| size.block);
        let mut run = self.smallest.image.len();
        while run > 0 {
            while self.smallest.image.len() >= run && self.attempt(|changed| changed.image.truncate(changed.image.len() - run)) {}
            run = run / 2 / block * block;
        }
    }
}
