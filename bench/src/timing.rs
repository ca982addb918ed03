//! Times of calls, in nanoseconds of this thread's processor time: what other programs take of a shared machine is not in them.
use std::hint::black_box;
use std::sync::OnceLock;

/// Calls that can be made again and again are made at least so long for one measurement.
const STRETCH: f64 = 5e6;
/// Linux' number of the clock that counts a thread's processor time.
const CLOCK_THREAD_CPUTIME_ID: i32 = 3;

/// The time of C, as the C library of 64-bit Linux has it.
#[repr(C)]
struct Timespec {
    seconds: i64,
    nanos: i64,
}

extern "C" {
    fn clock_gettime(clock: i32, time: *mut Timespec) -> i32;
}

fn now() -> f64 {
    let mut time = Timespec { seconds: 0, nanos: 0 };
    // SAFETY: the call stores into the given place alone.
    let failed = unsafe { clock_gettime(CLOCK_THREAD_CPUTIME_ID, &mut time) };
    assert_eq!(failed, 0, "there is no clock for a thread's processor time");
    time.seconds as f64 * 1e9 + time.nanos as f64
}

/// The mean time of a call over a stretch of calls. A call and shorter stretches before it, which do not count, warm the caches.
pub fn repeated<T>(mut call: impl FnMut() -> T) -> f64 {
    black_box(call());
    let mut count = 1u32;
    loop {
        let start = now();
        for _ in 0..count {
            black_box(call());
        }
        let time = now() - start;
        if time >= STRETCH {
            return time / f64::from(count);
        }
        count *= 2;
    }
}

/// The time of a single call, with what it answers.
pub fn once<T>(call: impl FnOnce() -> T) -> (f64, T) {
    let start = now();
    let answer = black_box(call());
    let time = now() - start;
    (time - clock_cost(), answer)
}

/// What looking at the clock adds to the time of a single call: some hundred nanoseconds.
fn clock_cost() -> f64 {
    static COST: OnceLock<f64> = OnceLock::new();
    let empty = |_| {
        let start = now();
        now() - start
    };
    *COST.get_or_init(|| median((0..1001).map(empty).collect()))
}

/// The median of an odd number of times, or the higher of the two in the middle.
pub fn median(mut times: Vec<f64>) -> f64 {
    times.sort_by(f64::total_cmp);
    times[times.len() / 2]
}

#[cfg(test)]
mod tests {
    use super::median;

    #[test]
    fn a_median_is_in_the_middle() {
        assert_eq!(median(vec![3.0, 1.0, 2.0]), 2.0);
        assert_eq!(median(vec![100.0, 1.0, 2.0, 0.0, 3.0]), 2.0);
    }
}
