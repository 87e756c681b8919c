//! The processor time of this thread: what other programs take in between does not count.
#![allow(unsafe_code)]

use std::sync::LazyLock;

#[repr(C)]
struct Timespec {
    seconds: i64,
    nanoseconds: i64,
}

extern "C" {
    fn clock_gettime(clock: i32, time: *mut Timespec) -> i32;
}

/// Linux's number for the clock.
const CLOCK_THREAD_CPUTIME_ID: i32 = 3;

/// Nanoseconds of processor time so far.
fn now() -> f64 {
    let mut time = Timespec { seconds: 0, nanoseconds: 0 };
    // SAFETY: The clock is Linux's, and it writes to `time` alone.
    let failed = unsafe { clock_gettime(CLOCK_THREAD_CPUTIME_ID, &mut time) };
    assert_eq!(failed, 0, "the clock answers");
    time.seconds as f64 * 1e9 + time.nanoseconds as f64
}

/// What the clock itself takes: the median of many measurements of nothing.
static OWN_TIME: LazyLock<f64> = LazyLock::new(|| {
    let mut taken: Vec<f64> = (0..1001)
        .map(|_| {
            let began = now();
            now() - began
        })
        .collect();
    taken.sort_by(f64::total_cmp);
    taken[taken.len() / 2]
});

/// What `run` answers, and its nanoseconds, without those of the clock.
pub fn time<T>(run: impl FnOnce() -> T) -> (T, f64) {
    let own_time = *OWN_TIME;
    let began = now();
    let answer = run();
    let taken = now() - began;
    // A run of next to nothing cannot take less.
    (answer, (taken - own_time).max(1.0))
}
