//! Measures what calls cost in this thread.

#[repr(C)]
struct Time {
    seconds: i64,
    nanoseconds: i64,
}

extern "C" {
    fn clock_gettime(clock: i32, time: *mut Time) -> i32;
}

/// CLOCK_THREAD_CPUTIME_ID of Linux: it does not count other work on the machine.
const THREAD_PROCESSOR_TIME: i32 = 3;

fn nanoseconds() -> f64 {
    let mut time = Time { seconds: 0, nanoseconds: 0 };
    let status = unsafe { clock_gettime(THREAD_PROCESSOR_TIME, &mut time) };
    assert_eq!(status, 0, "the thread's processor time");
    time.seconds as f64 * 1e9 + time.nanoseconds as f64
}

/// A round of calls, which returns the nanoseconds that one took.
pub type Round<'a> = Box<dyn FnMut() -> f64 + 'a>;

/// Returns a round of this many calls, each of which must return true. One call before them is not timed, since the
/// previous code may have freed memory.
pub fn round<'a>(calls: u32, mut call: impl FnMut() -> bool + 'a) -> Round<'a> {
    Box::new(move || {
        assert!(call());
        let begun = nanoseconds();
        for _ in 0..calls {
            assert!(call());
        }
        (nanoseconds() - begun) / f64::from(calls)
    })
}

/// Returns the best time of each runner in this many rounds, in which they take turns.
pub fn best_times(rounds: u32, runners: &mut [Round]) -> Vec<f64> {
    let mut best = vec![f64::MAX; runners.len()];
    for _ in 0..rounds {
        for (best, round) in best.iter_mut().zip(runners.iter_mut()) {
            *best = best.min(round());
        }
    }
    best
}
