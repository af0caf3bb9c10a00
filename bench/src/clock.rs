//! Processor time of this thread, so that other work on the machine does not count, and the
//! median of many rounds.

#[repr(C)]
struct Time {
    seconds: i64,
    nanoseconds: i64,
}

unsafe extern "C" {
    fn clock_gettime(clock: i32, time: *mut Time) -> i32;
}

const THREAD_CPUTIME: i32 = 3;

/// Nanoseconds of processor time so far.
pub fn now() -> u64 {
    let mut time = Time { seconds: 0, nanoseconds: 0 };
    let answer = unsafe { clock_gettime(THREAD_CPUTIME, &mut time) };
    assert_eq!(answer, 0, "no clock of processor time");
    time.seconds as u64 * 1_000_000_000 + time.nanoseconds as u64
}

/// The median of what the rounds took.
pub fn median(mut times: Vec<f64>) -> f64 {
    times.sort_by(f64::total_cmp);
    times[times.len() / 2]
}
