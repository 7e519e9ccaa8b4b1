//! Time of this thread alone, so that what else runs on the machine is left
//! out as far as it can be.

#[repr(C)]
#[derive(Default)]
struct Time {
    seconds: i64,
    nanoseconds: i64,
}

const THREAD_TIME: i32 = 3;

unsafe extern "C" {
    fn clock_gettime(clock: i32, time: *mut Time) -> i32;
}

/// Nanoseconds for which the thread has run.
fn now() -> u64 {
    let mut time = Time::default();
    // Safe: the call writes one time into the place that it is given.
    let failed = unsafe { clock_gettime(THREAD_TIME, &mut time) };
    assert_eq!(failed, 0, "this system has no clock for a thread");
    time.seconds as u64 * 1_000_000_000 + time.nanoseconds as u64
}

/// How long `work` takes, in nanoseconds.
pub fn time(work: impl FnOnce()) -> u64 {
    let start = now();
    work();
    now() - start
}

pub fn median(mut times: Vec<f64>) -> f64 {
    times.sort_by(f64::total_cmp);
    times[times.len() / 2]
}
