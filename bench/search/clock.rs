//! The clock of a thread's processor time, on Linux: on a busy machine it says more than the time of day.

#[repr(C)]
struct Timespec {
    seconds: i64,
    nanoseconds: i64,
}

unsafe extern "C" {
    fn clock_gettime(clock: i32, now: *mut Timespec) -> i32;
}

const THREAD_PROCESSOR_TIME: i32 = 3;

/// The processor seconds that this thread has used.
pub fn processor_seconds() -> f64 {
    let mut now = Timespec { seconds: 0, nanoseconds: 0 };
    unsafe { clock_gettime(THREAD_PROCESSOR_TIME, &mut now) };
    now.seconds as f64 + now.nanoseconds as f64 / 1e9
}
