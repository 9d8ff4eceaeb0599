//! The processor time of this thread: what other programs take meanwhile does not count.

/// As in time.h, on 64-bit Linux.
#[repr(C)]
#[derive(Default)]
struct Time {
    seconds: i64,
    nanoseconds: i64,
}

/// CLOCK_THREAD_CPUTIME_ID.
const THREAD: i32 = 3;

extern "C" {
    fn clock_gettime(clock: i32, time: *mut Time) -> i32;
}

/// Nanoseconds since some moment.
pub fn now() -> f64 {
    let mut time = Time::default();
    // SAFETY: the pointer is that of a Time, which is laid out as in C.
    let failed = unsafe { clock_gettime(THREAD, &mut time) };
    assert_eq!(failed, 0, "the clock");
    time.seconds as f64 * 1e9 + time.nanoseconds as f64
}
