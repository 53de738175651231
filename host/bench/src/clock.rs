//! The processor time of the calling thread: other programs on the machine do
//! not count.

use std::time::Duration;

/// CLOCK_THREAD_CPUTIME_ID of Linux.
const OF_THE_THREAD: i32 = 3;

/// `struct timespec` of 64-bit Linux.
#[repr(C)]
struct TimeSpec {
    seconds: i64,
    nanoseconds: i64,
}

extern "C" {
    fn clock_gettime(clock: i32, time: *mut TimeSpec) -> i32;
}

/// The time that this thread has been running so far.
pub fn now() -> Duration {
    let mut time = TimeSpec {
        seconds: 0,
        nanoseconds: 0,
    };
    // SAFETY: the pointer leads to a whole `struct timespec` that is ours.
    let status = unsafe { clock_gettime(OF_THE_THREAD, &mut time) };
    assert_eq!(status, 0, "the system tells the thread's time");
    Duration::new(time.seconds as u64, time.nanoseconds as u32)
}
