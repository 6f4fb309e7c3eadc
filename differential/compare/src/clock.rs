//! The time that this thread has had of a processor: other work on the machine
//! adds nothing to it.

use std::time::Duration;

/// Linux's number for it.
const THREAD_TIME: i32 = 3;

#[repr(C)]
struct Time {
    seconds: i64,
    nanoseconds: i64,
}

extern "C" {
    fn clock_gettime(clock: i32, time: *mut Time) -> i32;
}

pub fn own_time() -> Duration {
    let mut time = Time { seconds: 0, nanoseconds: 0 };
    // The struct is what the function fills on Linux with 64 bits.
    let failed = unsafe { clock_gettime(THREAD_TIME, &mut time) };
    assert_eq!(failed, 0, "no clock for a thread's own time");
    Duration::new(time.seconds as u64, time.nanoseconds as u32)
}
