//! The processor's time of this thread, so that other work on the machine counts less. All that is timed
//! runs in one thread and waits for nothing.

use std::os::raw::{c_int, c_long};
use std::time::Duration;

/// Of Linux.
const CLOCK_THREAD_CPUTIME_ID: c_int = 3;

#[repr(C)]
struct Timespec {
    seconds: c_long,
    nanoseconds: c_long,
}

extern "C" {
    fn clock_gettime(clock: c_int, time: *mut Timespec) -> c_int;
}

pub fn now() -> Duration {
    let mut time = Timespec { seconds: 0, nanoseconds: 0 };
    // SAFETY: the struct is the C library's `timespec` and outlives the call.
    let said = unsafe { clock_gettime(CLOCK_THREAD_CPUTIME_ID, &mut time) };
    assert_eq!(said, 0, "the clock can be read");
    Duration::new(time.seconds as u64, time.nanoseconds as u32)
}
