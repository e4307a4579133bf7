//! The processor time of this thread, which other processes on the machine disturb less than the wall clock.
use std::time::Duration;

#[repr(C)]
struct Timespec {
    seconds: i64,
    nanos: i64,
}

extern "C" {
    fn clock_gettime(clock: i32, time: *mut Timespec) -> i32;
}

/// Linux's number for the clock of the thread's own processor time.
const THREAD_TIME: i32 = 3;

pub fn now() -> Duration {
    let mut time = Timespec {
        seconds: 0,
        nanos: 0,
    };
    // The pointer is to a local of the layout that the C library asks for.
    let status = unsafe { clock_gettime(THREAD_TIME, &mut time) };
    assert_eq!(status, 0);
    Duration::new(time.seconds as u64, time.nanos as u32)
}
