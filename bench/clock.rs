//! What the processor spends on a thread. Unlike the clock on the wall it stands
//! still while something else runs, so that a busy machine disturbs it little.

use std::time::Duration;

#[repr(C)]
struct Moment {
    seconds: i64,
    nanoseconds: i64,
}

/// Linux's number for the thread's own clock.
const THREAD: i32 = 3;

extern "C" {
    fn clock_gettime(clock: i32, moment: *mut Moment) -> i32;
}

pub fn spent() -> Duration {
    let mut moment = Moment { seconds: 0, nanoseconds: 0 };
    // SAFETY: on 64-bit Linux the call writes two numbers of eight bytes, which
    // are lent to it.
    let failed = unsafe { clock_gettime(THREAD, &mut moment) };
    assert_eq!(failed, 0, "the system has no clock for a thread");
    Duration::new(moment.seconds as u64, moment.nanoseconds as u32)
}
