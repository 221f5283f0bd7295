//! The processor time of this thread, which other programs do not add to.

use std::ffi::{c_int, c_long};

const CLOCK_THREAD_CPUTIME_ID: c_int = 3;

#[repr(C)]
#[derive(Default)]
struct Timespec {
    seconds: i64,
    nanoseconds: c_long,
}

extern "C" {
    fn clock_gettime(clock: c_int, time: *mut Timespec) -> c_int;
}

/// In nanoseconds.
pub fn now() -> i64 {
    let mut time = Timespec::default();
    let answer = unsafe { clock_gettime(CLOCK_THREAD_CPUTIME_ID, &mut time) };
    assert_eq!(answer, 0, "the system has no such clock");
    1_000_000_000 * time.seconds + time.nanoseconds
}
