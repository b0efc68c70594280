//! The processor time that this thread has used. The standard library has no such clock, so the C
//! library's is declared here: the only unsafe call of this crate.

use std::ffi::{c_int, c_long};

/// The C library's `struct timespec`, as it is on 64-bit Linux.
#[repr(C)]
struct Moment {
    seconds: c_long,
    nanoseconds: c_long,
}

extern "C" {
    fn clock_gettime(clock: c_int, moment: *mut Moment) -> c_int;
}

/// `CLOCK_THREAD_CPUTIME_ID` on Linux.
const THREAD: c_int = 3;

/// Nanoseconds of processor time that this thread has used.
pub fn used() -> u64 {
    let mut moment = Moment {
        seconds: 0,
        nanoseconds: 0,
    };
    // Safe: the pointer is to a live value of the layout that the call fills.
    let status = unsafe { clock_gettime(THREAD, &mut moment) };
    assert_eq!(status, 0, "this system has no clock of a thread's time");
    moment.seconds as u64 * 1_000_000_000 + moment.nanoseconds as u64
}
