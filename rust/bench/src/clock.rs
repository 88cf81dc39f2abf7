//! Processor time of this thread, so that other work on the machine is not
//! counted; the standard library has no clock for it.

#![allow(unsafe_code)]

/// `struct timespec` of 64-bit Linux.
#[repr(C)]
struct Time {
    seconds: i64,
    nanoseconds: i64,
}

/// `CLOCK_THREAD_CPUTIME_ID` of Linux.
const THREAD: i32 = 3;

unsafe extern "C" {
    fn clock_gettime(clock: i32, time: *mut Time) -> i32;
}

/// Microseconds that this thread has run for.
pub fn microseconds() -> f64 {
    let mut time = Time {
        seconds: 0,
        nanoseconds: 0,
    };
    // SAFETY: the pointer is to a live, exclusively borrowed `Time`, which has
    // the layout of the C structure that the function fills.
    unsafe { clock_gettime(THREAD, &mut time) };
    time.seconds as f64 * 1e6 + time.nanoseconds as f64 / 1e3
}
