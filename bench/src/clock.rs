//! The processor time of this thread. Others on the machine slow it down less than they slow the
//! clock on the wall.

use std::ffi::{c_int, c_long};

#[repr(C)]
struct Timespec {
    seconds: i64,
    nanoseconds: c_long,
}

/// Linux's number for a thread's processor time.
const THREAD_CPU_TIME: c_int = 3;

unsafe extern "C" {
    fn clock_gettime(clock: c_int, time: *mut Timespec) -> c_int;
}

pub fn thread_seconds() -> f64 {
    let mut time = Timespec { seconds: 0, nanoseconds: 0 };
    // SAFETY: the pointer is to a live struct that is laid out as C's `timespec` on 64-bit Linux.
    let status = unsafe { clock_gettime(THREAD_CPU_TIME, &mut time) };
    assert_eq!(status, 0, "the system has a clock for a thread's processor time");
    time.seconds as f64 + time.nanoseconds as f64 * 1e-9
}
