//! The processor time of this thread, which leaves out the time that other programs on the machine take.
use std::time::Duration;

#[repr(C)]
struct Timespec {
    seconds: std::ffi::c_long,
    nanoseconds: std::ffi::c_long,
}

/// Linux's number for the processor time of the calling thread.
const THREAD: std::ffi::c_int = 3;

extern "C" {
    fn clock_gettime(clock: std::ffi::c_int, time: *mut Timespec) -> std::ffi::c_int;
}

pub fn now() -> Duration {
    let mut time = Timespec {
        seconds: 0,
        nanoseconds: 0,
    };
    // The C library writes only the struct that is lent to it.
    let status = unsafe { clock_gettime(THREAD, &mut time) };
    assert_eq!(status, 0, "there is no such clock");
    Duration::new(time.seconds as u64, time.nanoseconds as u32)
}
