//! The processor time of the present thread, which other work on the machine
//! does not lengthen as it does the time of day.

#![allow(unsafe_code)]

use std::time::Duration;

/// As C has it on Linux for x86-64.
#[repr(C)]
struct TimeSpec {
    seconds: i64,
    nanoseconds: i64,
}

extern "C" {
    fn clock_gettime(clock: i32, time: *mut TimeSpec) -> i32;
}

const OF_THREAD: i32 = 3;

pub fn cpu_time() -> Duration {
    let mut time = TimeSpec {
        seconds: 0,
        nanoseconds: 0,
    };
    // Safe: the call fills in what it is lent.
    let status = unsafe { clock_gettime(OF_THREAD, &mut time) };
    assert_eq!(status, 0, "the system has no clock of a thread");
    Duration::new(time.seconds as u64, time.nanoseconds as u32)
}

/// Processor seconds of one call, as the mean of `calls` in a row.
pub fn mean_seconds(calls: u32, call: &mut dyn FnMut()) -> f64 {
    let start = cpu_time();
    for _ in 0..calls {
        call();
    }
    (cpu_time() - start).as_secs_f64() / f64::from(calls)
}
