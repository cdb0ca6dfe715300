// The processor time of this process: other work on the machine counts less in it than in the time of day.

#[repr(C)]
struct Timespec {
    seconds: i64,
    nanoseconds: i64,
}

/// `CLOCK_PROCESS_CPUTIME_ID` of Linux.
const PROCESSOR: i32 = 2;

extern "C" {
    fn clock_gettime(clock: i32, time: &mut Timespec) -> i32;
}

/// Nanoseconds of processor time since the start.
pub fn now() -> f64 {
    let mut time = Timespec {
        seconds: 0,
        nanoseconds: 0,
    };
    // SAFETY: the call writes the two numbers and no more.
    let status = unsafe { clock_gettime(PROCESSOR, &mut time) };
    assert_eq!(status, 0, "no clock");
    time.seconds as f64 * 1e9 + time.nanoseconds as f64
}
