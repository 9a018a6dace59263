//! The processor time of this thread, and of the programs that were started and have ended.

#[repr(C)]
struct Timespec {
    seconds: i64,
    nanoseconds: i64,
}

#[repr(C)]
struct Timeval {
    seconds: i64,
    microseconds: i64,
}

/// Linux's: the times of the programs and of the system for them, and 14 counts.
#[repr(C)]
struct Usage {
    times: [Timeval; 2],
    counts: [i64; 14],
}

unsafe extern "C" {
    /// POSIX's, in the C library that every Rust program on Linux is linked with.
    fn clock_gettime(clock: i32, time: *mut Timespec) -> i32;
    fn getrusage(whose: i32, usage: *mut Usage) -> i32;
}

/// Linux's number of the clock of a thread's processor time.
const THREAD: i32 = 3;

/// Linux's number of the programs that were started and have ended.
const CHILDREN: i32 = -1;

/// Microseconds that this thread has run for.
pub fn microseconds() -> f64 {
    let mut time = Timespec { seconds: 0, nanoseconds: 0 };
    let status = unsafe { clock_gettime(THREAD, &mut time) };
    assert_eq!(status, 0, "the thread's clock is there");
    time.seconds as f64 * 1e6 + time.nanoseconds as f64 / 1e3
}

/// Microseconds that the programs have run for that were started and have ended.
pub fn microseconds_of_programs() -> f64 {
    let zero = || Timeval { seconds: 0, microseconds: 0 };
    let mut usage = Usage { times: [zero(), zero()], counts: [0; 14] };
    let status = unsafe { getrusage(CHILDREN, &mut usage) };
    assert_eq!(status, 0, "the programs' times are there");
    usage.times.iter().map(|time| time.seconds as f64 * 1e6 + time.microseconds as f64).sum()
}
