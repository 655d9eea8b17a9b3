//! The processor time of this thread and of programs that it ran, which the
//! standard library does not give.

#[repr(C)]
#[derive(Clone, Copy, Default)]
struct Time {
    seconds: i64,
    /// Nanoseconds of a clock, microseconds of a usage.
    parts: i64,
}

/// What the C library says of the use of a processor; only times are read.
#[repr(C)]
#[derive(Default)]
struct Usage {
    user: Time,
    system: Time,
    others: [i64; 14],
}

extern "C" {
    fn clock_gettime(clock: i32, time: *mut Time) -> i32;
    fn getrusage(who: i32, usage: *mut Usage) -> i32;
}

/// Linux's CLOCK_THREAD_CPUTIME_ID and RUSAGE_CHILDREN.
const THREAD: i32 = 3;
const CHILDREN: i32 = -1;

/// Nanoseconds that this thread has run.
pub fn nanoseconds() -> u64 {
    let mut time = Time::default();
    // SAFETY: the struct is the C library's on x86-64 Linux, and lives here.
    let status = unsafe { clock_gettime(THREAD, &mut time) };
    assert_eq!(status, 0, "no clock for the thread");
    (time.seconds * 1_000_000_000 + time.parts) as u64
}

/// Nanoseconds that the programs have run which have ended.
pub fn programs_nanoseconds() -> u64 {
    let mut usage = Usage::default();
    // SAFETY: the struct is the C library's on x86-64 Linux, and lives here.
    let status = unsafe { getrusage(CHILDREN, &mut usage) };
    assert_eq!(status, 0, "no times of programs");
    let microseconds = |time: Time| time.seconds * 1_000_000 + time.parts;
    1000 * (microseconds(usage.user) + microseconds(usage.system)) as u64
}
