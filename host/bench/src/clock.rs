//! The thread's processor time, so that other programs on the machine count less than they would
//! by the clock on the wall.

#[repr(C)]
struct Timespec {
    seconds: i64,
    nanoseconds: i64,
}

extern "C" {
    fn clock_gettime(clock: i32, time: *mut Timespec) -> i32;
}

const THREAD_PROCESSOR_TIME: i32 = 3;

/// Microseconds that this thread has run.
fn now() -> f64 {
    let mut time = Timespec { seconds: 0, nanoseconds: 0 };
    // SAFETY: the C library writes the struct, which has its form on x86-64 Linux.
    let answer = unsafe { clock_gettime(THREAD_PROCESSOR_TIME, &mut time) };
    assert_eq!(answer, 0, "there is such a clock");
    time.seconds as f64 * 1.0e6 + time.nanoseconds as f64 / 1.0e3
}

/// Microseconds for each of `count` pieces of work.
pub fn timed(count: usize, work: impl FnOnce()) -> f64 {
    let started = now();
    work();
    (now() - started) / count as f64
}
