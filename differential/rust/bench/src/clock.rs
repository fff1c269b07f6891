//! The time that calls take.

/// `struct timespec`.
#[repr(C)]
struct Time {
    seconds: i64,
    nanoseconds: i64,
}

extern "C" {
    fn clock_gettime(clock: i32, time: *mut Time) -> i32;
}

/// The nanoseconds that this thread has run: time that other programs take is not counted.
fn thread_time() -> i64 {
    const CLOCK_THREAD_CPUTIME_ID: i32 = 3;
    let mut time = Time { seconds: 0, nanoseconds: 0 };
    // SAFETY: the record has the layout that the C library writes.
    let done = unsafe { clock_gettime(CLOCK_THREAD_CPUTIME_ID, &mut time) };
    assert_eq!(done, 0, "clock_gettime");
    time.seconds * 1_000_000_000 + time.nanoseconds
}

/// The nanoseconds that this takes.
pub fn nanoseconds(work: impl FnOnce()) -> f64 {
    let begin = thread_time();
    work();
    (thread_time() - begin) as f64
}
