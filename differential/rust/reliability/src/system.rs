//! Processor time, memory and open files of this process.

use std::ffi::{c_int, c_long};
use std::fs;
use std::time::Duration;

#[repr(C)]
struct TimeSpec {
    seconds: c_long,
    nanoseconds: c_long,
}

const CLOCK_THREAD_CPUTIME_ID: c_int = 3;

extern "C" {
    fn clock_gettime(clock: c_int, time: *mut TimeSpec) -> c_int;
}

/// The processor's time that this thread has had, in which other programs do not count.
pub fn cpu_time() -> Duration {
    let mut time = TimeSpec { seconds: 0, nanoseconds: 0 };
    // SAFETY: the record has the layout that the C library writes.
    let done = unsafe { clock_gettime(CLOCK_THREAD_CPUTIME_ID, &mut time) };
    assert_eq!(done, 0, "clock_gettime");
    Duration::new(time.seconds as u64, time.nanoseconds as u32)
}

/// Memory and open files of this process.
#[derive(Clone, Copy, Debug, PartialEq, Eq)]
pub struct Resources {
    /// Resident memory now and at its highest, in KiB.
    pub resident: u64,
    pub highest: u64,
    pub files: usize,
}

impl Resources {
    pub fn now() -> Resources {
        let status = fs::read_to_string("/proc/self/status").expect("/proc/self/status");
        let of = |name: &str| {
            let line = status.lines().find_map(|line| line.strip_prefix(name)).expect("a line of /proc/self/status");
            line.trim_start_matches(':').trim().trim_end_matches(" kB").parse().expect("a number of KiB")
        };
        let files = fs::read_dir("/proc/self/fd").expect("/proc/self/fd").count();
        Resources { resident: of("VmRSS"), highest: of("VmHWM"), files }
    }
}
