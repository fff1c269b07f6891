//! The calls of the address sanitiser, and its settings.

use comparer::guarded;
use std::ffi::c_char;

extern "C" {
    fn __asan_poison_memory_region(at: *const u8, len: usize);
    fn __asan_unpoison_memory_region(at: *const u8, len: usize);
}

/// Forbids the bytes beside a buffer to the instrumented library during a call.
pub fn watch(at: *const u8, len: usize, forbidden: bool) {
    // SAFETY: bytes of guarded pages; only what the sanitiser knows of them is changed.
    unsafe {
        match forbidden {
            true => __asan_poison_memory_region(at, len),
            false => __asan_unpoison_memory_region(at, len),
        }
    }
}

/// The comparer handles the faults of forbidden pages itself. What is kept to the end of the program is no leak.
#[no_mangle]
pub extern "C" fn __asan_default_options() -> *const c_char {
    c"handle_segv=0:detect_leaks=0:quarantine_size_mb=1:malloc_context_size=0".as_ptr()
}

/// The sanitiser has found something and ends the program. This prints the case first.
#[no_mangle]
pub extern "C" fn __asan_on_error() {
    guarded::print_current_case("different: the address sanitiser reports");
}
