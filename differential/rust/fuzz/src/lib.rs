//! The function that libFuzzer calls with each of its inputs. The input makes a case of the entry that the setting RDP6_ENTRY names. The
//! case is compared with IronRDP inside the domain and with docs/FORMAT.md outside it, on buffers at either end of guarded pages.

mod edges;
mod sanitizer;

use comparer::report::report;
use comparer::shrink::shrink;
use comparer::tally::{Group, Kind};
use comparer::Comparer;
use edges::Edges;
use reliability::case_from_bytes::case_from_bytes;
use reliability::entry::Entry;
use reliability::{compare, counted_as};
use std::env;
use std::ffi::c_int;
use std::process::{abort, exit};
use std::ptr;
use std::sync::atomic::{AtomicPtr, Ordering};

struct State {
    entry: Entry,
    comparer: Comparer,
    edges: Edges,
    /// How the entry's cases are counted, once there was one.
    counted: Option<(Group, Kind)>,
}

/// Made once at the start and kept to the end, for the report.
static STATE: AtomicPtr<State> = AtomicPtr::new(ptr::null_mut());

extern "C" {
    fn atexit(work: extern "C" fn()) -> c_int;
}

fn entry() -> Entry {
    let name = env::var("RDP6_ENTRY").unwrap_or_default();
    Entry::of_name(&name).unwrap_or_else(|| {
        eprintln!("RDP6_ENTRY names no entry to fuzz: {name:?}");
        exit(2)
    })
}

#[no_mangle]
pub extern "C" fn LLVMFuzzerInitialize(_count: *mut c_int, _words: *mut *mut *mut u8) -> c_int {
    let mut comparer = Comparer::new(wrong::library());
    comparer.watch_by(sanitizer::watch);
    let state = State { entry: entry(), comparer, edges: Edges::new(), counted: None };
    STATE.store(Box::into_raw(Box::new(state)), Ordering::Relaxed);
    // SAFETY: a function of this library, which stays.
    unsafe { atexit(print_report) };
    0
}

/// # Safety
///
/// The `len` bytes are valid during the call, and libFuzzer calls from one thread.
#[no_mangle]
pub unsafe extern "C" fn LLVMFuzzerTestOneInput(data: *const u8, len: usize) -> c_int {
    // SAFETY: made at the start, and used by one thread alone.
    let state = unsafe { &mut *STATE.load(Ordering::Relaxed) };
    // SAFETY: valid during this call; an empty slice can be NULL.
    let bytes = if len == 0 { &[] } else { unsafe { std::slice::from_raw_parts(data, len) } };
    let input = case_from_bytes(state.entry, bytes);
    state.counted = Some(counted_as(&input));
    if let Err(difference) = compare(&mut state.comparer, &input) {
        eprintln!("{}", report(&shrink(&mut state.comparer, difference), "difference.txt"));
        abort();
    }
    state.edges.note();
    0
}

/// What was tried, once libFuzzer has ended.
extern "C" fn print_report() {
    // SAFETY: made at the start, and nothing else uses it any more.
    let state = unsafe { &mut *STATE.load(Ordering::Relaxed) };
    let (name, tally) = (state.entry.name(), &state.comparer.tally);
    let answers = state.counted.map_or(String::new(), |(group, kind)| tally.answers_line(group, kind));
    println!("fuzz: {name}: {} inputs, 0 different; {answers}", tally.total());
    println!("fuzz: {name}: {}", state.edges.report());
}
