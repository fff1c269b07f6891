//! Buffers in guarded pages. Each buffer of a call lies in pages of its own between forbidden pages: it ends where a forbidden page
//! begins, or starts where one ends. The rest of its own pages holds canaries.
//!
//! A call that touches a forbidden page is noted and the page is opened, so that the call goes on: the program does not end, and
//! the case can be printed and made smaller.

use crate::input::View;
use crate::report::report;
use std::array;
use std::cell::Cell;
use std::ffi::{c_int, c_void};
use std::ptr;
use std::sync::atomic::{AtomicUsize, Ordering};
use std::sync::Once;

const PAGE: usize = 4096;
/// The forbidden bytes on either side of guarded pages.
const GAP: usize = 64 * PAGE;
/// All buffers lie in one range of addresses. A fault inside it is a buffer's.
const RANGE: usize = 1 << 33;

const PROT_NONE: c_int = 0;
const PROT_READ_WRITE: c_int = 3;
const MAP_PRIVATE_ANONYMOUS_NORESERVE: c_int = 0x02 | 0x20 | 0x4000;
const SIGSEGV: c_int = 11;
const SA_SIGINFO: c_int = 4;

/// `struct sigaction` of glibc on x86-64.
#[repr(C)]
struct Action {
    handler: usize,
    mask: [u64; 16],
    flags: c_int,
    restorer: usize,
}

/// The part of `siginfo_t` that is used.
#[repr(C)]
struct Info {
    numbers: [c_int; 4],
    address: usize,
}

extern "C" {
    fn mmap(at: *mut c_void, len: usize, prot: c_int, flags: c_int, file: c_int, offset: i64) -> *mut c_void;
    fn mprotect(at: *mut c_void, len: usize, prot: c_int) -> c_int;
    fn sigaction(signal: c_int, new: *const Action, old: *mut Action) -> c_int;
}

static START: AtomicUsize = AtomicUsize::new(0);
static NEXT: AtomicUsize = AtomicUsize::new(0);

thread_local! {
    /// The first forbidden address that this thread touched since it was last set to 0.
    static TOUCHED: Cell<usize> = const { Cell::new(0) };
    /// The case of the call that this thread is in.
    static CURRENT: Cell<*const View<'static>> = const { Cell::new(ptr::null()) };
}

fn protect(at: usize, len: usize, prot: c_int) {
    // SAFETY: only called on pages of the range, which nothing else uses.
    let done = unsafe { mprotect(at as *mut c_void, len, prot) };
    assert_eq!(done, 0, "mprotect");
}

extern "C" fn on_fault(signal: c_int, info: *const Info, _context: *const c_void) {
    // SAFETY: the record is valid during this call.
    let address = unsafe { (*info).address };
    let start = START.load(Ordering::Relaxed);
    if address.wrapping_sub(start) < RANGE {
        if TOUCHED.get() == 0 {
            TOUCHED.set(address);
        }
        protect(address / PAGE * PAGE, PAGE, PROT_READ_WRITE);
    } else {
        print_current_case("a fault far from the buffers of the call");
        // The next attempt ends the program as it would have without this handler.
        set_handler(signal, 0, 0);
    }
}

/// Prints the case of the current call, if there is one, before the program ends.
pub fn print_current_case(fault: &str) {
    // SAFETY: it is null, or the case of a call that has not returned.
    if let Some(case) = unsafe { CURRENT.get().as_ref() } {
        eprintln!("{}", report(&format!("{fault}, in\n  {}", case.to_owned()), "fault.txt"));
    }
}

fn set_handler(signal: c_int, handler: usize, flags: c_int) {
    let action = Action { handler, mask: [0; 16], flags, restorer: 0 };
    // SAFETY: the record has the layout that the C library reads.
    let done = unsafe { sigaction(signal, &action, ptr::null_mut()) };
    assert_eq!(done, 0, "sigaction");
}

fn reserve_range() {
    static ONCE: Once = Once::new();
    ONCE.call_once(|| {
        // SAFETY: new addresses of the system's choice.
        let at = unsafe { mmap(ptr::null_mut(), RANGE, PROT_NONE, MAP_PRIVATE_ANONYMOUS_NORESERVE, -1, 0) };
        assert_ne!(at as isize, -1, "mmap");
        START.store(at as usize, Ordering::Relaxed);
        NEXT.store(at as usize + GAP, Ordering::Relaxed);
        set_handler(SIGSEGV, on_fault as *const () as usize, SA_SIGINFO);
    });
}

/// The bytes of a page, aligned like a page, which makes comparing faster.
#[repr(align(4096))]
struct Page([u8; PAGE]);

/// What a page holds beside its buffer. No two neighbours are equal and none is 0 or `EE`.
static CANARIES: Page = Page({
    let mut page = [0; PAGE];
    let mut i = 0;
    while i < PAGE {
        page[i] = 0x81 + (i * 29 % 101) as u8;
        i += 1;
    }
    page
});

/// Where a buffer lies in its pages.
#[derive(Clone, Copy, Debug, PartialEq, Eq)]
pub enum Side {
    /// It starts right behind a forbidden page.
    Start,
    /// It ends right before a forbidden page.
    End,
}

pub const SIDES: [Side; 2] = [Side::End, Side::Start];

/// Pages for buffers that need so many.
struct Region {
    start: *mut u8,
    len: usize,
}

impl Region {
    fn new(pages: usize) -> Region {
        reserve_range();
        let len = pages * PAGE;
        let start = NEXT.fetch_add(len + GAP, Ordering::Relaxed);
        assert!(start + len + GAP <= START.load(Ordering::Relaxed) + RANGE, "the range of addresses is used up");
        protect(start, len, PROT_READ_WRITE);
        let region = Region { start: start as *mut u8, len };
        region.fill_with_canaries();
        region
    }

    fn fill_with_canaries(&self) {
        for offset in (0..self.len).step_by(PAGE) {
            // SAFETY: a page of this region.
            unsafe { ptr::copy_nonoverlapping(CANARIES.0.as_ptr(), self.start.add(offset), PAGE) };
        }
    }

    fn slice(&self, from: usize, len: usize) -> &[u8] {
        assert!(from + len <= self.len);
        // SAFETY: inside this region, to which nothing writes while this slice is used.
        unsafe { std::slice::from_raw_parts(self.start.add(from), len) }
    }

    fn offset(&self, len: usize, side: Side) -> usize {
        match side {
            Side::Start => 0,
            Side::End => self.len - len,
        }
    }

    /// Copies the bytes to their place and returns its address. An empty buffer is NULL at one of the two sides, which
    /// include/rdp6.h allows.
    fn place(&self, bytes: &[u8], side: Side) -> *mut u8 {
        if bytes.is_empty() && side == Side::Start {
            return ptr::null_mut();
        }
        // SAFETY: the offset leaves room for so many bytes.
        unsafe {
            let at = self.start.add(self.offset(bytes.len(), side));
            ptr::copy_nonoverlapping(bytes.as_ptr(), at, bytes.len());
            at
        }
    }

    /// The bytes at that place.
    fn content(&self, len: usize, side: Side) -> &[u8] {
        self.slice(self.offset(len, side), len)
    }

    /// The part of the pages beside the buffer.
    fn beside(&self, len: usize, side: Side) -> (usize, usize) {
        match side {
            Side::Start => (len, self.len),
            Side::End => (0, self.len - len),
        }
    }

    /// Passes that part to `watch`.
    fn watch_beside(&self, watch: Watch, len: usize, side: Side, forbidden: bool) {
        let (from, to) = self.beside(len, side);
        watch(self.start.wrapping_add(from), to - from, forbidden);
    }

    /// Whether that part still holds its canaries.
    fn canaries_live(&self, len: usize, side: Side) -> bool {
        let (mut at, end) = self.beside(len, side);
        while at < end {
            let to = end.min((at / PAGE + 1) * PAGE);
            if self.slice(at, to - at) != &CANARIES.0[at % PAGE..][..to - at] {
                return false;
            }
            at = to;
        }
        true
    }

    /// Puts canaries where the buffer lay.
    fn remove(&self, len: usize, side: Side) {
        if self.len > PAGE {
            return self.fill_with_canaries();
        }
        let from = self.offset(len, side);
        // SAFETY: where the buffer lay in the only page.
        unsafe { ptr::copy_nonoverlapping(CANARIES.0[from..].as_ptr(), self.start.add(from), len) };
    }

    /// Closes the forbidden pages on both sides again and renews all canaries.
    fn restore(&self) {
        protect(self.start as usize - GAP, GAP, PROT_NONE);
        protect(self.start as usize + self.len, GAP, PROT_NONE);
        self.fill_with_canaries();
    }

    /// How far outside the buffer an address in a forbidden page is, if the page is one of this region's.
    fn distance(&self, address: usize, len: usize, side: Side) -> Option<String> {
        let from = self.start as usize + self.offset(len, side);
        if (self.start as usize - GAP..from).contains(&address) {
            Some(format!("{} before its start", from - address))
        } else if (from + len..self.start as usize + self.len + GAP).contains(&address) {
            Some(format!("at index {} of {len}", address - from))
        } else {
            None
        }
    }
}

/// A buffer of a call: its name, its bytes, and for one that may be written, where they go after the call.
pub struct Buffer<'a> {
    pub name: &'static str,
    pub bytes: &'a [u8],
    pub after: Option<&'a mut Vec<u8>>,
}

impl<'a> Buffer<'a> {
    pub fn read(name: &'static str, bytes: &'a [u8]) -> Self {
        Buffer { name, bytes, after: None }
    }

    pub fn written(name: &'static str, bytes: &'a [u8], after: &'a mut Vec<u8>) -> Self {
        Buffer { name, bytes, after: Some(after) }
    }
}

/// No call has more buffers.
const BUFFERS: usize = 5;

/// Called with the bytes beside a buffer, in its own pages, before a call (true) and after it (false). A sanitiser can forbid these
/// bytes, which lie between the buffer and the forbidden pages.
pub type Watch = fn(at: *const u8, len: usize, forbidden: bool);

/// For each buffer of a call, the regions by number of pages.
#[derive(Default)]
pub struct GuardedMemory {
    regions: [Vec<Option<Region>>; BUFFERS],
    pub watch: Option<Watch>,
}

/// Buffers of more pages than this share regions whose size is a power of two, or there would be one for every length of a large
/// plane.
const EXACT_PAGES: usize = 64;

fn region_for(regions: &mut Vec<Option<Region>>, len: usize) -> &Region {
    let pages = match len.div_ceil(PAGE).max(1) {
        few @ ..=EXACT_PAGES => few,
        many => many.next_power_of_two(),
    };
    if regions.len() <= pages {
        regions.resize_with(pages + 1, || None);
    }
    regions[pages].get_or_insert_with(|| Region::new(pages))
}

impl GuardedMemory {
    /// Calls a function with the buffers of a case at this side of their pages. Returns its answer, and what it did outside the
    /// bytes that it may write, if anything.
    pub fn call<const N: usize>(
        &mut self,
        case: View<'_>,
        side: Side,
        buffers: [Buffer<'_>; N],
        function: impl FnOnce([*mut u8; N]) -> i64,
    ) -> (i64, Option<String>) {
        let mut slots = self.regions.iter_mut();
        let regions: [&Region; N] =
            array::from_fn(|at| region_for(slots.next().expect("a slot for each buffer"), buffers[at].bytes.len()));
        let addresses = array::from_fn(|at| regions[at].place(buffers[at].bytes, side));
        let watch = |forbidden| {
            if let Some(watch) = self.watch {
                regions
                    .iter()
                    .zip(&buffers)
                    .for_each(|(region, buffer)| region.watch_beside(watch, buffer.bytes.len(), side, forbidden));
            }
        };
        watch(true);
        TOUCHED.set(0);
        CURRENT.set((&raw const case).cast());
        let answer = function(addresses);
        CURRENT.set(ptr::null());
        watch(false);
        let harm = harm_done(&regions, &buffers, side);
        for (region, buffer) in regions.into_iter().zip(buffers) {
            let len = buffer.bytes.len();
            if let Some(after) = buffer.after {
                after.clear();
                after.extend_from_slice(region.content(len, side));
            }
            if harm.is_some() {
                region.restore();
            } else {
                region.remove(len, side);
            }
        }
        (answer, harm)
    }
}

/// What a call did outside the bytes that it may write, if anything.
fn harm_done(regions: &[&Region], buffers: &[Buffer<'_>], side: Side) -> Option<String> {
    let touched = TOUCHED.replace(0);
    if touched != 0 {
        return Some(describe_touch(regions, buffers, side, touched));
    }
    for (region, buffer) in regions.iter().zip(buffers) {
        let (name, len) = (buffer.name, buffer.bytes.len());
        if buffer.after.is_none() && region.content(len, side) != buffer.bytes {
            return Some(format!("writes to the {name}"));
        }
        if !region.canaries_live(len, side) {
            return Some(format!("writes beside the {name}"));
        }
    }
    None
}

/// Outside which buffer the address lies, and how far.
fn describe_touch(regions: &[&Region], buffers: &[Buffer<'_>], side: Side, address: usize) -> String {
    for (region, buffer) in regions.iter().zip(buffers) {
        if let Some(distance) = region.distance(address, buffer.bytes.len(), side) {
            return format!("touches a byte outside the {}, {distance}", buffer.name);
        }
    }
    "touches a byte far from the buffers of the call".to_owned()
}
