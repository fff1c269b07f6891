//! A stack of its own for a call, filled with one byte value before it. Bytes with another value after it were written by the call.

use std::cell::Cell;
use std::ffi::c_void;
use std::ptr::{addr_of_mut, null_mut};

const SIZE: usize = 1 << 18;
/// So many bytes must stay unchanged at the far end, or the call could have left the stack.
const SPARE: usize = SIZE / 2;
/// A call may write the fill value itself. It cannot write both of these to one place, as the call is made once with each.
const FILLS: [u8; 2] = [0xA5, 0x5A];

/// The start of glibc's `ucontext_t` on x86-64; what follows is its own, and has enough room here.
#[repr(C, align(16))]
struct Context {
    flags: u64,
    link: *mut Context,
    stack: *mut c_void,
    stack_flags: i32,
    stack_size: usize,
    rest: [u64; 256],
}

extern "C" {
    fn getcontext(context: *mut Context) -> i32;
    fn makecontext(context: *mut Context, entry: extern "C" fn(), arguments: i32, ...);
    fn swapcontext(save: *mut Context, next: *const Context) -> i32;
}

impl Context {
    fn empty() -> Context {
        Context { flags: 0, link: null_mut(), stack: null_mut(), stack_flags: 0, stack_size: 0, rest: [0; 256] }
    }
}

/// What the other stack is to run. A context's function takes no pointer.
type Work = *mut (dyn FnMut() + 'static);

thread_local! {
    static WORK: Cell<Option<Work>> = const { Cell::new(None) };
}

extern "C" fn run() {
    let work = WORK.take().expect("something to run");
    // SAFETY: it is borrowed by `run_on` until this returns.
    unsafe { (*work)() }
}

/// Runs this on a stack that lies in these bytes.
fn run_on(stack: &mut [u8], work: &mut dyn FnMut()) {
    let work: *mut (dyn FnMut() + '_) = work;
    // SAFETY: only the lifetime changes; `run` takes it before this function returns.
    WORK.set(Some(unsafe { std::mem::transmute::<*mut (dyn FnMut() + '_), Work>(work) }));
    let (mut here, mut there) = (Context::empty(), Context::empty());
    // SAFETY: the contexts have room for what the C library keeps in them; the stack is valid as long as it is used; `run`
    // returns to `here` by the link.
    unsafe {
        assert_eq!(getcontext(addr_of_mut!(there)), 0, "getcontext");
        there.link = addr_of_mut!(here);
        there.stack = stack.as_mut_ptr().cast();
        there.stack_size = stack.len();
        makecontext(addr_of_mut!(there), run, 0);
        assert_eq!(swapcontext(addr_of_mut!(here), addr_of_mut!(there)), 0, "swapcontext");
    }
}

/// How far down the stack this goes, in bytes from the stack's upper end.
pub fn depth(work: &mut dyn FnMut()) -> usize {
    let touched = |fill: u8| {
        let mut stack = vec![fill; SIZE];
        run_on(&mut stack, work);
        let unchanged = stack.iter().take_while(|&&byte| byte == fill).count();
        assert!(SPARE <= unchanged, "the call goes down more than {SPARE} bytes");
        SIZE - unchanged
    };
    FILLS.map(touched).into_iter().max().expect("two fills")
}
