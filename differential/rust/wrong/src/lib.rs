//! Wrong functions, to show that the fuzzer finds them: the setting RDP6_WRONG names one. Without it the library is used as it is.
//! They have counters of edges, like the library.

use comparer::Library;
use reliability::LIBRARY;
use std::env;
use std::process::exit;

type Plane = (*const u8, usize, *mut u8, usize, usize, usize);

/// The true answer.
unsafe fn unpacked((src, len, dst, room, width, height): Plane) -> i64 {
    // SAFETY: the arguments are passed on unchanged.
    unsafe { (LIBRARY.unpack)(src, len, dst, room, width, height) }
}

/// Whether a body begins with four bytes that chance finds once in 2^32 tries. A fuzzer that sees comparisons finds them soon.
unsafe fn is_rare(src: *const u8, len: usize) -> bool {
    // SAFETY: there are so many bytes.
    len > 4 && unsafe { src.cast::<u32>().read_unaligned() } == 0xC351_A72D
}

/// Answers one byte too many for a rare body.
unsafe extern "C" fn answer(src: *const u8, len: usize, dst: *mut u8, room: usize, width: usize, height: usize) -> i64 {
    // SAFETY: the arguments are passed on unchanged.
    unsafe { unpacked((src, len, dst, room, width, height)) + i64::from(is_rare(src, len)) }
}

/// Reads a byte behind the body where that is rare.
unsafe extern "C" fn read(src: *const u8, len: usize, dst: *mut u8, room: usize, width: usize, height: usize) -> i64 {
    // SAFETY: none: that it is found is what is tested.
    unsafe {
        if is_rare(src, len) {
            src.add(len).read_volatile();
        }
        unpacked((src, len, dst, room, width, height))
    }
}

/// Has the true function read a byte behind the body where no guard page follows it, so that only the sanitiser can see it.
unsafe extern "C" fn behind(src: *const u8, len: usize, dst: *mut u8, room: usize, width: usize, height: usize) -> i64 {
    let longer = usize::from(!src.is_null() && (src as usize + len) & 4095 != 0);
    // SAFETY: none: that it is found is what is tested.
    unsafe { unpacked((src, len + longer, dst, room, width, height)) }
}

/// The library, or one with a wrong unpacker.
pub fn library() -> Library {
    let unpack = match env::var("RDP6_WRONG").as_deref() {
        Err(_) => return LIBRARY,
        Ok("answer") => answer,
        Ok("read") => read,
        Ok("behind") => behind,
        Ok(name) => {
            eprintln!("RDP6_WRONG names no wrong function: {name:?}");
            exit(2)
        }
    };
    Library { unpack, ..LIBRARY }
}
