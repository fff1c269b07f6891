//! The stored cases of packing planes, called as the program that replays them calls the library (docs/TESTS.md).

use comparer::{bytes, Function};
use std::fs;
use std::path::Path;

/// The length of what stands on either side of a destination, and its bytes.
const GUARD: usize = 16;
const GUARD_BYTE: u8 = 0xC7;
/// What a destination holds before the call.
const BEFORE: u8 = 0xEE;
/// Memory behind both buffers, so that a planted mistake that goes further does no harm here.
const BEHIND: usize = 40_000;

/// The first case whose answer or bytes are other ones, as its line.
pub fn difference_in(pack: Function) -> Option<String> {
    let file =
        Path::new(env!("CARGO_MANIFEST_DIR")).join("../../../crates/plane_vectors/data/plane-pack-boundaries.txt");
    let text = fs::read_to_string(&file).unwrap_or_else(|why| panic!("{}: {why}", file.display()));
    text.lines().find(|line| is_different(pack, line)).map(str::to_owned)
}

/// WIDTH HEIGHT ROOM ANSWER SOURCE AFTER
fn is_different(pack: Function, line: &str) -> bool {
    let fields: Vec<&str> = line.split(' ').collect();
    let [width, height, room] = [0, 1, 2].map(|field| fields[field].parse::<usize>().expect("a number"));
    let answer: i64 = fields[3].parse().expect("a number");
    let [mut source, after] = [4, 5].map(|field| bytes::parse(fields[field]).expect("bytes"));
    let len = source.len();
    source.resize(len + BEHIND, GUARD_BYTE);
    let guard = [GUARD_BYTE; GUARD];
    let mut memory = [&guard[..], &vec![BEFORE; room], &[GUARD_BYTE; BEHIND]].concat();
    let dst = &mut memory[GUARD..];
    // SAFETY: both slices are longer than what is passed.
    let got = unsafe { pack(source.as_ptr(), len, dst.as_mut_ptr(), room, width, height) };
    got != answer || memory[..2 * GUARD + room] != [&guard[..], &after, &guard].concat()
}
