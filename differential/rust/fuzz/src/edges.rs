//! Which edges of the instrumented library were reached. Its code has a section of its own, which distinguishes them from the edges
//! of IronRDP.

use std::ffi::{c_char, CStr};
use std::{env, fs};

#[repr(C)]
struct Edge {
    place: usize,
    flags: usize,
}

// The linker has these for sections with such names; the first four are the compilers' counters and their places.
extern "C" {
    static __start___sancov_cntrs: u8;
    static __stop___sancov_cntrs: u8;
    static __start___sancov_pcs: Edge;
    static __start_rdp6_code: u8;
    static __stop_rdp6_code: u8;

    fn __sanitizer_symbolize_pc(place: usize, format: *const c_char, text: *mut c_char, len: usize);
}

pub struct Edges {
    reached: Vec<bool>,
}

fn counters() -> (*const u8, usize) {
    let (start, stop) = (&raw const __start___sancov_cntrs, &raw const __stop___sancov_cntrs);
    (start, stop as usize - start as usize)
}

fn place(at: usize) -> usize {
    // SAFETY: there is a place for each counter.
    unsafe { (*(&raw const __start___sancov_pcs).add(at)).place }
}

fn is_of_library(at: usize) -> bool {
    let (start, stop) = (&raw const __start_rdp6_code as usize, &raw const __stop_rdp6_code as usize);
    (start..stop).contains(&place(at))
}

/// The name of the function that an edge is in.
fn function_of(at: usize) -> String {
    let mut text = [0 as c_char; 200];
    // SAFETY: both texts end in a zero byte, the second within its length.
    unsafe {
        __sanitizer_symbolize_pc(place(at) + 1, c"%f".as_ptr(), text.as_mut_ptr(), text.len());
        CStr::from_ptr(text.as_ptr()).to_string_lossy().into_owned()
    }
}

impl Edges {
    pub fn new() -> Self {
        Edges { reached: vec![false; counters().1] }
    }

    /// Notes what the input reached that was just run: libFuzzer sets all counters to 0 before the next.
    pub fn note(&mut self) {
        let start = counters().0;
        for (at, reached) in self.reached.iter_mut().enumerate() {
            // SAFETY: a counter; this function may have some of its own, which change meanwhile.
            *reached |= unsafe { start.add(at).read_volatile() } != 0;
        }
    }

    /// Joins what runs before this one have reached, by the file that RDP6_EDGES names, and leaves the union there.
    fn join(&mut self) {
        let Some(file) = env::var_os("RDP6_EDGES") else {
            return;
        };
        let earlier = fs::read(&file).unwrap_or_default();
        if earlier.len() == self.reached.len() {
            self.reached.iter_mut().zip(earlier).for_each(|(reached, byte)| *reached |= byte == b'1');
        }
        let bytes: Vec<u8> = self.reached.iter().map(|&reached| if reached { b'1' } else { b'0' }).collect();
        if let Err(why) = fs::write(&file, bytes) {
            eprintln!("{}: {why}", file.to_string_lossy());
        }
    }

    fn of_library(&self, reached: bool) -> Vec<usize> {
        (0..self.reached.len()).filter(|&at| self.reached[at] == reached && is_of_library(at)).collect()
    }

    pub fn report(&mut self) -> String {
        let now = self.of_library(true).len();
        self.join();
        let (reached, missed) = (self.of_library(true).len(), self.of_library(false));
        if env::var_os("RDP6_MISSED").is_some() {
            missed.iter().for_each(|&at| println!("fuzz: not reached: {at} in {}", function_of(at)));
        }
        format!("edges of the library: {now} reached, with the runs before {reached} of {}", reached + missed.len())
    }
}
