//! IronRDP, the library and a plain copy of the output, one after the other within each round.

use crate::clock::nanoseconds;
use crate::entry::{Buffers, Entry};
use crate::pages::Kind;
use std::hint::black_box;

/// A copy of fewer bytes is repeated up to so many, or the clock would be measured.
const MIN_COPIED: usize = 1 << 20;

/// A source, IronRDP's answer to it, and its output.
struct Input {
    source: Vec<u8>,
    answer: i64,
    output: Vec<u8>,
}

impl Input {
    /// What IronRDP makes of a source.
    fn new(entry: Entry, source: Vec<u8>, buffers: &mut Buffers, side: usize) -> Input {
        let answer = entry.by_ironrdp(&source, buffers, side);
        let output = buffers.out[entry.start()..][..entry.output_len(answer, side)].to_vec();
        Input { source, answer, output }
    }
}

/// Who is measured.
#[derive(Clone, Copy)]
enum Who {
    IronRdp,
    Library,
    Copy,
}

/// The order of each round starts one further than that of the round before.
const ORDER: [Who; 3] = [Who::IronRdp, Who::Library, Who::Copy];

/// Nanoseconds a pixel.
#[derive(Clone, Copy)]
pub struct Times {
    pub ironrdp: f64,
    pub library: f64,
    pub copy: f64,
}

/// Pictures that are measured together, one call each.
pub struct Job {
    entry: Entry,
    side: usize,
    inputs: Vec<Input>,
    buffers: Buffers,
}

impl Job {
    /// The pictures of this side of a sheet. Each output of the library is compared with IronRDP's once.
    pub fn new(entry: Entry, kind: Kind, sheet_side: usize, side: usize) -> Job {
        let mut buffers = entry.buffers(side);
        let pictures = kind.pictures(entry.form(), sheet_side, side).into_iter();
        let input = |planes| Input::new(entry, entry.source(&planes, side), &mut buffers, side);
        let inputs = pictures.map(input).collect();
        let mut job = Job { entry, side, inputs, buffers };
        for at in 0..job.inputs.len() {
            job.clear();
            job.call(Who::Library, at);
            job.check_output(at);
        }
        job
    }

    fn pixels(&self) -> usize {
        self.inputs.len() * self.side * self.side
    }

    /// Bytes of output for each pixel.
    pub fn output_share(&self) -> f64 {
        let bytes: usize = self.inputs.iter().map(|input| input.output.len()).sum();
        bytes as f64 / self.pixels() as f64
    }

    /// Removes the last output, so that the next one is not taken for it.
    fn clear(&mut self) {
        self.buffers.out.fill(0);
    }

    fn call(&mut self, who: Who, at: usize) {
        let Job { entry, side, inputs, buffers } = self;
        let Input { source, answer, output } = &inputs[at];
        let given = match who {
            Who::IronRdp => entry.by_ironrdp(source, buffers, *side),
            Who::Library => entry.by_library(source, buffers, *side),
            Who::Copy => {
                let to = &mut buffers.out[entry.start()..][..output.len()];
                black_box(to).copy_from_slice(black_box(output));
                *answer
            }
        };
        assert_eq!(given, *answer, "the answer is IronRDP's");
    }

    fn check_output(&self, at: usize) {
        let out = &self.buffers.out[self.entry.start()..];
        assert!(out.starts_with(&self.inputs[at].output), "the output is IronRDP's");
    }

    /// How often all the calls are made in one measurement.
    fn repeats(&self, who: Who) -> usize {
        let bytes: usize = self.inputs.iter().map(|input| input.output.len()).sum();
        match who {
            Who::Copy => MIN_COPIED.div_ceil(bytes),
            Who::IronRdp | Who::Library => 1,
        }
    }

    /// Nanoseconds a pixel of one measurement.
    fn time_of(&mut self, who: Who) -> f64 {
        let (calls, repeats) = (self.inputs.len(), self.repeats(who));
        self.clear();
        let time = nanoseconds(|| (0..repeats * calls).for_each(|at| self.call(who, at % calls)));
        self.check_output(calls - 1);
        time / (repeats * self.pixels()) as f64
    }

    /// The best of so many rounds.
    pub fn best_times(&mut self, rounds: usize) -> Times {
        let mut best = [f64::INFINITY; 3];
        for round in 0..rounds {
            for turn in 0..ORDER.len() {
                let at = (round + turn) % ORDER.len();
                best[at] = self.time_of(ORDER[at]).min(best[at]);
            }
        }
        let [ironrdp, library, copy] = best;
        Times { ironrdp, library, copy }
    }
}
