//! Which cases of packing are stored: some around every boundary.

use crate::Stored;
use comparer::packing::boundary::{literal, three_runs, under_a_row, BESIDE, LENGTHS, LITERALS};
use comparer::planes::{self, segment_starts, PlaneKind, PLANE_KINDS, WIDTHS};
use comparer::Rng;

/// All parts, each with random numbers of its own, so that a change in one leaves the others as they are.
pub fn keep_all(stored: &mut Stored) {
    every_room(stored, &mut Rng::new(1));
    boundary_runs(stored, &mut Rng::new(2));
    boundary_literals(stored, &mut Rng::new(3));
    second_rows(stored, &mut Rng::new(4));
    every_difference(stored, &mut Rng::new(5));
    longer_sources(stored, &mut Rng::new(6));
    every_kind(stored, &mut Rng::new(7));
    wide_and_tall(stored, &mut Rng::new(8));
}

pub fn packed(samples: &[u8], width: usize, height: usize) -> Vec<u8> {
    original::pack(samples, width, height).expect("a complete plane with room")
}

/// The plane with room for its packing, or for a little more, and with room for less: up to the end of a segment, or nearly.
fn keep_with_and_without_room(stored: &mut Stored, rng: &mut Rng, width: usize, height: usize, samples: &[u8]) {
    let packing = packed(samples, width, height);
    stored.keep(width, height, packing.len() + rng.pick(&[0, 0, 0, 1, 9]), samples);
    let end = *rng.pick(&segment_starts(&packing)) + rng.below(3);
    stored.keep(width, height, end.saturating_sub(1).min(packing.len() - 1), samples);
}

/// Small planes of two values and of four, with every room from none to one too many.
fn every_room(stored: &mut Stored, rng: &mut Rng) {
    for count in 1..=12 {
        for width in (1..=count).filter(|width| count % width == 0) {
            for values in [&[0, 255][..], &[0, 1, 255, 128]] {
                let samples: Vec<u8> = (0..count).map(|_| *rng.pick(values)).collect();
                keep_with_every_room(stored, width, count / width, &samples);
            }
        }
    }
    for width in [17, 19, 33, 64, 65, 112] {
        keep_with_every_room(stored, width, 2, &vec![9; 2 * width]);
    }
}

pub fn keep_with_every_room(stored: &mut Stored, width: usize, height: usize, samples: &[u8]) {
    for room in 0..=packed(samples, width, height).len() + 1 {
        stored.keep(width, height, room, samples);
    }
}

/// A run of each boundary length in each of three places, the other two short or long.
fn boundary_runs(stored: &mut Stored, rng: &mut Rng) {
    for length in LENGTHS {
        stored.keep(length, 1, packed(&vec![7; length], length, 1).len(), &vec![7; length]);
        for place in 0..3 {
            let row = three_runs(runs_around(rng, length, place));
            keep_with_and_without_room(stored, rng, row.len(), 1, &row);
        }
    }
}

/// Three lengths, this one in its place.
fn runs_around(rng: &mut Rng, length: usize, place: usize) -> [usize; 3] {
    let mut lengths = [0; 3].map(|_| *rng.pick(&[1, 2, 3, 4, 5, 16, 17]));
    lengths[place] = length;
    lengths
}

/// Different values, as many as go out by fifteens and one or two more or less, in front of a run and behind it.
fn boundary_literals(stored: &mut Stored, rng: &mut Rng) {
    for count in LITERALS {
        let row = literal(count);
        stored.keep(count, 1, packed(&row, count, 1).len(), &row);
        for behind in [false, true] {
            let run = vec![0; *rng.pick(&BESIDE)];
            let row = if behind { [run, literal(count)].concat() } else { [literal(count), run].concat() };
            keep_with_and_without_room(stored, rng, row.len(), 1, &row);
        }
    }
}

/// The same rows as codes under a first row, which is of one value, or of changing values if it is short.
fn second_rows(stored: &mut Stored, rng: &mut Rng) {
    for length in LENGTHS {
        for place in 0..3 {
            let row = three_runs(runs_around(rng, length, place));
            let samples = under_a_row(&row, row.len() > 24);
            keep_with_and_without_room(stored, rng, row.len(), 2, &samples);
        }
    }
    for count in LITERALS {
        let row = [literal(count), vec![0; *rng.pick(&BESIDE)]].concat();
        keep_with_and_without_room(stored, rng, row.len(), 2, &under_a_row(&row, true));
    }
}

/// Every difference between a sample and the one above, from some upper value.
fn every_difference(stored: &mut Stored, rng: &mut Rng) {
    for d in 0..=255 {
        let upper = rng.byte();
        stored.keep(1, 2, 4, &[upper, upper.wrapping_add(d)]);
    }
}

/// More samples than the plane has: they would lengthen its last run, or not.
fn longer_sources(stored: &mut Stored, rng: &mut Rng) {
    for _ in 0..120 {
        let (width, height) = (rng.within(1, 40), rng.within(1, 3));
        let plane_kind = *rng.pick(&[PlaneKind::FewValues, PlaneKind::Runs, PlaneKind::RowsAlike]);
        let mut samples = planes::samples(rng, plane_kind, width, height);
        let room = packed(&samples, width, height).len() + *rng.pick(&[0, 1, 9]);
        let last = samples[samples.len() - 1];
        let more = rng.within(1, 50);
        samples.extend(std::iter::repeat_n(if rng.once_in(2) { last } else { rng.byte() }, more));
        stored.keep(width, height, room, &samples);
    }
}

/// Planes of every kind at all the widths.
fn every_kind(stored: &mut Stored, rng: &mut Rng) {
    for width in WIDTHS {
        for plane_kind in PLANE_KINDS {
            let height = rng.within(1, if width > 20 { 2 } else { 4 });
            let samples = planes::samples(rng, plane_kind, width, height);
            keep_with_and_without_room(stored, rng, width, height, &samples);
        }
    }
}

/// Planes at the longest sides, of kinds that take few characters, and a wide and a tall one that take many.
fn wide_and_tall(stored: &mut Stored, rng: &mut Rng) {
    for width in [8191, 8192] {
        for height in 1..=2 {
            let flat = vec![9; width * height];
            let len = packed(&flat, width, height).len();
            for room in [len + 1, len, len - 1, len / 2, 1, 0] {
                stored.keep(width, height, room, &flat);
            }
            let steps: Vec<u8> = (0..width * height).map(|at| (at % width / 300 + at / width) as u8).collect();
            keep_with_and_without_room(stored, rng, width, height, &steps);
        }
        let zeros = vec![0; 2 * width];
        for room in [100, 99, 1, 0] {
            stored.keep(1, width, room, &zeros[..width]);
            stored.keep(2, width, room, &zeros);
        }
    }
    let noise = rng.bytes(8191);
    stored.keep(8191, 1, packed(&noise, 8191, 1).len(), &noise);
    // Each row 8 more than the row above, so that all bytes of the packing are equal.
    let rising: Vec<u8> = (0..8192).map(|row| (16 + row * 8) as u8).collect();
    stored.keep(1, 8192, 16384, &rising);
}
