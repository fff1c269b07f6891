//! Which cases of unpacking are stored: some around every boundary.

use crate::Stored;
use comparer::planes::{self, segment_starts, Making, PlaneKind, PLANE_KINDS, WIDTHS};
use comparer::Rng;

/// All parts, each with random numbers of its own, so that a change in one leaves the others as they are.
pub fn keep_all(stored: &mut Stored) {
    short_bodies(stored, &mut Rng::new(1));
    every_control_byte(stored, &mut Rng::new(2));
    refusals_at_every_place(stored, &mut Rng::new(3));
    truncated_packings(stored, &mut Rng::new(4));
    complete_and_followed(stored, &mut Rng::new(5));
    damaged_packings(stored, &mut Rng::new(6));
    made_bodies(stored, &mut Rng::new(7));
    wide_and_tall(stored, &mut Rng::new(8));
}

/// A destination as long as needed, or longer by one or some.
fn room(rng: &mut Rng, width: usize, height: usize) -> usize {
    width * height + *rng.pick(&[0, 0, 1, 2, 9])
}

fn packed(rng: &mut Rng, plane_kind: PlaneKind, width: usize, height: usize) -> Vec<u8> {
    let plane = planes::samples(rng, plane_kind, width, height);
    original::pack(&plane, width, height).expect("a complete plane with room")
}

/// No byte, all single bytes, and some pairs.
fn short_bodies(stored: &mut Stored, rng: &mut Rng) {
    for width in [1, 3, 16, 47, 48, 8192] {
        stored.keep(width, 1, width, &[]);
    }
    for byte in 0..=255 {
        let width = *rng.pick(&WIDTHS);
        stored.keep(width, 1, width, &[byte]);
    }
    for _ in 0..300 {
        let (width, height) = (rng.within(1, 20), rng.within(1, 3));
        let body = [*rng.pick(&[0x00, 0x01, 0x03, 0x04, 0x0F, 0x10, 0x11, 0x13, 0x20]), rng.byte()];
        let room = room(rng, width, height);
        stored.keep(width, height, room, &body);
    }
}

/// Each control byte with its raw bytes: in a row of just its length, in one that is too narrow by 1 (refusal 9), in one that
/// is longer by 1 (the next control byte is missing), and with a raw byte missing.
fn every_control_byte(stored: &mut Stored, rng: &mut Rng) {
    for control in 1..=255 {
        let (raw, run) = planes::counts(control);
        let len = raw + run;
        let body = [vec![control], rng.bytes(raw)].concat();
        for width in len.saturating_sub(1).max(1)..=len + 1 {
            stored.keep(width, 1, width, &body);
        }
        if raw > 0 {
            let width = *rng.pick(&[len, len.saturating_sub(1).max(1), len + 1]);
            stored.keep(width, 1, width, &body[..raw]);
        }
    }
}

/// At every segment of some right bodies: control byte 0, no control byte, no raw byte behind it, one that overruns its row.
fn refusals_at_every_place(stored: &mut Stored, rng: &mut Rng) {
    for (width, height) in [(5, 3), (9, 2), (16, 2), (17, 3), (20, 2), (33, 2), (48, 2)] {
        for opening_runs in [false, true] {
            let making = Making { opening_runs, wrong_once_in: usize::MAX };
            let body = planes::made_body(rng, making, width, height);
            for at in segment_starts(&body) {
                for control in [0x00, 0x40, 0xF2, 0xFF] {
                    let mut wrong = body.clone();
                    wrong[at] = control;
                    stored.keep(width, height, room(rng, width, height), &wrong);
                }
                stored.keep(width, height, room(rng, width, height), &body[..at]);
                stored.keep(width, height, room(rng, width, height), &body[..=at]);
            }
        }
    }
}

/// Prefixes of packings of small planes, every one or some.
fn truncated_packings(stored: &mut Stored, rng: &mut Rng) {
    for (width, height) in [(1, 4), (4, 3), (15, 2), (16, 2), (17, 2), (32, 2), (47, 2), (48, 2), (64, 2), (65, 1)] {
        for plane_kind in PLANE_KINDS {
            let body = packed(rng, plane_kind, width, height);
            for len in 0..=body.len() {
                if body.len() < 60 || rng.once_in(3) {
                    stored.keep(width, height, room(rng, width, height), &body[..len]);
                }
            }
        }
    }
}

/// Packings of planes of every kind at all the widths, complete and with bytes following.
fn complete_and_followed(stored: &mut Stored, rng: &mut Rng) {
    for width in WIDTHS {
        for plane_kind in PLANE_KINDS {
            let height = rng.within(1, 4);
            let mut body = packed(rng, plane_kind, width, height);
            stored.keep(width, height, room(rng, width, height), &body);
            let more = rng.within(1, 9);
            body.extend(rng.bytes(more));
            stored.keep(width, height, room(rng, width, height), &body);
        }
    }
}

/// Packings with one to three bytes changed.
fn damaged_packings(stored: &mut Stored, rng: &mut Rng) {
    for _ in 0..500 {
        let (width, height) = (*rng.pick(&WIDTHS), rng.within(1, 4));
        let plane_kind = *rng.pick(&PLANE_KINDS);
        let mut body = packed(rng, plane_kind, width, height);
        for _ in 0..rng.within(1, 3) {
            let at = rng.below(body.len());
            body[at] = rng.byte();
        }
        stored.keep(width, height, room(rng, width, height), &body);
    }
}

/// Bodies that no encoder here writes.
fn made_bodies(stored: &mut Stored, rng: &mut Rng) {
    for at in 0..400 {
        let (width, height) = (*rng.pick(&WIDTHS), rng.within(1, 4));
        let making = Making { opening_runs: at % 2 == 0, wrong_once_in: if at % 4 < 2 { 20 } else { usize::MAX } };
        let body = planes::made_body(rng, making, width, height);
        stored.keep(width, height, room(rng, width, height), &body);
    }
}

/// Planes at the longest sides, of kinds that take few characters, and one tall plane that takes many.
fn wide_and_tall(stored: &mut Stored, rng: &mut Rng) {
    for width in [8191, 8192] {
        for height in 1..=2 {
            let flat = original::pack(&vec![9; width * height], width, height).expect("a complete plane with room");
            for len in [flat.len(), flat.len() - 1, flat.len() / 2, 1, 0] {
                stored.keep(width, height, room(rng, width, height), &flat[..len]);
            }
            let steps: Vec<u8> = (0..width * height).map(|at| (at % width / 300 + at / width) as u8).collect();
            let body = original::pack(&steps, width, height).expect("a complete plane with room");
            stored.keep(width, height, room(rng, width, height), &body);
            let zeros = [vec![0xF2; width / 47], vec![0x01, 0xF0], vec![0; 40]].concat();
            stored.keep(width, height, room(rng, width, height), &zeros);
        }
    }
    for (width, height) in [(3, 6600), (4, 5000), (5, 4000)] {
        stored.keep(width, height, width * height, &vec![width as u8; height]);
        stored.keep(width, height, width * height, &vec![width as u8; height - 1]);
    }
    for (width, height) in [(1, 8192), (2, 6000), (2, 8192)] {
        let plane: Vec<u8> = (0..width * height).map(|at| (at / width / 64) as u8).collect();
        let body = original::pack(&plane, width, height).expect("a complete plane with room");
        stored.keep(width, height, width * height, &body[..body.len().min(18_001)]);
    }
}
