//! The part that is the same in every run: all short bodies, all destination lengths, rows of boundary lengths, the refused sides.

use crate::case::{Case, BOUNDARY_SIDES, MAX_SIDE};
use crate::check::{Comparer, Outcome};
use crate::planes::{self, Earlier, PlaneKind};
use crate::rng::Rng;
use crate::strings::each_string;
use crate::tally::Kind;
use crate::unpacking::boundary;

/// The widths of short bodies.
const SHORT_WIDTHS: [usize; 25] =
    [1, 2, 3, 4, 5, 6, 7, 8, 9, 10, 11, 12, 13, 14, 15, 16, 17, 18, 19, 20, 31, 32, 33, 47, 48];

/// Control bytes of every form, which are values just as well.
const ALPHABET: [u8; 18] =
    [0x00, 0x01, 0x02, 0x03, 0x04, 0x0F, 0x10, 0x11, 0x12, 0x13, 0x20, 0x21, 0xF0, 0xF1, 0xF2, 0xFF, 0x1F, 0x30];
/// A smaller one for longer bodies.
const FEW: [u8; 9] = [0x00, 0x01, 0x03, 0x10, 0x13, 0x20, 0x11, 0x04, 0xF0];

/// Everything, the quick and the small first.
pub fn run(comparer: &mut Comparer) -> Outcome {
    let earlier = &mut Earlier::new();
    refused_sides(comparer, earlier)?;
    short_bodies(comparer, earlier)?;
    bodies_over(comparer, earlier, &ALPHABET, 3, &SHORT_WIDTHS, 3)?;
    bodies_over(comparer, earlier, &ALPHABET, 4, &[1, 3, 4, 17], 2)?;
    bodies_over(comparer, earlier, &FEW, 5, &[1, 2, 3, 4, 5, 17, 20], 3)?;
    destination_lengths(comparer, earlier)?;
    boundary::run(comparer)?;
    largest_planes(comparer, earlier)
}

/// All bodies of up to 2 bytes.
fn short_bodies(comparer: &mut Comparer, earlier: &mut Earlier) -> Outcome {
    let all: Vec<u8> = (0..=255).collect();
    for len in 0..=2 {
        each_string(&all, len, &mut |body| on_planes(comparer, earlier, Kind::Short, body, &SHORT_WIDTHS, 3))?;
    }
    Ok(())
}

/// All bodies of this length over an alphabet.
fn bodies_over(
    comparer: &mut Comparer,
    earlier: &mut Earlier,
    alphabet: &[u8],
    len: usize,
    widths: &[usize],
    tallest: usize,
) -> Outcome {
    each_string(alphabet, len, &mut |body| on_planes(comparer, earlier, Kind::Alphabet, body, widths, tallest))
}

/// One body on planes of these widths and heights 1 to `tallest`, the destination mostly longer than needed by a little.
fn on_planes(
    comparer: &mut Comparer,
    earlier: &mut Earlier,
    kind: Kind,
    body: &[u8],
    widths: &[usize],
    tallest: usize,
) -> Outcome {
    for &width in widths {
        for height in 1..=tallest {
            let room = width * height + (width + body.len()) % 3;
            comparer.compare(kind, Case::unpack(width, height, body, earlier.bytes(room)))?;
        }
    }
    Ok(())
}

/// Every destination length from 0 to a little over width x height, with bodies that fill the plane and that do not.
fn destination_lengths(comparer: &mut Comparer, earlier: &mut Earlier) -> Outcome {
    let rng = &mut Rng::new(10);
    for width in [1, 2, 3, 4, 15, 16, 17, 33, 48] {
        for height in 1..=4 {
            let plane = planes::samples(rng, PlaneKind::FewValues, width, height);
            let packed = original::pack(&plane, width, height).expect("a complete plane with room");
            let bodies: [&[u8]; 4] = [&packed, &packed[..packed.len() / 2], &[], &[0]];
            for body in bodies {
                for room in 0..=width * height + 4 {
                    let before = earlier.bytes(room);
                    comparer.compare(Kind::Rooms, Case::unpack(width, height, body, before))?;
                }
            }
        }
    }
    Ok(())
}

/// Sides of which at least one is refused, or that need more than any destination has: also those whose product does not
/// fit a word, or wraps to a small number.
fn refused_sides(comparer: &mut Comparer, earlier: &mut Earlier) -> Outcome {
    const BODIES: [&[u8]; 6] = [&[], &[0], &[0x10, 5], &[3], &[0x03, 0x03, 0x03, 0x03], &[0xF2; 40]];
    for width in BOUNDARY_SIDES {
        for height in BOUNDARY_SIDES {
            for body in BODIES {
                for room in [0, 1, 2, 9, 64, 4096, 5000] {
                    let before = earlier.bytes(room);
                    comparer.compare(Kind::Table, Case::unpack(width, height, body, before))?;
                }
            }
        }
    }
    Ok(())
}

/// The largest planes: complete, truncated, and in a destination that is one byte short.
fn largest_planes(comparer: &mut Comparer, earlier: &mut Earlier) -> Outcome {
    let (width, height) = (MAX_SIDE, MAX_SIDE);
    let plane: Vec<u8> = (0..width * height).map(|at| (at % width / 100 + at / width) as u8).collect();
    let packed = original::pack(&plane, width, height).expect("a complete plane with room");
    let before = earlier.bytes(width * height);
    for body in [&packed[..], &packed[..packed.len() - 1]] {
        comparer.compare(Kind::Largest, Case::unpack(width, height, body, before))?;
    }
    comparer.compare(Kind::Largest, Case::unpack(width, height, &packed, &before[1..]))
}
