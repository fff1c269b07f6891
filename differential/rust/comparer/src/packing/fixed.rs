//! The part that is the same in every run: all small planes, boundary rows, runs at every place, all destination lengths, the refused
//! sides.

use crate::case::{Case, BOUNDARY_SIDES, MAX_SIDE};
use crate::check::{Comparer, Outcome};
use crate::guarded::SIDES as BOTH_SIDES;
use crate::packing::rooms::{in_rooms, rooms};
use crate::packing::{boundary, places};
use crate::planes::{self, Earlier, PlaneKind, PLANE_KINDS};
use crate::rng::Rng;
use crate::strings::each_string;
use crate::tally::Kind;

/// Two values and four, whose codes meet: 0 and 1, 255 and 128 are one apart or as far as can be.
pub const TWO_VALUES: [u8; 2] = [0, 255];
const FOUR_VALUES: [u8; 4] = [0, 1, 255, 128];

/// Everything, the quick and the small first.
pub fn run(comparer: &mut Comparer) -> Outcome {
    let earlier = &mut Earlier::new();
    refused_sides(comparer, earlier)?;
    sources(comparer, earlier)?;
    each_plane(&TWO_VALUES, 12, &mut |width, height, samples| {
        in_rooms(comparer, earlier, Kind::SmallPlanes, (width, height), samples, rooms)
    })?;
    each_plane(&FOUR_VALUES, 6, &mut |width, height, samples| {
        in_rooms(comparer, earlier, Kind::SmallPlanes, (width, height), samples, rooms)
    })?;
    for (width, height, samples) in boundary::planes() {
        in_rooms(comparer, earlier, Kind::BoundaryRows, (width, height), &samples, rooms)?;
    }
    long_sides(comparer, earlier)?;
    places::run(comparer)?;
    largest_plane(comparer, earlier)
}

/// All planes of up to `most` samples over these values, as width, height, samples.
pub fn each_plane(values: &[u8], most: usize, visit: &mut dyn FnMut(usize, usize, &[u8]) -> Outcome) -> Outcome {
    for count in 1..=most {
        for width in (1..=count).filter(|width| count % width == 0) {
            each_string(values, count, &mut |samples| visit(width, count / width, samples))?;
        }
    }
    Ok(())
}

/// Sources that are longer than the plane, by values that would lengthen its last run too, and shorter.
fn sources(comparer: &mut Comparer, earlier: &mut Earlier) -> Outcome {
    each_plane(&TWO_VALUES, 8, &mut |width, height, samples| {
        with_other_sources(comparer, earlier, (width, height), samples)
    })?;
    for (width, height, samples) in boundary::planes().into_iter().step_by(5) {
        with_other_sources(comparer, earlier, (width, height), &samples)?;
    }
    Ok(())
}

fn with_other_sources(
    comparer: &mut Comparer,
    earlier: &mut Earlier,
    (width, height): (usize, usize),
    samples: &[u8],
) -> Outcome {
    let packed = original::pack(samples, width, height).expect("a complete plane with room").len();
    let last = samples[samples.len() - 1];
    let longer = [samples, &[last, last, last, last, 1, 2, 3, 4, 5]].concat();
    for len in [0, samples.len() / 2, samples.len() - 1, samples.len() + 1, longer.len()] {
        for room in [0, packed - 1, packed, packed + 9] {
            comparer.compare(Kind::Sources, Case::pack(width, height, &longer[..len], earlier.bytes(room)))?;
        }
    }
    Ok(())
}

/// Sides of which at least one is refused, or that need more than any source has: also those whose product does not fit a
/// word, or wraps to a small number.
fn refused_sides(comparer: &mut Comparer, earlier: &mut Earlier) -> Outcome {
    let source = Rng::new(11).bytes(5000);
    for width in BOUNDARY_SIDES {
        for height in BOUNDARY_SIDES {
            for len in [0, 1, 2, 9, 64, 4096, 5000] {
                for room in [0, 1, 2, 40] {
                    let case = Case::pack(width, height, &source[..len], earlier.bytes(room));
                    comparer.compare(Kind::PackTable, case)?;
                }
            }
        }
    }
    Ok(())
}

/// Rows and columns of 8,191 and 8,192, of one value and of every kind.
fn long_sides(comparer: &mut Comparer, earlier: &mut Earlier) -> Outcome {
    let rng = &mut Rng::new(12);
    for side in [MAX_SIDE - 1, MAX_SIDE] {
        for sides in [(side, 1), (side, 2), (1, side)] {
            let flat = vec![9; sides.0 * sides.1];
            in_rooms(comparer, earlier, Kind::LongSides, sides, &flat, rooms)?;
            for plane_kind in PLANE_KINDS {
                let samples = planes::samples(rng, plane_kind, sides.0, sides.1);
                in_rooms(comparer, earlier, Kind::LongSides, sides, &samples, rooms)?;
            }
        }
    }
    let samples = planes::samples(rng, PlaneKind::Runs, 3, MAX_SIDE);
    in_rooms(comparer, earlier, Kind::LongSides, (3, MAX_SIDE), &samples, rooms)
}

/// The largest plane: with just the room that it needs, and with one byte less. It is passed at one side of its
/// pages each time.
fn largest_plane(comparer: &mut Comparer, earlier: &mut Earlier) -> Outcome {
    let (width, height) = (MAX_SIDE, MAX_SIDE);
    let first: Vec<u8> = (0..width).map(|at| (at / 100) as u8).collect();
    let mut samples = Vec::with_capacity(width * height);
    for row in 0..height {
        samples.extend(first.iter().map(|value| value.wrapping_add(row as u8)));
    }
    // Every row under the first is one more than the row above throughout, so that all of them have one packing.
    let [first, two] = [1, 2].map(|rows| original::pack(&samples, width, rows).expect("complete rows with room").len());
    let packed = first + (height - 1) * (two - first);
    for (room, side) in [packed, packed - 1].into_iter().zip(BOTH_SIDES) {
        let case = Case::pack(width, height, &samples, earlier.bytes(room));
        comparer.compare_at(Kind::LargestPlane, case, &[side])?;
    }
    Ok(())
}
