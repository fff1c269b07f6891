//! The part that is the same in every run: every prefix of all small planes, boundary rows, long sides.

use crate::case::MAX_SIDE;
use crate::check::{Comparer, Outcome};
use crate::packing::boundary;
use crate::packing::fixed::{each_plane, TWO_VALUES};
use crate::planes::{self, Earlier, PLANE_KINDS};
use crate::prefix::{Plane, Prefix};
use crate::rng::Rng;
use crate::tally::Kind;

/// Of packings up to this length every prefix is unpacked.
const EVERY_LENGTH: usize = 24;
/// Of longer ones prefixes around the ends of at most so many segments.
const SEGMENTS: usize = 24;

pub fn run(comparer: &mut Comparer) -> Outcome {
    let earlier = &mut Earlier::new();
    each_plane(&TWO_VALUES, 8, &mut |width, height, samples| {
        at_all_lengths(comparer, earlier, Kind::PrefixSmall, &Plane::new(width, height, samples))
    })?;
    for (width, height, samples) in boundary::planes() {
        at_all_lengths(comparer, earlier, Kind::PrefixBoundary, &Plane::new(width, height, &samples))?;
    }
    long_sides(comparer, earlier)
}

/// One plane, packed by both. Then both unpack its prefixes, every one or some, and last the complete packing with bytes
/// following. The destination is as long as the plane, or longer by one or two bytes.
fn at_all_lengths(comparer: &mut Comparer, earlier: &mut Earlier, kind: Kind, plane: &Plane<'_>) -> Outcome {
    comparer.compare_packings(plane)?;
    let (samples, packed) = (plane.width * plane.height, plane.model.packing.len());
    for taken in lengths(plane) {
        let before = earlier.bytes(samples + taken % 3);
        comparer.compare_prefix(kind, plane, Prefix { taken, following: &[], before })?;
    }
    let following = earlier.bytes(1 + packed % 5).to_vec();
    let before = earlier.bytes(samples + packed % 2);
    comparer.compare_prefix(kind, plane, Prefix { taken: packed, following: &following, before })
}

/// The length of every prefix of a short packing, or some lengths around the ends of its segments.
fn lengths(plane: &Plane<'_>) -> Vec<usize> {
    let packed = plane.model.packing.len();
    if packed <= EVERY_LENGTH {
        return (0..=packed).collect();
    }
    let ends = &plane.model.ends;
    let near =
        ends.iter().step_by(ends.len().div_ceil(SEGMENTS)).flat_map(|end| [end.bytes - 1, end.bytes, end.bytes + 1]);
    let mut lengths: Vec<usize> = near.chain([0, 1, packed - 1, packed]).filter(|&taken| taken <= packed).collect();
    lengths.sort_unstable();
    lengths.dedup();
    lengths
}

/// Rows and columns of 8,191 and 8,192.
fn long_sides(comparer: &mut Comparer, earlier: &mut Earlier) -> Outcome {
    let rng = &mut Rng::new(13);
    for side in [MAX_SIDE - 1, MAX_SIDE] {
        for (width, height) in [(side, 1), (side, 2), (1, side)] {
            for plane_kind in PLANE_KINDS {
                let samples = planes::samples(rng, plane_kind, width, height);
                at_all_lengths(comparer, earlier, Kind::PrefixLong, &Plane::new(width, height, &samples))?;
            }
        }
    }
    Ok(())
}
