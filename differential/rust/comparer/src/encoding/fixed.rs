//! The part that is the same in every run: refusals, all small pictures, every room, the longest sides.

use crate::case::MAX_SIDE;
use crate::check::{Comparer, Outcome};
use crate::encoding::given::{self, both, given, in_rooms, ALPHAS, FORMS};
use crate::encoding::{blocks, examples, layouts, refused, Encoding, Sources};
use crate::extent::Extent;
use crate::guarded::SIDES as BOTH_SIDES;
use crate::layout::BGRA;
use crate::packing::boundary;
use crate::packing::fixed::TWO_VALUES;
use crate::picture::Planes;
use crate::planes::{Earlier, PlaneKind, PLANE_KINDS};
use crate::rng::Rng;
use crate::strings::each_string;
use crate::tally::Kind;

/// Everything, the quick and the small first.
pub fn run(comparer: &mut Comparer) -> Outcome {
    run_quick(comparer)?;
    largest(comparer)
}

/// All but the largest picture.
pub fn run_quick(comparer: &mut Comparer) -> Outcome {
    run_of(comparer, Extent::Body)?;
    blocks::run(comparer)?;
    layouts::run_wide(comparer)
}

/// Streams, without what is about the reading of long rows: that a stream has the same body is seen with other pictures.
pub fn run_streams(comparer: &mut Comparer) -> Outcome {
    run_of(comparer, Extent::Stream)
}

fn run_of(comparer: &mut Comparer, extent: Extent) -> Outcome {
    let earlier = &mut Earlier::new();
    examples::run(comparer, extent)?;
    refused::run(comparer, earlier, extent)?;
    small_pictures(comparer, earlier, extent)?;
    telling_pictures(comparer, earlier, extent)?;
    kinds(comparer, earlier, extent)?;
    layouts::run(comparer, earlier, extent)?;
    long_sides(comparer, earlier, extent)
}

/// How many segments' ends a destination is tried around: all of most pictures, some of the longest.
const SEGMENTS: usize = 400;
const FEWER_SEGMENTS: usize = 6;

/// A picture with the rooms around so many segments.
fn in_all_rooms(
    comparer: &mut Comparer,
    earlier: &mut Earlier,
    kind: (Kind, Extent),
    sides: (usize, usize),
    planes: &Planes,
    segments: usize,
) -> Outcome {
    in_rooms(comparer, earlier, kind, sides, planes, |case| case.rooms(segments))
}

/// The planes that these samples are, one behind the other: R, G and B, then A.
pub fn planes_of(samples: &[u8], count: usize) -> Planes {
    let mut planes = samples.chunks(count).map(<[u8]>::to_vec);
    let mut next = || planes.next().expect("three planes at least");
    let colours = [next(), next(), next()];
    Planes { colours, alpha: planes.next() }
}

/// All pictures of up to three pixels over two values, of four planes up to two, with every room.
fn small_pictures(comparer: &mut Comparer, earlier: &mut Earlier, extent: Extent) -> Outcome {
    for (alpha, most) in ALPHAS.into_iter().zip([3, 2]) {
        for count in 1..=most {
            for width in (1..=count).filter(|width| count % width == 0) {
                let sides = (width, count / width);
                each_string(&TWO_VALUES, count * (3 + usize::from(alpha)), &mut |samples| {
                    let planes = planes_of(samples, count);
                    in_all_rooms(comparer, earlier, (Kind::EncodingSmall, extent), sides, &planes, SEGMENTS)
                })?;
            }
        }
    }
    Ok(())
}

/// Planes whose packing passes every boundary of the rules, three or four neighbours of them as one picture.
fn telling_pictures(comparer: &mut Comparer, earlier: &mut Earlier, extent: Extent) -> Outcome {
    let mut planes = boundary::planes();
    planes.sort();
    for (at, same) in planes.chunk_by(|left, right| left.0 == right.0 && left.1 == right.1).enumerate() {
        let sides = (same[0].0, same[0].1);
        for group in same.chunks_exact(4).step_by(3) {
            let mut samples = group.iter().map(|plane| plane.2.clone());
            let mut next = || samples.next().expect("four planes");
            let colours = [next(), next(), next()];
            let planes = Planes { colours, alpha: (at % 2 == 0).then(next) };
            let kind = (Kind::EncodingBoundary, extent);
            in_all_rooms(comparer, earlier, kind, sides, &planes, FEWER_SEGMENTS)?;
        }
    }
    Ok(())
}

/// Planes of every kind at sides around which a segment's counts change: rooms at the end of each segment of each plane.
fn kinds(comparer: &mut Comparer, earlier: &mut Earlier, extent: Extent) -> Outcome {
    let rng = &mut Rng::new(35);
    for sides in [(4, 2), (5, 5), (15, 1), (16, 2), (17, 3), (32, 1), (33, 2), (47, 1), (48, 2), (64, 1), (65, 3)] {
        for (plane_kind, alpha) in
            PLANE_KINDS.into_iter().flat_map(|plane_kind| ALPHAS.map(|alpha| (plane_kind, alpha)))
        {
            let planes = Planes::with_kinds(rng, given::form(alpha), sides, &[plane_kind]);
            in_all_rooms(comparer, earlier, (Kind::EncodingRooms, extent), sides, &planes, SEGMENTS)?;
        }
    }
    Ok(())
}

/// Rows and columns of 8,191 and 8,192: with some rooms, and each source short by one byte. Nine rows have more than 65,536
/// samples.
fn long_sides(comparer: &mut Comparer, earlier: &mut Earlier, extent: Extent) -> Outcome {
    let rng = &mut Rng::new(36);
    for side in [MAX_SIDE - 1, MAX_SIDE] {
        for (sides, alpha) in [(side, 1), (1, side), (side, 2), (side, 9)].into_iter().zip([true, false, false, true]) {
            let planes = Planes::with_kinds(rng, given::form(alpha), sides, &[PlaneKind::Runs, PlaneKind::FlatPage]);
            in_all_rooms(comparer, earlier, (Kind::EncodingLongSides, extent), sides, &planes, FEWER_SEGMENTS)?;
            for (owned, rle) in both(&planes).iter().flat_map(|owned| FORMS.map(|rle| (owned, rle))) {
                let short = owned.view().map(|slice, _| &slice[..slice.len() - 1]);
                given(extent, rle, sides, short).compare_in(comparer, earlier, Kind::EncodingLongSides, 9)?;
            }
        }
    }
    Ok(())
}

/// The largest picture, raw, from pixels: with just the room that it needs, and with one byte less. It is passed at
/// one side of its pages each time.
fn largest(comparer: &mut Comparer) -> Outcome {
    let (width, height) = (MAX_SIDE, MAX_SIDE);
    let noise = Rng::new(37).bytes(65_537);
    let long = |len: usize| {
        let mut bytes = noise.repeat(len.div_ceil(noise.len()));
        bytes.truncate(len);
        bytes
    };
    let (pixels, before) = (long(4 * width * height), long(3 * width * height + 1));
    let sources = Sources::Pixels { pixels: &pixels[..], layout: BGRA, alpha: false };
    for (room, side) in [before.len(), before.len() - 1].into_iter().zip(BOTH_SIDES) {
        let case = Encoding { before: &before[..room], ..given(Extent::Body, false, (width, height), sources) };
        comparer.compare_encoding_at(Kind::EncodingLargest, case, &[side])?;
    }
    Ok(())
}
