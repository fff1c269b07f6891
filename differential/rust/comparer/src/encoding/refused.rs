//! The part of the fixed cases that is about the tests before anything is read, 1, 2 and 11, their limits and their order; and
//! about sources that are longer than the picture.

use crate::case::{BOUNDARY_SIDES, MAX_SIDE};
use crate::check::{Comparer, Outcome};
use crate::encoding::given::{self, both, given, ALPHAS, FORMS};
use crate::encoding::{Encoding, Sources};
use crate::extent::Extent;
use crate::layout::{BGRA, STRIDE};
use crate::picture::Planes;
use crate::planes::Earlier;
use crate::rng::Rng;
use crate::tally::Kind;

pub fn run(comparer: &mut Comparer, earlier: &mut Earlier, extent: Extent) -> Outcome {
    table_of_sides(comparer, earlier, extent)?;
    several_at_once(comparer, earlier, extent)?;
    sources(comparer, earlier, extent)?;
    pixel_slices(comparer, earlier, extent)
}

/// Sources of all four entries, each with so many bytes of these.
fn of_every_entry(noise: &[u8], len: usize) -> [Sources<&[u8]>; 4] {
    let at = |from: usize| &noise[from..from + len];
    [
        Sources::Channels { colours: [at(0), at(1), at(2)], alpha: None },
        Sources::Channels { colours: [at(0), at(1), at(2)], alpha: Some(at(3)) },
        Sources::Pixels { pixels: at(0), layout: BGRA, alpha: false },
        Sources::Pixels { pixels: at(0), layout: BGRA, alpha: true },
    ]
}

/// Sides of which at least one is refused, or that need more than any source has: also those whose product does not fit a word,
/// or wraps to a small number.
fn table_of_sides(comparer: &mut Comparer, earlier: &mut Earlier, extent: Extent) -> Outcome {
    let noise = Rng::new(31).bytes(5000);
    for sides in BOUNDARY_SIDES.into_iter().flat_map(|width| BOUNDARY_SIDES.map(|height| (width, height))) {
        for len in [0, 1, 3, 4, 9, 64, 4096] {
            for sources in of_every_entry(&noise, len) {
                for (rle, room) in FORMS.into_iter().flat_map(|rle| [0, 1, 20, 200].map(|room| (rle, room))) {
                    given(extent, rle, sides, sources).compare_in(comparer, earlier, Kind::EncodingTable, room)?;
                }
            }
        }
    }
    Ok(())
}

/// Sides, each source and the destination right or wrong, in all combinations.
fn several_at_once(comparer: &mut Comparer, earlier: &mut Earlier, extent: Extent) -> Outcome {
    let rng = &mut Rng::new(32);
    for alpha in ALPHAS {
        let planes = Planes::random(rng, given::form(alpha), 2, 3);
        for (owned, rle) in both(&planes).iter().flat_map(|owned| FORMS.map(|rle| (owned, rle))) {
            let room = given(extent, rle, (2, 3), owned.view()).packing().len();
            let slices = owned.slices();
            for which in 0..1 << slices.len() {
                let mut sources = owned.view();
                for (at, (slice, _)) in slices.iter().enumerate().filter(|(at, _)| which >> at & 1 == 1) {
                    sources = sources.with(at, &slice[..slice.len() - 1]);
                }
                in_all_sides(comparer, earlier, given(extent, rle, (2, 3), sources), &[room, room - 1, 0])?;
            }
        }
    }
    Ok(())
}

/// The sources of a picture of 2 x 3 with these sides and with wrong ones.
fn in_all_sides(comparer: &mut Comparer, earlier: &mut Earlier, case: Encoding<&[u8]>, rooms: &[usize]) -> Outcome {
    for width in [0, 2, MAX_SIDE + 1] {
        for height in [0, 3, MAX_SIDE + 1] {
            for &room in rooms {
                let case = Encoding { width, height, ..case };
                case.compare_in(comparer, earlier, Kind::EncodingOrder, room)?;
            }
        }
    }
    Ok(())
}

/// The sides of the pictures whose sources have other lengths. The last have rows of about 64 pixels.
const SIDES: [(usize, usize); 11] =
    [(1, 1), (2, 1), (1, 2), (3, 2), (2, 5), (17, 1), (16, 3), (48, 2), (63, 2), (64, 1), (67, 1)];

/// Sources that are short, exact and long, one of them and all of them, with room and without.
fn sources(comparer: &mut Comparer, earlier: &mut Earlier, extent: Extent) -> Outcome {
    let rng = &mut Rng::new(33);
    for (sides, alpha) in SIDES.into_iter().flat_map(|sides| ALPHAS.map(|alpha| (sides, alpha))) {
        let planes = Planes::random(rng, given::form(alpha), sides.0, sides.1);
        for exact in both(&planes) {
            let longer = exact.view().map(|slice, stride| {
                // The last sample again, which would lengthen a run, then others.
                let last = &slice[slice.len() - stride..];
                [slice, last, last, last, last, &rng.bytes(5 * stride)].concat()
            });
            let mut tried = vec![exact.view(), longer.view()];
            tried.extend(with_other_lengths(exact.view(), &longer, sides.0 * sides.1));
            tried.extend(with_other_lengths(longer.view(), &longer, sides.0 * sides.1));
            for rle in FORMS {
                with_rooms(comparer, earlier, given(extent, rle, sides, exact.view()), &tried)?;
            }
        }
    }
    Ok(())
}

/// One source at a time with none, half, one less, all, one more and some more of so many samples.
fn with_other_lengths<'a>(
    sources: Sources<&'a [u8]>,
    longer: &'a Sources<Vec<u8>>,
    samples: usize,
) -> Vec<Sources<&'a [u8]>> {
    let mut others = Vec::new();
    for (at, (slice, stride)) in longer.slices().into_iter().enumerate() {
        for count in [0, samples / 2, samples - 1, samples, samples + 1, samples + 9] {
            others.push(sources.with(at, &slice[..count * stride]));
        }
    }
    others
}

/// Each of these sources with rooms around what the picture needs, and with room for all that they have.
fn with_rooms(
    comparer: &mut Comparer,
    earlier: &mut Earlier,
    exact: Encoding<&[u8]>,
    tried: &[Sources<&[u8]>],
) -> Outcome {
    let needed = exact.packing().len();
    for &sources in tried {
        for room in [0, needed - 1, needed, needed + 1, 2 * needed + 60] {
            let case = Encoding { sources, ..exact };
            case.compare_in(comparer, earlier, Kind::EncodingSources, room)?;
        }
    }
    Ok(())
}

/// Slices of pixels of every length from two short of the picture to two beyond it: a part of a pixel counts for nothing.
fn pixel_slices(comparer: &mut Comparer, earlier: &mut Earlier, extent: Extent) -> Outcome {
    let rng = &mut Rng::new(34);
    for ((width, height), alpha) in SIDES.into_iter().flat_map(|sides| ALPHAS.map(|alpha| (sides, alpha))) {
        let complete = STRIDE * width * height;
        let noise = rng.bytes(complete + 2 * STRIDE);
        for len in complete.saturating_sub(2 * STRIDE)..complete + 2 * STRIDE {
            let sources = Sources::Pixels { pixels: &noise[..len], layout: BGRA, alpha };
            for rle in FORMS {
                let exact = Sources::Pixels { pixels: &noise[..complete], layout: BGRA, alpha };
                let needed = given(extent, rle, (width, height), exact).packing().len();
                for room in [0, needed - 1, needed, needed + 9] {
                    let case = given(extent, rle, (width, height), sources);
                    case.compare_in(comparer, earlier, Kind::EncodingPixels, room)?;
                }
            }
        }
    }
    Ok(())
}
