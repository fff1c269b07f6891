//! Pixels of the layouts that the other cases do not have, and of those that there are not: refusal 3 and its place.

use crate::case::MAX_SIDE;
use crate::check::{Comparer, Outcome};
use crate::encoding::fixed::planes_of;
use crate::encoding::given::{self, given, pixels, ALPHAS, FORMS};
use crate::encoding::{Encoding, Sources};
use crate::extent::Extent;
use crate::layout::{Layout, LAYOUTS, STRIDE, UNKNOWN};
use crate::packing::fixed::TWO_VALUES;
use crate::packing::places::{ARRAY_WIDTHS, FEW, LONGEST};
use crate::picture::Planes;
use crate::planes::{Earlier, PlaneKind};
use crate::rng::Rng;
use crate::strings::each_string;
use crate::tally::Kind;

pub fn run(comparer: &mut Comparer, earlier: &mut Earlier, extent: Extent) -> Outcome {
    small_pictures(comparer, earlier, extent)?;
    all_numbers(comparer, earlier, extent)?;
    several_at_once(comparer, earlier, extent)
}

/// All pictures of one pixel and of two over two values, with every room.
fn small_pictures(comparer: &mut Comparer, earlier: &mut Earlier, extent: Extent) -> Outcome {
    for (layout, alpha) in LAYOUTS.into_iter().flat_map(|layout| ALPHAS.map(|alpha| (layout, alpha))) {
        for sides in [(1, 1), (2, 1), (1, 2)] {
            let count = sides.0 * sides.1;
            each_string(&TWO_VALUES, count * (3 + usize::from(alpha)), &mut |samples| {
                let sources = pixels(&planes_of(samples, count), layout);
                for rle in FORMS {
                    let case = given(extent, rle, sides, sources.view());
                    for room in case.rooms(1) {
                        case.compare_in(comparer, earlier, Kind::EncodingLayouts, room)?;
                    }
                }
                Ok(())
            })?;
        }
    }
    Ok(())
}

/// All layouts under 300 and wider ones, of a picture with room and without.
fn all_numbers(comparer: &mut Comparer, earlier: &mut Earlier, extent: Extent) -> Outcome {
    let noise = Rng::new(38).bytes(STRIDE * 6);
    for layout in (0..300).map(Layout).chain(UNKNOWN) {
        for (rle, alpha) in FORMS.into_iter().flat_map(|rle| ALPHAS.map(|alpha| (rle, alpha))) {
            for (len, room) in [(noise.len(), 60), (noise.len() - 1, 60), (0, 60), (noise.len(), 0), (0, 0)] {
                let sources = Sources::Pixels { pixels: &noise[..len], layout, alpha };
                let case = given(extent, rle, (3, 2), sources);
                case.compare_in(comparer, earlier, Kind::EncodingLayouts, room)?;
            }
        }
    }
    Ok(())
}

/// Sides, layout, pixels and destination right or wrong, in all combinations.
fn several_at_once(comparer: &mut Comparer, earlier: &mut Earlier, extent: Extent) -> Outcome {
    let noise = Rng::new(39).bytes(STRIDE * 6);
    for (layout, alpha) in LAYOUTS.into_iter().chain(UNKNOWN).flat_map(|layout| ALPHAS.map(|alpha| (layout, alpha))) {
        for (rle, len) in FORMS.into_iter().flat_map(|rle| [noise.len(), noise.len() - 1, 0].map(|len| (rle, len))) {
            let sources = Sources::Pixels { pixels: &noise[..len], layout, alpha };
            for (width, height) in
                [0, 2, MAX_SIDE + 1].into_iter().flat_map(|width| [0, 3, MAX_SIDE + 1].map(|height| (width, height)))
            {
                for room in [0, 3, 60] {
                    let case = given(extent, rle, (width, height), sources);
                    case.compare_in(comparer, earlier, Kind::EncodingOrder, room)?;
                }
            }
        }
    }
    Ok(())
}

/// Rows of as many pixels as an encoder may read at once, and some more or less, of noise. Bodies alone: that a stream has the same body is
/// seen with the other pictures.
pub fn run_wide(comparer: &mut Comparer) -> Outcome {
    let earlier = &mut Earlier::new();
    let widths = FEW.chain(15..=17).chain(31..=33).chain(60..=70).chain(124..=132).chain(ARRAY_WIDTHS).chain(LONGEST);
    for (width, layout) in widths.flat_map(|width| LAYOUTS.map(|layout| (width, layout))) {
        let rng = &mut Rng::new(width as u64 + 40);
        let height = if width > 1000 { 1 } else { 2 };
        for (rle, alpha) in FORMS.into_iter().flat_map(|rle| ALPHAS.map(|alpha| (rle, alpha))) {
            let planes = Planes::with_kinds(rng, given::form(alpha), (width, height), &[PlaneKind::Noise]);
            let sources = pixels(&planes, layout);
            let case: Encoding<&[u8]> = given(Extent::Body, rle, (width, height), sources.view());
            let len = case.packing().len();
            for room in [len, len - 1] {
                case.compare_in(comparer, earlier, Kind::EncodingLayouts, room)?;
            }
        }
    }
    Ok(())
}
