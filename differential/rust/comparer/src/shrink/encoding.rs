//! Smaller cases of picture packing.

use super::call::lower_side;
use super::plane::{without_columns, without_rows};
use super::{lower, lower_bytes, lower_layouts, pieces, plain};
use crate::encoding::{OwnedEncoding, Sources};
use crate::layout::BGRA;

/// Of form, sides, source lengths, destination length, samples and the destination's content each lowers one and none that
/// stands before it, so shrinking ends.
pub fn smaller(case: &OwnedEncoding) -> impl Iterator<Item = OwnedEncoding> + '_ {
    with_smaller_picture(case, LONG)
        .chain(with_plainer_form(case))
        .chain(with_lower_sides(case))
        .chain(with_smaller_picture(case, 0))
        .chain(with_shorter_sources(case))
        .chain(with_shorter_destination(case))
        .chain(with_lower_bytes(case))
        .chain(plain(&case.before).map(|before| OwnedEncoding { before, ..case.clone() }))
}

/// Larger pictures lose rows and columns before anything else is tried: comparing them takes long.
const LONG: usize = 1 << 16;

/// The length of the packing, if nothing is refused before it.
fn packed_len(case: &OwnedEncoding) -> Option<usize> {
    case.refused_at_entry().is_none().then(|| case.extent.header_len() + case.view().packing().len())
}

/// The changed case: with what the destination had beyond the packing, or lacked, and with the destination as it is.
fn refitted(case: &OwnedEncoding, changed: OwnedEncoding) -> impl Iterator<Item = OwnedEncoding> {
    let fitted = packed_len(case).zip(packed_len(&changed)).filter(|(old, new)| old != new).map(|(old, new)| {
        let mut fitted = changed.clone();
        fitted.before.resize((case.before.len() + new).saturating_sub(old), 0xEE);
        fitted
    });
    fitted.into_iter().chain([changed])
}

/// Lower layouts, with the pixels rearranged or as they are; raw for RLE, three planes for four.
fn with_plainer_form(case: &OwnedEncoding) -> impl Iterator<Item = OwnedEncoding> + '_ {
    let raw = case.rle.then(|| OwnedEncoding { rle: false, ..case.clone() });
    let sources = match &case.sources {
        Sources::Channels { colours, alpha: Some(_) } => {
            Some(Sources::Channels { colours: colours.clone(), alpha: None })
        }
        Sources::Pixels { pixels, layout, alpha: true } => {
            Some(Sources::Pixels { pixels: pixels.clone(), layout: *layout, alpha: false })
        }
        _ => None,
    };
    let three = sources.map(|sources| OwnedEncoding { sources, ..case.clone() });
    with_lower_layout(case).chain(raw.into_iter().chain(three).flat_map(|changed| refitted(case, changed)))
}

fn with_lower_layout(case: &OwnedEncoding) -> impl Iterator<Item = OwnedEncoding> + '_ {
    let layout = case.sources.layout().unwrap_or(BGRA);
    lower_layouts(layout).flat_map(move |lower| {
        let of = |pixels: &dyn Fn(&[u8]) -> Vec<u8>| match &case.sources {
            Sources::Pixels { pixels: old, alpha, .. } => {
                let sources = Sources::Pixels { pixels: pixels(old), layout: lower, alpha: *alpha };
                Some(OwnedEncoding { sources, ..case.clone() })
            }
            Sources::Channels { .. } => None,
        };
        let rearranged = of(&|pixels| layout.rearranged(pixels, lower));
        rearranged.into_iter().chain(of(&<[u8]>::to_vec))
    })
}

/// Lower heights and widths for the same sources.
fn with_lower_sides(case: &OwnedEncoding) -> impl Iterator<Item = OwnedEncoding> + '_ {
    let heights = lower_side(case.height).map(|height| OwnedEncoding { height, ..case.clone() });
    let widths = lower_side(case.width).map(|width| OwnedEncoding { width, ..case.clone() });
    heights.chain(widths).flat_map(|changed| refitted(case, changed))
}

/// Rows or columns left out of every source, if none is short and the picture has more samples than so many.
fn with_smaller_picture(case: &OwnedEncoding, above: usize) -> impl Iterator<Item = OwnedEncoding> + '_ {
    let (width, height) = (case.width, case.height);
    let complete = case.refused_at_entry().is_none() && width * height > above;
    let (rows, columns) = if complete { (height, width) } else { (0, 0) };
    let lower = pieces(rows).filter(move |piece| piece.len() < rows).map(move |piece| {
        let without = |slice: &[u8], stride| without_rows(stride * width, height, slice, piece.clone()).samples;
        let sources = case.sources.view().map(without);
        OwnedEncoding { height: height - piece.len(), sources, ..case.clone() }
    });
    let narrower = pieces(columns).filter(move |piece| piece.len() < columns).map(move |piece| {
        let without = |slice: &[u8], stride| {
            without_columns(stride * width, height, slice, stride * piece.start..stride * piece.end).samples
        };
        let sources = case.sources.view().map(without);
        OwnedEncoding { width: width - piece.len(), sources, ..case.clone() }
    });
    lower.chain(narrower).flat_map(|changed| refitted(case, changed))
}

/// The case with one source at a time changed in these ways.
fn each_source<'a, Changed: Iterator<Item = Vec<u8>> + 'a>(
    case: &'a OwnedEncoding,
    change: impl Fn(&'a [u8], usize) -> Changed + 'a,
) -> impl Iterator<Item = OwnedEncoding> + 'a {
    case.sources.slices().into_iter().enumerate().flat_map(move |(at, (slice, stride))| {
        change(slice, stride).map(move |other| {
            let sources = case.sources.clone().with(at, other);
            OwnedEncoding { sources, ..case.clone() }
        })
    })
}

/// Sources as long as the picture, if they are longer, then shorter ones.
fn with_shorter_sources(case: &OwnedEncoding) -> impl Iterator<Item = OwnedEncoding> + '_ {
    let samples = case.width.saturating_mul(case.height);
    each_source(case, move |slice, stride| {
        let exact = Some(samples.saturating_mul(stride)).filter(|&exact| exact < slice.len());
        exact.into_iter().chain(lower(slice.len())).map(|len| slice[..len].to_vec())
    })
}

/// Shorter destinations; one that is just long enough goes first.
fn with_shorter_destination(case: &OwnedEncoding) -> impl Iterator<Item = OwnedEncoding> + '_ {
    let len = case.before.len();
    let exact = packed_len(case).filter(|&exact| exact < len);
    exact.into_iter().chain(lower(len)).map(|room| {
        let mut smaller = case.clone();
        smaller.before.truncate(room);
        smaller
    })
}

fn with_lower_bytes(case: &OwnedEncoding) -> impl Iterator<Item = OwnedEncoding> + '_ {
    each_source(case, |slice, _| lower_bytes(slice))
}
