//! Smaller pictures.

use super::call::lower_side;
use super::{lower, lower_bytes, lower_layouts, pieces, plain};
use crate::layout::Format;
use crate::picture::{Form, OwnedPicture, Planes, Sizes};
use crate::planes::segment_starts;
use std::ops::Range;

/// With longer bodies fewer rows and columns are tried before anything else, and before these a shorter image if it is too short
/// already: comparing them takes long.
const LONG: usize = 1 << 16;
/// Of bodies up to this length segments are left out.
const SHORT: usize = 64;

/// Of layout, form, sides, body length, slice lengths, bytes and the slices' content each lowers one and none that stands before it,
/// so shrinking ends.
pub fn smaller(case: &OwnedPicture) -> impl Iterator<Item = OwnedPicture> + '_ {
    let long = case.body.len() > LONG;
    let short_image = case.image.len() < needs(case, case.form, case.width, case.height).1;
    let shorter_slices = (long && short_image).then(|| with_shorter_slices(case));
    let smaller_planes = long.then(|| with_smaller_planes(case));
    shorter_slices
        .into_iter()
        .flatten()
        .chain(smaller_planes.into_iter().flatten())
        .chain(with_lower_layout(case))
        .chain(with_plainer_form(case))
        .chain(with_lower_sides(case))
        .chain(with_smaller_planes(case))
        .chain(with_segments_left_out(case))
        .chain(with_shorter_body(case))
        .chain(with_shorter_slices(case))
        .chain(with_lower_bytes(case))
        .chain(with_plain_slices(case))
}

/// The minimum sizes of the work area and the image, or the largest number.
fn needs(case: &OwnedPicture, form: Form, width: usize, height: usize) -> (usize, usize) {
    let (chroma_width, chroma_height) = form.chroma_sides(width, height);
    let chroma = chroma_width.saturating_mul(chroma_height).saturating_mul(2);
    let full = width.saturating_mul(height);
    let alpha = if form.alpha && case.format.keeps_alpha() { full } else { 0 };
    let work = if form.rle { full.saturating_add(chroma).saturating_add(alpha) } else { 0 };
    (work, full.saturating_mul(case.format.bytes()))
}

/// As many bytes as the slice had beyond what was needed, or lacked, with another need.
fn refitted(bytes: &[u8], needed: usize, needs: usize) -> Vec<u8> {
    let len = if needs > needed {
        bytes.len().saturating_add(needs - needed)
    } else {
        bytes.len().saturating_sub(needed - needs)
    };
    let mut out = bytes.to_vec();
    // A need beyond any memory is not met.
    out.resize(len.min(bytes.len().saturating_add(1 << 20)), 0xEE);
    out
}

/// The case with another form, other sides and another body, its slices fitted to them.
fn remade(case: &OwnedPicture, form: Form, (width, height): (usize, usize), body: Vec<u8>) -> OwnedPicture {
    let (old, new) = (needs(case, case.form, case.width, case.height), needs(case, form, width, height));
    let work = refitted(&case.work, old.0, new.0);
    let image = refitted(&case.image, old.1, new.1);
    OwnedPicture { width, height, form, format: case.format, body, work, image }
}

/// Lower layouts of four-byte pixels.
fn with_lower_layout(case: &OwnedPicture) -> impl Iterator<Item = OwnedPicture> + '_ {
    let layout = if let Format::Pixels(layout) = case.format { Some(layout) } else { None };
    let lower = layout.into_iter().flat_map(lower_layouts);
    lower.map(|layout| OwnedPicture { format: Format::Pixels(layout), ..case.clone() })
}

/// Simpler forms: raw for RLE, no alpha, no subsampling, lower definitions and levels.
fn plainer_forms(form: Form) -> impl Iterator<Item = Form> {
    let definitions = lower(form.definition as usize).map(move |lower| Form { definition: lower as u32, ..form });
    let flags = [
        form.rle.then_some(Form { rle: false, ..form }),
        form.alpha.then_some(Form { alpha: false, ..form }),
        form.subsampled.then_some(Form { subsampled: false, ..form }),
    ];
    let levels = lower(form.level as usize).map(move |level| Form { level: level as u32, ..form });
    definitions.chain(flags.into_iter().flatten()).chain(levels)
}

/// The planes fitted to another form of the same sides: no alpha, chroma planes in full.
fn fitted(planes: &Planes, case: &OwnedPicture, form: Form) -> Planes {
    let mut fitted = planes.clone();
    if !form.alpha {
        fitted.alpha = None;
    }
    if case.form.is_subsampled() && !form.is_subsampled() {
        let (across, _) = case.form.chroma_sides(case.width, case.height);
        for plane in &mut fitted.colours[1..] {
            let at = |pixel: usize| pixel / case.width / 2 * across + pixel % case.width / 2;
            *plane = (0..case.width * case.height).map(|pixel| plane[at(pixel)]).collect();
        }
    }
    fitted
}

/// A plainer form, for the planes of a complete body, or for the body as it is.
fn with_plainer_form(case: &OwnedPicture) -> impl Iterator<Item = OwnedPicture> + '_ {
    let planes = Planes::of(case);
    let sides = (case.width, case.height);
    plainer_forms(case.form).flat_map(move |form| {
        let kept = remade(case, form, sides, case.body.clone());
        let fitted =
            planes.as_ref().filter(|_| !form.is_subsampled() || case.form.is_subsampled()).map(|(planes, tail)| {
                let body = fitted(planes, case, form).body(form, case.width, case.height);
                remade(case, form, sides, [body, tail.clone()].concat())
            });
        fitted.into_iter().chain([kept])
    })
}

/// Lower heights and widths for the same body.
fn with_lower_sides(case: &OwnedPicture) -> impl Iterator<Item = OwnedPicture> + '_ {
    let heights = lower_side(case.height).map(|height| (case.width, height));
    let widths = lower_side(case.width).map(|width| (width, case.height));
    heights.chain(widths).map(|sides| remade(case, case.form, sides, case.body.clone()))
}

/// Rows or columns left out of every plane of a complete body.
fn with_smaller_planes(case: &OwnedPicture) -> impl Iterator<Item = OwnedPicture> + '_ {
    let found = Planes::of(case);
    let (rows, columns) = if found.is_some() { (case.height, case.width) } else { (0, 0) };
    let rows = pieces_of(case, rows).map(|piece| (piece, 0..0));
    let columns = pieces_of(case, columns).map(|piece| (0..0, piece));
    rows.chain(columns).map(move |(rows, columns)| {
        let (planes, tail) = found.as_ref().expect("there are pieces");
        let sides = (case.width - columns.len(), case.height - rows.len());
        let body = cut_out(planes, case, &rows, &columns).body(case.form, sides.0, sides.1);
        remade(case, case.form, sides, [body, tail.clone()].concat())
    })
}

/// Pieces of a side, not all of it. With subsampling they are such that the chroma planes can lose a half of each.
fn pieces_of(case: &OwnedPicture, side: usize) -> impl Iterator<Item = Range<usize>> {
    let subsampled = case.form.is_subsampled();
    let halves = move |piece: &Range<usize>| piece.start & 1 == 0 && (piece.end & 1 == 0 || piece.end == side);
    pieces(side).filter(move |piece| piece.len() < side && (!subsampled || halves(piece)))
}

fn cut_out(planes: &Planes, case: &OwnedPicture, rows: &Range<usize>, columns: &Range<usize>) -> Planes {
    let (across, _) = case.form.chroma_sides(case.width, case.height);
    let halved = |range: &Range<usize>| {
        if case.form.is_subsampled() {
            range.start / 2..range.end.div_ceil(2)
        } else {
            range.clone()
        }
    };
    let full = |plane: &Vec<u8>| without(plane, case.width, rows, columns);
    let chroma = |plane: &Vec<u8>| without(plane, across, &halved(rows), &halved(columns));
    let [first, second, third] = &planes.colours;
    Planes { alpha: planes.alpha.as_ref().map(full), colours: [full(first), chroma(second), chroma(third)] }
}

/// A plane without some rows and columns.
fn without(plane: &[u8], width: usize, rows: &Range<usize>, columns: &Range<usize>) -> Vec<u8> {
    let kept = plane.chunks(width).enumerate().filter(|(row, _)| !rows.contains(row));
    kept.flat_map(|(_, row)| [&row[..columns.start], &row[columns.end..]].concat()).collect()
}

/// One row or column fewer, and one or two neighbouring segments of an RLE body: an incomplete body has no planes to
/// take it from.
fn with_segments_left_out(case: &OwnedPicture) -> impl Iterator<Item = OwnedPicture> + '_ {
    let short = case.form.rle && case.body.len() <= SHORT;
    let mut ends = if short { segment_starts(&case.body) } else { Vec::new() };
    ends.push(case.body.len());
    let sides = [(case.width, case.height.wrapping_sub(1)), (case.width.wrapping_sub(1), case.height)];
    let possible = sides.into_iter().filter(|&(width, height)| width < case.width || height < case.height);
    possible.flat_map(move |sides| {
        let ranges = [1, 2].map(|count| ends.iter().zip(ends.iter().skip(count)).map(|(&from, &to)| from..to));
        let ranges: Vec<Range<usize>> = ranges.into_iter().flatten().collect();
        ranges.into_iter().map(move |range| {
            let mut body = case.body.clone();
            body.drain(range.start..range.end.min(case.body.len()));
            remade(case, case.form, sides, body)
        })
    })
}

/// Bodies with a piece left out.
fn with_shorter_body(case: &OwnedPicture) -> impl Iterator<Item = OwnedPicture> + '_ {
    pieces(case.body.len()).map(|piece| {
        let mut smaller = case.clone();
        smaller.body.drain(piece);
        smaller
    })
}

/// Shorter work areas, then shorter images; what is just needed, if that is shorter, goes first.
fn with_shorter_slices(case: &OwnedPicture) -> impl Iterator<Item = OwnedPicture> + '_ {
    let needs = needs(case, case.form, case.width, case.height);
    let shorter = |len: usize, exact: usize| Some(exact).filter(|&exact| exact < len).into_iter().chain(lower(len));
    let works = shorter(case.work.len(), needs.0).map(|len| {
        let mut smaller = case.clone();
        smaller.work.truncate(len);
        smaller
    });
    let images = shorter(case.image.len(), needs.1).map(|len| {
        let mut smaller = case.clone();
        smaller.image.truncate(len);
        smaller
    });
    works.chain(images)
}

fn with_lower_bytes(case: &OwnedPicture) -> impl Iterator<Item = OwnedPicture> + '_ {
    lower_bytes(&case.body).map(|body| OwnedPicture { body, ..case.clone() })
}

fn with_plain_slices(case: &OwnedPicture) -> impl Iterator<Item = OwnedPicture> + '_ {
    let work = plain(&case.work).map(|work| OwnedPicture { work, ..case.clone() });
    let image = plain(&case.image).map(|image| OwnedPicture { image, ..case.clone() });
    work.into_iter().chain(image)
}

/// Lower sides, lower definitions, no flags.
pub fn smaller_sizes(case: &Sizes) -> impl Iterator<Item = Sizes> + '_ {
    let heights = lower_side(case.height).map(|height| Sizes { height, ..*case });
    let widths = lower_side(case.width).map(|width| Sizes { width, ..*case });
    let definitions =
        lower(case.definition as usize).map(|definition| Sizes { definition: definition as u32, ..*case });
    let flags = [
        case.rle.then_some(Sizes { rle: false, ..*case }),
        (case.alpha == Some(true)).then_some(Sizes { alpha: Some(false), ..*case }),
        case.subsampled.then_some(Sizes { subsampled: false, ..*case }),
    ];
    heights.chain(widths).chain(definitions).chain(flags.into_iter().flatten())
}
