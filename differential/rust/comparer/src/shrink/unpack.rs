//! Smaller cases of unpacking.

use super::call::{lower_sides, with_lower_bytes, with_plain_destination, with_shorter_destination};
use super::rows::Rows;
use super::{lower, pieces};
use crate::case::Owned;

/// Of sides, body length, destination length, bytes and the destination's content each lowers one and none that stands
/// before it, so shrinking ends.
pub fn smaller(case: &Owned) -> impl Iterator<Item = Owned> + '_ {
    let plane = case.width.saturating_mul(case.height);
    with_lower_sides(case)
        .chain(with_shorter_body(case))
        .chain(narrower(case))
        .chain(without_a_row(case))
        .chain(with_shorter_destination(case, Some(plane)))
        .chain(with_lower_bytes(case))
        .chain(with_plain_destination(case))
}

/// The case with other sides and another body. The destination keeps what it has beyond the plane, or what it lacks.
fn resized(case: &Owned, width: usize, height: usize, body: Vec<u8>) -> Owned {
    let spared = case.width.saturating_mul(case.height).saturating_sub(width.saturating_mul(height));
    let mut before = case.before.clone();
    before.truncate(case.before.len().saturating_sub(spared));
    Owned { operation: case.operation, width, height, source: body, before }
}

/// Lower heights and widths for the same body.
fn with_lower_sides(case: &Owned) -> impl Iterator<Item = Owned> + '_ {
    lower_sides(case).map(|(width, height)| resized(case, width, height, case.source.clone()))
}

/// Lower widths, and no more of the body's segments than fits them.
fn narrower(case: &Owned) -> impl Iterator<Item = Owned> + '_ {
    let rows = Rows::of(case);
    lower(case.width).map(move |width| resized(case, width, case.height, rows.body(width, None)))
}

/// One row fewer, its segments left out of the body.
fn without_a_row(case: &Owned) -> impl Iterator<Item = Owned> + '_ {
    let rows = Rows::of(case);
    (0..rows.count()).map(move |row| resized(case, case.width, case.height - 1, rows.body(case.width, Some(row))))
}

/// Bodies with a piece left out.
fn with_shorter_body(case: &Owned) -> impl Iterator<Item = Owned> + '_ {
    pieces(case.source.len()).map(|piece| {
        let mut smaller = case.clone();
        smaller.source.drain(piece);
        smaller
    })
}
