//! Smaller cases of packing.

use super::call::{lower_sides, with_lower_bytes, with_plain_destination, with_shorter_destination};
use super::lower;
use super::plane::smaller_planes;
use crate::case::Owned;
use crate::prefix::Model;

/// Of sides, source length, destination length, samples and the destination's content each lowers one and none that stands
/// before it, so shrinking ends.
pub fn smaller(case: &Owned) -> impl Iterator<Item = Owned> + '_ {
    with_lower_sides(case)
        .chain(with_smaller_plane(case))
        .chain(with_shorter_source(case))
        .chain(with_shorter_destination(case, packed_len(case)))
        .chain(with_lower_bytes(case))
        .chain(with_plain_destination(case))
}

/// The length of the packing, inside the domain.
fn packed_len(case: &Owned) -> Option<usize> {
    let inside = case.view().refused_at_entry().is_none();
    inside.then(|| Model::of(&case.source, case.width, case.height).packing.len())
}

/// The case with other sides and another source: the destination as it is, and with what it had beyond the packing, or
/// lacked.
fn resized(case: &Owned, width: usize, height: usize, source: Vec<u8>) -> impl Iterator<Item = Owned> {
    let kept = Owned { operation: case.operation, width, height, source, before: case.before.clone() };
    let spared = packed_len(case).zip(packed_len(&kept)).map_or(0, |(long, short)| long.saturating_sub(short));
    let mut shorter = kept.clone();
    shorter.before.truncate(kept.before.len().saturating_sub(spared));
    [shorter, kept].into_iter().take(1 + usize::from(spared > 0))
}

/// Lower heights and widths for the same source.
fn with_lower_sides(case: &Owned) -> impl Iterator<Item = Owned> + '_ {
    lower_sides(case).flat_map(|(width, height)| resized(case, width, height, case.source.clone()))
}

/// Rows or columns left out.
fn with_smaller_plane(case: &Owned) -> impl Iterator<Item = Owned> + '_ {
    smaller_planes(case.width, case.height, &case.source)
        .flat_map(|plane| resized(case, plane.width, plane.height, plane.samples))
}

/// The source as long as the plane, if it is longer, then shorter ones.
fn with_shorter_source(case: &Owned) -> impl Iterator<Item = Owned> + '_ {
    let len = case.source.len();
    let exact = Some(case.width.saturating_mul(case.height)).filter(|&exact| exact < len);
    exact.into_iter().chain(lower(len)).map(|len| {
        let mut smaller = case.clone();
        smaller.source.truncate(len);
        smaller
    })
}
