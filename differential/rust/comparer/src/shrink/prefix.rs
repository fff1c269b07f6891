//! Smaller cases of the prefix theorem.

use super::plane::smaller_planes;
use super::{lower, lower_bytes, plain};
use crate::prefix::PrefixCase;

/// Of sides, lengths, samples, what follows, the bytes taken and the destination's content each lowers one and none that stands before it,
/// so shrinking ends.
pub fn smaller(case: &PrefixCase) -> impl Iterator<Item = PrefixCase> + '_ {
    with_smaller_plane(case)
        .chain(with_shorter_slices(case))
        .chain(with_lower_samples(case))
        .chain(with_lower_following(case))
        .chain(with_fewer_taken(case))
        .chain(with_plain_destination(case))
}

/// The case with another plane, and as many bytes taken: all, if it was all, else as many from the start or from the end.
fn replaced(case: &PrefixCase, mut other: PrefixCase) -> impl Iterator<Item = PrefixCase> {
    let (long, short) = (case.packed_len(), other.packed_len());
    other.taken = if case.taken == long { short } else { case.taken.min(short - 1) };
    let from_end = (short + case.taken).saturating_sub(long);
    let second = (from_end < other.taken).then(|| PrefixCase { taken: from_end, ..other.clone() });
    [other].into_iter().chain(second)
}

/// Rows or columns left out. The destination keeps what it has beyond the plane.
fn with_smaller_plane(case: &PrefixCase) -> impl Iterator<Item = PrefixCase> + '_ {
    smaller_planes(case.width, case.height, &case.samples).flat_map(|plane| {
        let spared = case.width * case.height - plane.width * plane.height;
        let mut other = PrefixCase { width: plane.width, height: plane.height, samples: plane.samples, ..case.clone() };
        other.before.truncate(case.before.len() - spared);
        replaced(case, other)
    })
}

/// No samples beyond the plane, fewer bytes following, a shorter destination.
fn with_shorter_slices(case: &PrefixCase) -> impl Iterator<Item = PrefixCase> + '_ {
    let plane = case.width * case.height;
    let exact = (case.samples.len() > plane).then(|| {
        let mut other = case.clone();
        other.samples.truncate(plane);
        other
    });
    let followed = lower(case.following.len()).map(|len| {
        let mut other = case.clone();
        other.following.truncate(len);
        other
    });
    let rooms = [plane].into_iter().chain(lower(case.before.len())).filter(|&room| room < case.before.len());
    let shorter = rooms.map(|room| {
        let mut other = case.clone();
        other.before.truncate(room);
        other
    });
    exact.into_iter().chain(followed).chain(shorter)
}

fn with_lower_samples(case: &PrefixCase) -> impl Iterator<Item = PrefixCase> + '_ {
    lower_bytes(&case.samples).flat_map(|samples| replaced(case, PrefixCase { samples, ..case.clone() }))
}

fn with_lower_following(case: &PrefixCase) -> impl Iterator<Item = PrefixCase> + '_ {
    lower_bytes(&case.following).map(|following| PrefixCase { following, ..case.clone() })
}

fn with_fewer_taken(case: &PrefixCase) -> impl Iterator<Item = PrefixCase> + '_ {
    lower(case.taken).map(|taken| PrefixCase { taken, ..case.clone() })
}

fn with_plain_destination(case: &PrefixCase) -> impl Iterator<Item = PrefixCase> + '_ {
    plain(&case.before).map(|before| PrefixCase { before, ..case.clone() }).into_iter()
}
