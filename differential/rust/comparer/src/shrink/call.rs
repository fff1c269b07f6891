//! What can be made smaller in a call of either kind.

use super::{lower, lower_bytes, plain};
use crate::case::Owned;

/// Up to this side all lower ones are tried.
const EVERY_SIDE: usize = 128;

pub fn lower_side(side: usize) -> impl Iterator<Item = usize> {
    let every = if side <= EVERY_SIDE { side } else { 0 };
    (0..every).chain(lower(side).filter(move |_| every == 0))
}

/// Lower heights and widths. Heights go first: what is left out below changes nothing above.
pub fn lower_sides(case: &Owned) -> impl Iterator<Item = (usize, usize)> + '_ {
    let widths = lower_side(case.width).map(|width| (width, case.height));
    let heights = lower_side(case.height).map(|height| (case.width, height));
    heights.chain(widths)
}

/// Shorter destinations; `exact`, if that is shorter, goes first.
pub fn with_shorter_destination(case: &Owned, exact: Option<usize>) -> impl Iterator<Item = Owned> + '_ {
    let len = case.before.len();
    exact.filter(|&exact| exact < len).into_iter().chain(lower(len)).map(|room| {
        let mut smaller = case.clone();
        smaller.before.truncate(room);
        smaller
    })
}

pub fn with_lower_bytes(case: &Owned) -> impl Iterator<Item = Owned> + '_ {
    lower_bytes(&case.source).map(|source| Owned { source, ..case.clone() })
}

pub fn with_plain_destination(case: &Owned) -> impl Iterator<Item = Owned> + '_ {
    plain(&case.before).map(|before| Owned { before, ..case.clone() }).into_iter()
}
