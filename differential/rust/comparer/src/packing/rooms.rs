//! Which destination lengths a packing is tried with.

use crate::case::Case;
use crate::check::{Comparer, Outcome};
use crate::planes::{segment_starts, Earlier};
use crate::tally::Kind;

/// Packings up to this length are tried with every room.
const EVERY_ROOM: usize = 24;
/// Of longer ones no more segments than this are used, of very long ones fewer.
const SEGMENTS: usize = 24;
const VERY_LONG: usize = 500;
const FEWER_SEGMENTS: usize = 3;

/// Every room from none to one too many and one that is ample, or for a longer packing some around the ends of its segments.
pub fn rooms(packing: &[u8]) -> Vec<usize> {
    let len = packing.len();
    if len <= EVERY_ROOM {
        return (0..=len + 1).chain([ample(packing)]).collect();
    }
    let starts = segment_starts(packing);
    let step = starts.len().div_ceil(if len > VERY_LONG { FEWER_SEGMENTS } else { SEGMENTS });
    let near = starts.iter().step_by(step).chain(starts.last()).flat_map(|&at| [at.saturating_sub(1), at, at + 1]);
    let mut rooms: Vec<usize> = near.chain([len - 1, len, len + 1, len + 100]).collect();
    rooms.sort_unstable();
    rooms.dedup();
    rooms
}

/// Room for more than the packing. A packer may pack a row in another way where it does not fit, so that a wrong packing that is longer shows
/// only where it fits, too.
pub fn ample(packing: &[u8]) -> usize {
    2 * packing.len() + 40
}

/// Rooms around the end of a packing: its last segment does not fit, lacks one byte, fits, and has one byte or many behind it.
pub fn end_rooms(packing: &[u8]) -> [usize; 5] {
    let (last, len) = (segment_starts(packing).pop().unwrap_or(0), packing.len());
    [last, len - 1, len, len + 1, ample(packing)]
}

/// Fewer rooms for long packings.
pub fn few_end_rooms(packing: &[u8]) -> [usize; 3] {
    [packing.len() - 1, packing.len(), ample(packing)]
}

/// A plane with the rooms that are chosen by its packing.
pub fn in_rooms<Rooms: IntoIterator<Item = usize>>(
    comparer: &mut Comparer,
    earlier: &mut Earlier,
    kind: Kind,
    (width, height): (usize, usize),
    samples: &[u8],
    rooms: impl Fn(&[u8]) -> Rooms,
) -> Outcome {
    let packing = original::pack(&samples[..width * height], width, height).expect("a complete plane with room");
    for room in rooms(&packing) {
        comparer.compare(kind, Case::pack(width, height, samples, earlier.bytes(room)))?;
    }
    Ok(())
}
