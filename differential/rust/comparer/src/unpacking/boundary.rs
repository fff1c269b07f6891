//! Bodies around the lengths that a decoder may read or write at once: rows of about 16, 32, 48, 64 and 256 values and the longest ones,
//! whose last segment ends at the row's end or beside it, with few or many bytes of the body behind it.

use crate::case::{Case, MAX_SIDE};
use crate::check::{Comparer, Outcome};
use crate::packing::boundary::literal;
use crate::planes::{self, counts, segment_starts, Earlier, Making, PlaneKind};
use crate::rng::Rng;
use crate::tally::Kind;

pub const WIDTHS: [usize; 12] = [15, 16, 17, 31, 32, 33, 47, 48, 49, 63, 64, 65];
/// Rows about as long as an array that a decoder may have for them.
pub const LONG_WIDTHS: [usize; 6] = [255, 256, 257, MAX_SIDE - 2, MAX_SIDE - 1, MAX_SIDE];

/// What stands in a row before the segment that is tested.
#[derive(Clone, Copy, Debug)]
pub enum Head {
    /// Only values 0, so that the last byte is 0.
    Zeros,
    /// Raw bytes and runs of the last of them, which is not 0.
    Values,
}

pub const HEADS: [Head; 2] = [Head::Zeros, Head::Values];

/// Bytes behind the tested segment. Where the row lacks one value, the first two give it.
#[rustfmt::skip]
pub const FOLLOWING: [u8; 18] = [
    0x10, 0xB7, 0x5D, 0xF2, 0x3C, 0x91, 0x04, 0xE8, 0x6A, 0x2F, 0xC5, 0x73, 0x1E, 0xD9, 0x48, 0xA6, 0x87, 0x39,
];

/// Control bytes that can stand in the place of another: 0, all long runs, 15 values of either form, and the longest literal.
pub fn other_controls() -> impl Iterator<Item = u8> {
    let long_runs = (0..16).flat_map(|high| [high << 4 | 1, high << 4 | 2]);
    [0x00, 0x0F, 0xF0, 0xFF].into_iter().chain(long_runs)
}

/// The control byte of a run of 3 to 47 values without raw bytes.
fn run_control(run: usize) -> u8 {
    match run {
        ..16 => run as u8,
        16..32 => ((run - 16) << 4 | 1) as u8,
        _ => ((run - 32) << 4 | 2) as u8,
    }
}

/// The longest part of `count` values, at most so many, that leaves none or enough for a run.
fn part(count: usize, most: usize) -> usize {
    match count.saturating_sub(most) {
        1 | 2 => most - 2,
        _ => most.min(count),
    }
}

/// Segments of so many values. One or two zeros are raw bytes, since no run is so short.
pub fn head(count: usize, head: Head) -> Vec<u8> {
    let raw = match head {
        Head::Zeros if count < 3 => vec![0; count],
        Head::Zeros => Vec::new(),
        Head::Values => literal(part(count, 15)),
    };
    let mut left = count - raw.len();
    let mut body = match raw.len() {
        0 => Vec::new(),
        len => [vec![(len << 4) as u8], raw].concat(),
    };
    while left > 0 {
        let run = part(left, 47);
        body.push(run_control(run));
        left -= run;
    }
    body
}

/// The columns at which a segment of so many values overruns the row by one, fills it, and leaves one value of it; and the row's last
/// value, from which what is written at once reaches furthest.
pub fn columns(width: usize, len: usize) -> impl Iterator<Item = usize> {
    let ends = [width + 1, width, width - 1].into_iter().filter_map(move |end| end.checked_sub(len));
    let last_value = (len > 2).then_some(width - 1);
    ends.filter(move |&at| at < width).chain(last_value)
}

/// So many complete rows, then the head of the next row up to a column, and there the segment of a control byte.
pub fn ending(width: usize, rows: usize, start: Head, column: usize, control: u8) -> Vec<u8> {
    let above = head(width, Head::Values).repeat(rows);
    let raw = (0..counts(control).0).map(|at| 0xF1 - 13 * at as u8).collect();
    [above, head(column, start), vec![control], raw].concat()
}

/// The room of a destination: exact, one byte more, or more than what is written at once.
pub fn room(samples: usize, choice: usize) -> usize {
    samples + [0, 1, 49][choice % 3]
}

pub fn run(comparer: &mut Comparer) -> Outcome {
    let earlier = &mut Earlier::new();
    for width in WIDTHS.into_iter().chain(LONG_WIDTHS) {
        last_segments(comparer, earlier, width)?;
        whole_bodies(comparer, earlier, width)?;
    }
    Ok(())
}

/// Every control byte around the end of a first row and of a second one.
fn last_segments(comparer: &mut Comparer, earlier: &mut Earlier, width: usize) -> Outcome {
    for control in 1..=255 {
        let (raw, run) = counts(control);
        for column in columns(width, raw + run) {
            for (start, height) in HEADS.iter().flat_map(|&start| [(start, 1), (start, 2)]) {
                let body = ending(width, height - 1, start, column, control);
                with_bytes_behind(comparer, earlier, body, (width, height))?;
            }
        }
    }
    Ok(())
}

/// The body with 0 to 18 bytes behind it.
fn with_bytes_behind(
    comparer: &mut Comparer,
    earlier: &mut Earlier,
    mut body: Vec<u8>,
    (width, height): (usize, usize),
) -> Outcome {
    let end = body.len();
    body.extend(FOLLOWING);
    for more in 0..=FOLLOWING.len() {
        let before = earlier.bytes(room(width * height, end + more));
        comparer.compare(Kind::RowEnds, Case::unpack(width, height, &body[..end + more], before))?;
    }
    Ok(())
}

/// Bodies of two or three rows, truncated and with other control bytes.
fn whole_bodies(comparer: &mut Comparer, earlier: &mut Earlier, width: usize) -> Outcome {
    let height = if width < 100 { 3 } else { 2 };
    for body in bodies(width, height) {
        truncated(comparer, earlier, &body, (width, height))?;
        damaged(comparer, earlier, &body, (width, height))?;
    }
    Ok(())
}

/// A body of so many bytes is truncated near its end alone, and only some of its segments are changed.
const LONG: usize = 400;

/// Every prefix of a body, or the longest 41 of a long one.
fn truncated(comparer: &mut Comparer, earlier: &mut Earlier, body: &[u8], (width, height): (usize, usize)) -> Outcome {
    let len = body.len();
    let shortest = if len < LONG { 0 } else { len - 40 };
    for end in shortest..=len {
        let before = earlier.bytes(room(width * height, end));
        comparer.compare(Kind::RowsTruncated, Case::unpack(width, height, &body[..end], before))?;
    }
    Ok(())
}

/// The body with another control byte in the place of each of its own, or of some in a long body.
fn damaged(comparer: &mut Comparer, earlier: &mut Earlier, body: &[u8], sides: (usize, usize)) -> Outcome {
    let starts = segment_starts(body);
    let chosen = if body.len() < LONG { starts } else { some_of(&starts) };
    for at in chosen {
        other_segments(comparer, earlier, body, at, sides)?;
    }
    Ok(())
}

/// The last four, and two in the middle.
fn some_of(starts: &[usize]) -> Vec<usize> {
    let (middle, last) = (starts.len() / 2, starts.len() - 4);
    [&starts[middle..middle + 2], &starts[last..]].concat()
}

/// The body with other control bytes at this place, and the same with bytes behind it.
fn other_segments(
    comparer: &mut Comparer,
    earlier: &mut Earlier,
    body: &[u8],
    at: usize,
    (width, height): (usize, usize),
) -> Outcome {
    let mut wrong = [body, &FOLLOWING].concat();
    for control in other_controls() {
        wrong[at] = control;
        for len in [body.len(), wrong.len()] {
            let before = earlier.bytes(room(width * height, at + len));
            comparer.compare(Kind::RowsDamaged, Case::unpack(width, height, &wrong[..len], before))?;
        }
    }
    Ok(())
}

/// Right bodies: made segment by segment, and packed by IronRDP.
fn bodies(width: usize, height: usize) -> Vec<Vec<u8>> {
    let rng = &mut Rng::new(width as u64);
    let made = [false, true]
        .map(|opening_runs| planes::made_body(rng, Making { opening_runs, wrong_once_in: usize::MAX }, width, height));
    let packed = [PlaneKind::Noise, PlaneKind::Runs, PlaneKind::RowsAlike].map(|kind| {
        let plane = planes::samples(rng, kind, width, height);
        original::pack(&plane, width, height).expect("a complete plane with room")
    });
    made.into_iter().chain(packed).collect()
}
