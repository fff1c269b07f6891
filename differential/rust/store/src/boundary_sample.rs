//! Which cases of unpacking are stored around the lengths that a decoder may read or write at once. The comparison tries many more of them.

use crate::Stored;
use comparer::planes::{self, counts, segment_starts, Making};
use comparer::unpacking::boundary::{
    columns, ending, head, other_controls, room, Head, FOLLOWING, HEADS, LONG_WIDTHS, WIDTHS,
};
use comparer::Rng;

/// How many bytes follow a segment: none, one, and about as many as are read at once.
const BEHIND: [usize; 6] = [0, 1, 15, 16, 17, 18];

pub fn keep_all(stored: &mut Stored) {
    for (at, width) in WIDTHS.into_iter().enumerate() {
        row_ends(stored, width, at);
        bytes_behind(stored, width, at);
        let (height, rng) = (2 + at % 2, &mut Rng::new(width as u64));
        let making = Making { opening_runs: at % 4 < 2, wrong_once_in: usize::MAX };
        let body = planes::made_body(rng, making, width, height);
        truncated(stored, &body, (width, height));
        damaged(stored, &body, (width, height), at);
    }
    for (at, width) in LONG_WIDTHS.into_iter().enumerate() {
        long_rows(stored, width);
        let body = head(width, Head::Values).repeat(2);
        truncated(stored, &body, (width, 2));
        damaged(stored, &body, (width, 2), at);
    }
}

/// A control byte of every kind of segment: raw bytes alone, 15 of them, raw bytes and a run, 15 and a run, a short run, a long run of
/// either field, the longest run. The counts differ with `at`.
fn controls(at: usize) -> [u8; 8] {
    let (raw, run, high) = (1 + at as u8 % 14, 3 + at as u8, at as u8);
    [raw << 4, 0xF0, (15 - raw) << 4 | run, 0xF0 | (18 - run), run, high << 4 | 1, high << 4 | 2, 0xF2]
}

/// A segment of every kind around the end of a second row, some of a first row.
fn row_ends(stored: &mut Stored, width: usize, at: usize) {
    for (kind, control) in controls(at).into_iter().enumerate() {
        let (raw, run) = counts(control);
        for (end, column) in columns(width, raw + run).enumerate() {
            let choice = at + kind + end;
            let rows = usize::from(!choice.is_multiple_of(4));
            let start = HEADS[(kind + end) % 2];
            let body = [&ending(width, rows, start, column, control), &FOLLOWING[..BEHIND[choice % 6]]].concat();
            stored.keep(width, rows + 1, room(width * (rows + 1), choice), &body);
        }
    }
}

/// A literal that fills its row, and a run that overruns it by one, with so many bytes behind them.
fn bytes_behind(stored: &mut Stored, width: usize, at: usize) {
    let literal = (1 + at as u8) << 4;
    let run = match width {
        ..17 => 0x0F,
        17..47 => controls(at)[5],
        _ => controls(at)[6],
    };
    for more in BEHIND {
        let fills = ending(width, 1, Head::Values, width - counts(literal).0, literal);
        let overruns = ending(width, 1, Head::Values, width + 1 - counts(run).1, run);
        for body in [fills, overruns] {
            stored.keep(width, 2, room(2 * width, more), &[&body, &FOLLOWING[..more]].concat());
        }
    }
}

/// The body, and the same without its last 1 to 20 bytes.
fn truncated(stored: &mut Stored, body: &[u8], (width, height): (usize, usize)) {
    for end in body.len().saturating_sub(20)..=body.len() {
        stored.keep(width, height, room(width * height, end), &body[..end]);
    }
}

/// Other control bytes in the place of the last segment's, and of one in the middle. Each width has a quarter of the long runs,
/// so that four widths have all.
fn damaged(stored: &mut Stored, body: &[u8], (width, height): (usize, usize), at: usize) {
    let starts = segment_starts(body);
    for (place, start) in [starts[starts.len() / 2], starts[starts.len() - 1]].into_iter().enumerate() {
        for (index, control) in other_controls().enumerate() {
            if index < 4 || (index + place + at).is_multiple_of(4) {
                let mut wrong = [body, &FOLLOWING[..BEHIND[(index + at) % 6]]].concat();
                wrong[start] = control;
                stored.keep(width, height, room(width * height, index), &wrong);
            }
        }
    }
}

/// Two long rows, the second ended by a literal, by one with a run, or by runs.
fn long_rows(stored: &mut Stored, width: usize) {
    for (kind, control) in [0xF0, 0xFF, 0x0F, 0x01, 0xF2].into_iter().enumerate() {
        let (raw, run) = counts(control);
        for (end, column) in columns(width, raw + run).enumerate() {
            let choice = width + kind + end;
            let body = ending(width, 1, HEADS[choice % 2], column, control);
            stored.keep(width, 2, room(2 * width, choice), &[&body, &FOLLOWING[..BEHIND[choice % 6]]].concat());
        }
    }
}
