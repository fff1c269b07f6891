//! Which cases of packing are stored around the lengths that a packer may search, copy or hold at once. The comparison tries many more of
//! them.

use crate::pack_sample::{keep_with_every_room, packed};
use crate::Stored;
use comparer::packing::places::{
    every_run, ground, near_runs, planes_with, with_run, with_two_runs, ARRAY_WIDTHS, FEW, LONGEST, VALUES, WIDTHS,
};
use comparer::packing::rooms::{ample, rooms};
use comparer::planes::segment_starts;
use std::ops::Range;

pub fn keep_all(stored: &mut Stored) {
    every_room(stored);
    let rows = &mut Rows { stored, count: 0 };
    for (width, run) in FEW.flat_map(|width| every_run(width).map(move |run| (width, run))) {
        rows.keep_run(width, run);
    }
    words(rows);
    for width in WIDTHS.into_iter().chain(ARRAY_WIDTHS) {
        row_ends(rows, width);
    }
    raw_before_runs(rows);
    two_runs(rows);
    for width in ARRAY_WIDTHS {
        searched_from_every_place(rows, width);
        rows.keep(&ground(width), 0);
    }
    for width in LONGEST {
        longest_rows(rows, width);
    }
    for width in WIDTHS.into_iter().chain(ARRAY_WIDTHS) {
        without_room(stored, width);
    }
    far_runs(stored);
}

/// Small planes with every room: up to 9 values wide and 3 rows high with a run at the end, then some of 32 to 64 values.
fn every_room(stored: &mut Stored) {
    for width in FEW {
        let value = VALUES[width % 2];
        let planes = planes_with(&with_run(width, width.saturating_sub(5)..width, value), value);
        for (height, samples) in [&planes[0], &planes[1], &planes[3]] {
            keep_with_every_room(stored, width, *height, samples);
        }
    }
    let planes = planes_with(&with_run(33, 26..33, 0), 0);
    keep_with_every_room(stored, 33, planes[1].0, &planes[1].1);
    keep_with_every_room(stored, 32, 1, &with_two_runs(32, 16, 28..32, 255));
    keep_with_every_room(stored, 64, 1, &with_two_runs(64, 30, 55..64, 0));
}

/// Rows, each in one of its planes and with one of some rooms.
struct Rows<'a> {
    stored: &'a mut Stored,
    count: usize,
}

impl Rows<'_> {
    /// The next plane of eight with the next room of six: enough for any packing, just enough for this one, too little by the last segment
    /// or by one byte. Each time around both begin one later, so that they do not keep step with what chooses the rows.
    fn keep(&mut self, row: &[u8], value: u8) {
        let (width, planes) = (row.len(), planes_with(row, value));
        let (height, samples) = &planes[(self.count + self.count / planes.len()) % planes.len()];
        let packing = packed(&samples[..width * height], width, *height);
        let last = segment_starts(&packing).pop().expect("a segment");
        let rooms = [ample(&packing), packing.len(), ample(&packing), last, ample(&packing), packing.len() - 1];
        self.stored.keep(width, *height, rooms[(self.count + self.count / rooms.len()) % rooms.len()], samples);
        self.count += 1;
    }

    /// A row with this run, of one value or the other.
    fn keep_run(&mut self, width: usize, run: Range<usize>) {
        let value = VALUES[run.len() % 2];
        self.keep(&with_run(width, run, value), value);
    }
}

/// Runs that begin at every place of a word and end at every place of one.
fn words(rows: &mut Rows<'_>) {
    for (start, length) in (0..8).flat_map(|start| (4..12).map(move |length| (start, length))) {
        for (width, start) in [(33 - length % 2, 8 + start), (63 + length % 3, 24 + start)] {
            rows.keep_run(width, start..start + length);
        }
    }
}

/// Runs up to the row's end: short ones of either value. Then runs that end up to four values before it.
fn row_ends(rows: &mut Rows<'_>, width: usize) {
    // A long row has one run up to its last values, so that its line is short.
    let until = if width > 100 { width - 40 } else { 0 };
    let lengths = (1..=12).map(|length| (length, VALUES[length % 2])).chain((1..=4).map(|length| (length, 0)));
    for (length, value) in lengths {
        rows.keep(&with_two_runs(width, until, width - length..width, value), value);
    }
    for (behind, length) in (1..=4).flat_map(|behind| [3, 4, 5, 8].map(|length| (behind, length))) {
        let end = width - behind;
        rows.keep(&with_two_runs(width, until, end - length..end, VALUES[length % 2]), 0);
    }
}

/// Runs of lengths at which their packing changes, behind so many values that with the run's first one there are 15 to 17 and 30 to 32.
fn raw_before_runs(rows: &mut Rows<'_>) {
    const LENGTHS: [usize; 20] = [4, 5, 15, 16, 17, 18, 19, 46, 47, 48, 49, 62, 63, 64, 65, 66, 94, 95, 111, 158];
    for (raw, length) in [14, 15, 16, 29, 30, 31].into_iter().flat_map(|raw| LENGTHS.map(|length| (raw, length))) {
        rows.keep_run(raw + length + length % 5, raw..raw + length);
    }
}

/// Two runs, up to seven values apart.
fn two_runs(rows: &mut Rows<'_>) {
    for (start, apart) in (24..32).flat_map(|start| (0..8).map(move |apart| (start, apart))) {
        let first = start..start + 4 + (start + apart) % 8;
        rows.keep(&near_runs(first, apart, 4 + apart % 5, apart % 4), 0);
    }
}

/// A run at the end of a row, searched for from every place of a word on.
fn searched_from_every_place(rows: &mut Rows<'_>, width: usize) {
    for (from, end) in (20..28).flat_map(|from| [width, width - 1, width - 3].map(|end| (from, end))) {
        let length = 4 + from % 4;
        rows.keep(&with_two_runs(width, width - from, end - length..end, VALUES[from % 2]), 0);
    }
}

/// The longest rows, all with one run up to the last values. Three of them would be longer than what a reader of the file can hold.
fn longest_rows(rows: &mut Rows<'_>, width: usize) {
    for (from, behind) in [20, 23, 25].into_iter().flat_map(|from| [0, 1].map(|behind| (from, behind))) {
        let (length, end) = (1 + (width + from) % 5, width - behind);
        let row = with_two_runs(width, width - from, end - length..end, 0);
        let height = 1 + (width + behind) % 2;
        let samples = if height == 1 { row } else { planes_with(&row, 0)[1].1.clone() };
        let packing = packed(&samples, width, height);
        rows.stored.keep(width, height, [ample(&packing), packing.len(), packing.len() - 1][from % 3], &samples);
    }
}

/// Three rows with rooms around the segments of the last one.
fn without_room(stored: &mut Stored, width: usize) {
    let until = if width > 100 { width - 40 } else { 4 };
    let (height, samples) = &planes_with(&with_two_runs(width, until, width - 9..width - 2, 0), 0)[3];
    let packing = packed(samples, width, *height);
    let above = packed(&samples[..2 * width], width, 2).len();
    for room in rooms(&packing).into_iter().filter(|&room| above <= room) {
        stored.keep(width, *height, room, samples);
    }
}

/// Runs whose end a search by 32 flags could pass, as the next run begins at once; and two runs behind many raw bytes, whose segments take
/// several bytes more than they have values.
fn far_runs(stored: &mut Stored) {
    let after_runs = [8, 16, 20, 24, 25, 32, 40, 56].map(|first| near_runs(0..first, 0, 64, first % 3));
    let after_raw = [60, 75, 120, 240].into_iter().flat_map(|raw| [0, 1, 3].map(|apart| (raw, apart)));
    let after_raw = after_raw.map(|(raw, apart)| near_runs(raw..raw + 4, apart, 5, apart));
    for row in after_runs.into_iter().chain(after_raw) {
        let packing = packed(&row, row.len(), 1);
        stored.keep(row.len(), 1, ample(&packing), &row);
    }
}
