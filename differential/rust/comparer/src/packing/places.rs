//! Planes for a packer that searches a row for runs eight values at a time and copies 16 bytes at once: runs at every place of such a
//! word and around the ends of rows of 1 to 9 values, of about 32, 64 and 256, and of the longest.

use crate::case::MAX_SIDE;
use crate::check::{Comparer, Outcome};
use crate::packing::boundary::{plane_of, LENGTHS};
use crate::packing::rooms::{ample, end_rooms, few_end_rooms, in_rooms};
use crate::planes::Earlier;
use crate::tally::Kind;
use std::ops::{Range, RangeInclusive};

/// Rows of few values.
pub const FEW: RangeInclusive<usize> = 1..=9;
/// Rows of some words.
pub const WIDTHS: [usize; 6] = [31, 32, 33, 63, 64, 65];
/// Rows about as long as a small array that a packer may have for them.
pub const ARRAY_WIDTHS: [usize; 3] = [255, 256, 257];
/// The longest rows, up to a word shorter than a row can be.
pub const LONGEST: RangeInclusive<usize> = MAX_SIDE - 8..=MAX_SIDE;

/// The values of runs. `ground` has neither. A new array often has zeros behind a row.
pub const VALUES: [u8; 2] = [0, 255];

/// How many values stand in front of a run: with its first value these are 14 to 17, 30 to 32, 45 and 46 raw bytes.
pub const RAW_BEFORE: [usize; 9] = [13, 14, 15, 16, 29, 30, 31, 44, 45];

/// Values of which each differs from the one before it.
pub fn ground(width: usize) -> Vec<u8> {
    (0..width).map(|at| (1 + at * 37 % 251) as u8).collect()
}

/// The same with a run in it.
pub fn with_run(width: usize, run: Range<usize>, value: u8) -> Vec<u8> {
    let mut row = ground(width);
    row[run].fill(value);
    row
}

/// The height of a plane, and a source that has its samples and perhaps more.
pub type Plane = (usize, Vec<u8>);

/// The planes that a row with a run of this value is tried in: alone; below a row of one value and below one without runs; above and below
/// codes of one value, so that what is left of one row shows in the next. Then rows that would go on with the run follow it, behind the
/// plane and in it.
pub fn planes_with(row: &[u8], value: u8) -> [Plane; 8] {
    let (flat, other, same) = (vec![7; row.len()], ground(row.len()), vec![value; row.len()]);
    let below: [&[&[u8]]; 4] = [&[row], &[&flat, row], &[&other, row], &[row, &flat, row]];
    let [alone, below_flat, below_other, twice] = below.map(|rows| (rows.len(), plane_of(rows)));
    let (first, second) = ([row, &same].concat(), plane_of(&[&flat, row, &same]));
    [alone, below_flat, below_other, twice, (1, first.clone()), (2, first), (2, second.clone()), (3, second)]
}

pub fn run(comparer: &mut Comparer) -> Outcome {
    let earlier = &mut Earlier::new();
    for width in FEW.chain(WIDTHS) {
        places(comparer, earlier, width)?;
    }
    for width in ARRAY_WIDTHS {
        array_rows(comparer, earlier, width)?;
        array_rows_of_two_runs(comparer, earlier, width)?;
    }
    two_runs(comparer, earlier)?;
    raw_before_runs(comparer, earlier)?;
    for width in LONGEST {
        longest_rows(comparer, earlier, width)?;
    }
    every_room(comparer, earlier)
}

/// Every run that there can be in a row.
pub fn every_run(width: usize) -> impl Iterator<Item = Range<usize>> {
    (0..width).flat_map(move |start| (start + 1..=width).map(move |end| start..end))
}

/// All of them, in all planes.
fn places(comparer: &mut Comparer, earlier: &mut Earlier, width: usize) -> Outcome {
    for (run, value) in every_run(width).flat_map(|run| VALUES.map(|value| (run.clone(), value))) {
        let row = with_run(width, run, value);
        for (height, samples) in planes_with(&row, value) {
            in_rooms(comparer, earlier, Kind::RunPlaces, (width, height), &samples, end_rooms)?;
        }
    }
    Ok(())
}

/// Runs of so many values that begin in the first word of a row, or end in its last one.
pub fn outer_runs(width: usize, length: usize) -> impl Iterator<Item = Range<usize>> {
    let starts = (0..=8).map(move |start| start..start + length).filter(move |run| run.end <= width);
    let ends = (width - 8..=width).filter_map(move |end| Some(end.checked_sub(length)?..end));
    starts.chain(ends)
}

/// Runs of all lengths at which something changes, each in one of its planes.
fn array_rows(comparer: &mut Comparer, earlier: &mut Earlier, width: usize) -> Outcome {
    for (at, length) in (1..=12).chain(LENGTHS).enumerate() {
        for (place, run) in outer_runs(width, length).enumerate() {
            for value in VALUES {
                let planes = planes_with(&with_run(width, run.clone(), value), value);
                let (height, samples) = &planes[(at + place) % planes.len()];
                in_rooms(comparer, earlier, Kind::WideRows, (width, *height), samples, end_rooms)?;
            }
        }
    }
    Ok(())
}

/// A row with a run, and with another one from its start up to a place.
pub fn with_two_runs(width: usize, until: usize, run: Range<usize>, value: u8) -> Vec<u8> {
    let mut row = with_run(width, run, value);
    row[..until].fill(100);
    row
}

/// Runs at the row's end behind one at its start, so that they are searched for from every place of a word on.
fn array_rows_of_two_runs(comparer: &mut Comparer, earlier: &mut Earlier, width: usize) -> Outcome {
    for (until, length) in (4..12).flat_map(|until| (3..12).map(move |length| (until, length))) {
        for end in width - 8..=width {
            let row = with_two_runs(width, until, end - length..end, VALUES[until % 2]);
            in_rooms(comparer, earlier, Kind::WideRows, (width, 1), &row, few_end_rooms)?;
        }
    }
    Ok(())
}

/// A row with a run, another one so many values behind it, and so many values behind that.
pub fn near_runs(first: Range<usize>, apart: usize, second: usize, behind: usize) -> Vec<u8> {
    let from = first.end + apart;
    let mut row = with_run(from + second + behind, first, VALUES[0]);
    row[from..from + second].fill(VALUES[1]);
    row
}

/// Rows of 32 values and more with two runs, so many values apart. The first begins at every place of a word, the second ends up to three
/// values before the row's end.
fn two_runs(comparer: &mut Comparer, earlier: &mut Earlier) -> Outcome {
    for (start, first) in (24..32).flat_map(|start| [4, 5, 7, 8, 9, 12].map(|first| (start, first))) {
        for (apart, second) in (0..10).chain([15, 16]).flat_map(|apart| [3, 4, 5, 8, 11].map(|second| (apart, second)))
        {
            for behind in 0..4 {
                let row = near_runs(start..start + first, apart, second, behind);
                in_rooms(comparer, earlier, Kind::RunPlaces, (row.len(), 1), &row, end_rooms)?;
            }
        }
    }
    Ok(())
}

/// Runs behind so many raw bytes, up to four values before the row's end: as a first row and as a second one.
fn raw_before_runs(comparer: &mut Comparer, earlier: &mut Earlier) -> Outcome {
    for (raw, length) in RAW_BEFORE.into_iter().flat_map(|raw| LENGTHS.map(|length| (raw, length))) {
        for (behind, value) in (0..=4).flat_map(|behind| VALUES.map(|value| (behind, value))) {
            let row = with_run(raw + length + behind, raw..raw + length, value);
            for (height, samples) in &planes_with(&row, value)[..2] {
                in_rooms(comparer, earlier, Kind::RunPlaces, (row.len(), *height), samples, end_rooms)?;
            }
        }
    }
    Ok(())
}

/// One of the longest rows with a run that ends in its last word. What stands before it has no repeats, or is one run up to the last 100
/// values, so that few bytes are written.
pub fn longest_row(width: usize, end: usize, length: usize, flat: bool) -> Vec<u8> {
    let until = if flat { width - 100 } else { 0 };
    with_two_runs(width, until, end - length..end, VALUES[length % 2])
}

fn longest_rows(comparer: &mut Comparer, earlier: &mut Earlier, width: usize) -> Outcome {
    for (at, end) in (width - 8..=width).enumerate() {
        for length in [1, 2, 3, 4, 5, 8, 9, 16, 17, 64] {
            for flat in [false, true] {
                let row = longest_row(width, end, length, flat);
                let planes = planes_with(&row, VALUES[length % 2]);
                let (height, samples) = &planes[(at + length) % planes.len()];
                in_rooms(comparer, earlier, Kind::WideRows, (width, *height), samples, few_end_rooms)?;
            }
        }
    }
    Ok(())
}

/// Small planes with every room: those of few values with every run, those of some words with runs at the row's end.
fn every_room(comparer: &mut Comparer, earlier: &mut Earlier) -> Outcome {
    for width in FEW {
        for run in every_run(width) {
            with_every_room(comparer, earlier, &with_run(width, run, 0))?;
        }
    }
    for width in WIDTHS {
        for length in 1..=20 {
            with_every_room(comparer, earlier, &with_run(width, width - length..width, 0))?;
        }
    }
    Ok(())
}

fn with_every_room(comparer: &mut Comparer, earlier: &mut Earlier, row: &[u8]) -> Outcome {
    for (height, samples) in &planes_with(row, 0)[..4] {
        let every = |packing: &[u8]| (0..=packing.len() + 1).chain([ample(packing)]);
        in_rooms(comparer, earlier, Kind::EveryRoom, (row.len(), *height), samples, every)?;
    }
    Ok(())
}
