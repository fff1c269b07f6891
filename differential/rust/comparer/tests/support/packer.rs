//! A plane packer in small steps: it flags each value of a row that begins four equal ones, searches the flags eight at a time, writes
//! segments to an array in copies of 16 bytes, and copies them to the destination if all of the row fits. A wrong one does one of these
//! steps differently.

use super::encoder::packed;
use super::{delta, Call, Slices};
use comparer::case::MAX_SIDE;
use comparer::Case;
use std::ops::Range;

/// Rows of fewer values are packed segment by segment.
const FEW: usize = 32;
/// The longest row that small arrays are for.
pub const NARROW: usize = 256;
/// How many flags are looked at at once.
pub const WORD: usize = 8;
/// How many values are equal where a flag is set.
const FLAGGED: usize = 4;

/// An array of bytes. What lies behind it is read as 0 and is not written, so that a planted mistake has no panic.
pub struct Array(Vec<u8>);

impl Array {
    pub fn new(len: usize) -> Array {
        Array(vec![0; len])
    }

    pub fn get(&self, at: usize) -> u8 {
        self.0.get(at).copied().unwrap_or(0)
    }

    pub fn set(&mut self, at: usize, byte: u8) {
        self.0.get_mut(at..=at).into_iter().flatten().for_each(|old| *old = byte);
    }

    pub fn first(&self, count: usize) -> &[u8] {
        &self.0[..count]
    }
}

/// What the rows of a plane are packed with.
pub struct Arrays {
    pub width: usize,
    /// The longest row that they are for.
    pub longest: usize,
    pub codes: Array,
    pub flags: Array,
    pub packed: Array,
    /// How many bytes of `packed` the row before took.
    pub count: usize,
}

/// The first place of these, eight at a time, with such a flag, or the end.
pub fn search(flags: &Array, places: Range<usize>, flag: u8) -> usize {
    let end = places.end;
    let mut words = places.step_by(WORD).flat_map(|word| word..word + WORD);
    words.find(|&at| flags.get(at) == flag).unwrap_or(end)
}

/// Packs the row that is coded segment by segment, as far as segments fit.
pub fn by_segments(slices: &mut Slices, arrays: &Arrays, to: usize) -> Result<usize, i64> {
    let codes = arrays.codes.first(arrays.width);
    let behind = slices.destination().get_mut(to..).unwrap_or(&mut []);
    packed(codes, behind, (arrays.width, 1)).map(|count| to + count)
}

/// The steps.
pub trait Packer {
    fn pack(slices: &mut Slices, width: usize, height: usize) -> i64 {
        if let Some(number) = Case::pack(width, height, slices.source(), &[]).refused_at_entry() {
            return -i64::from(number);
        }
        let mut arrays = Self::arrays(width);
        let mut to = 0;
        for row in 0..height {
            Self::code_row(slices, &mut arrays, row);
            match Self::write_row(slices, &mut arrays, to) {
                Ok(next) => to = next,
                Err(number) => return -number,
            }
        }
        to as i64
    }

    /// Zeros. All have some bytes more than a row, since words and copies pass its end.
    fn arrays(width: usize) -> Arrays {
        let longest = Self::longest(width);
        let [codes, flags, packed] = [longest + 64, longest + 64, 2 * longest + 64].map(Array::new);
        Arrays { width, longest, codes, flags, packed, count: 0 }
    }

    /// The longest row that the arrays are for.
    fn longest(width: usize) -> usize {
        if width <= NARROW {
            NARROW
        } else {
            MAX_SIDE
        }
    }

    /// The row that a row's codes are differences from; the first row has none.
    fn row_above(row: usize) -> Option<usize> {
        row.checked_sub(1)
    }

    /// The coded value at a column. Columns behind the row are those of the next one.
    fn code(slices: &Slices, width: usize, row: usize, column: usize) -> u8 {
        let sample = slices.read(row * width + column);
        match Self::row_above(row) {
            Some(above) => delta(slices.read(above * width + column), sample),
            None => sample,
        }
    }

    fn code_row(slices: &Slices, arrays: &mut Arrays, row: usize) {
        for column in 0..arrays.width.min(arrays.longest) {
            arrays.codes.set(column, Self::code(slices, arrays.width, row, column));
        }
    }

    /// Writes the coded row to this place of the destination. The answer is the place behind it, or the refusal.
    fn write_row(slices: &mut Slices, arrays: &mut Arrays, to: usize) -> Result<usize, i64> {
        if arrays.width < FEW {
            return by_segments(slices, arrays, to);
        }
        Self::flag_runs(arrays);
        let count = Self::put_row(arrays);
        if slices.dst_len.saturating_sub(to) < count {
            return Self::write_short_of_room(slices, arrays, to, count);
        }
        Self::copy_row(slices, arrays, to, count);
        arrays.count = count;
        Ok(to + count)
    }

    fn flag_runs(arrays: &mut Arrays) {
        for at in 0..arrays.width {
            let flag = Self::is_flagged(&arrays.codes, at);
            arrays.flags.set(at, flag.into());
        }
    }

    /// Whether this value and the next three are equal.
    fn is_flagged(codes: &Array, at: usize) -> bool {
        (1..FLAGGED).all(|next| codes.get(at + next) == codes.get(at))
    }

    /// The first flag that is set.
    fn next_set(flags: &Array, places: Range<usize>) -> usize {
        search(flags, places, 1)
    }

    /// The first flag that is not set.
    fn next_clear(flags: &Array, places: Range<usize>) -> usize {
        search(flags, places, 0)
    }

    /// Whether a run that begins here would pass the row's end, or there is none.
    fn is_behind_the_last(run: usize, width: usize) -> bool {
        width < run + FLAGGED
    }

    /// Where the run ends that begins here.
    fn run_end(flags: &Array, run: usize, width: usize) -> usize {
        width.min(Self::next_clear(flags, run..width) + FLAGGED - 1)
    }

    /// Where the row's segments begin in `packed`.
    fn first_byte(_arrays: &Arrays) -> usize {
        0
    }

    /// Writes the row's segments to `packed`, and returns where they end.
    fn put_row(arrays: &mut Arrays) -> usize {
        let width = arrays.width;
        let (mut from, mut to) = (0, Self::first_byte(arrays));
        while from < width {
            let run = Self::next_set(&arrays.flags, from..width);
            if Self::is_behind_the_last(run, width) {
                return Self::put_segment(arrays, from..width, 0, to);
            }
            let end = Self::run_end(&arrays.flags, run, width);
            to = Self::put_segment(arrays, from..run + 1, end - run - 1, to);
            from = end;
        }
        to
    }

    /// Whether so many raw bytes take more than one literal.
    fn is_split(raw: usize) -> bool {
        raw > 15
    }

    /// The values at these places as raw bytes, and a run of the last of them.
    fn put_segment(arrays: &mut Arrays, raw: Range<usize>, run: usize, at: usize) -> usize {
        let (mut from, mut to) = (raw.start, at);
        while Self::is_split(raw.end - from) {
            to = Self::put_literal(arrays, from, 15, 0, to);
            from += 15;
        }
        to = Self::put_literal(arrays, from, raw.end - from, run.min(15), to);
        let last = arrays.codes.get(raw.end - 1);
        Self::put_long_run(arrays, last, run - run.min(15), to)
    }

    fn put_literal(arrays: &mut Arrays, from: usize, count: usize, run: usize, at: usize) -> usize {
        arrays.packed.set(at, (16 * count + run) as u8);
        Self::copy_raw(arrays, from, at + 1);
        at + 1 + count
    }

    /// Copies 16 values, however many raw bytes there are: what lies behind these is overwritten, or never copied.
    fn copy_raw(arrays: &mut Arrays, from: usize, at: usize) {
        (0..16).for_each(|i| arrays.packed.set(at + i, arrays.codes.get(from + i)));
    }

    fn put_long_run(arrays: &mut Arrays, value: u8, run: usize, at: usize) -> usize {
        let (mut left, mut to) = (run, at);
        while left >= 16 {
            let part = left.min(47);
            arrays.packed.set(to, (part % 16 * 16 + part / 16) as u8);
            to += 1;
            left -= part;
        }
        if left == 0 {
            return to;
        }
        let raw = Self::raw_of_rest(left);
        arrays.packed.set(to, (16 * raw + left - raw) as u8);
        (1..=raw).for_each(|i| arrays.packed.set(to + i, value));
        to + 1 + raw
    }

    /// How many of the last 1 to 15 values of a long run are raw bytes.
    fn raw_of_rest(left: usize) -> usize {
        if left < 4 {
            left
        } else {
            1
        }
    }

    fn copy_row(slices: &Slices, arrays: &Arrays, to: usize, count: usize) {
        (0..count).for_each(|at| slices.write(to + at, arrays.packed.get(at)));
    }

    /// What is done with a row that takes so many bytes where there is no room for them.
    fn write_short_of_room(slices: &mut Slices, arrays: &Arrays, to: usize, _count: usize) -> Result<usize, i64> {
        by_segments(slices, arrays, to)
    }
}

pub struct Right;

impl Packer for Right {}

impl<P: Packer> Call for P {
    fn call(mut slices: Slices, width: usize, height: usize) -> i64 {
        P::pack(&mut slices, width, height)
    }
}
