//! The comparer must find every one of these mistakes in a packer, and none in a right one.

mod support;

use comparer::case::MAX_SIDE;
use comparer::packing::fixed;
use comparer::Function;
use std::cell::RefCell;
use support::{delta, exported, first_refused, packing_search, with_packer, Call, Search, Slices};

const RIGHT: u8 = 0;
const TWO_REPEATS_CLOSE: u8 = 1;
const FOUR_REPEATS_CLOSE: u8 = 2;
const SIXTEEN_AS_LITERAL: u8 = 3;
const SIXTEEN_LEFT_NOT_LONG: u8 = 4;
const FORTY_EIGHT_AT_ONCE: u8 = 5;
const LOW_BITS_OF_32: u8 = 6;
const HIGH_BITS_OF_32: u8 = 7;
const REST_AS_RUN: u8 = 8;
const ROW_END_RAW: u8 = 9;
const RUN_OVER_ROW_END: u8 = 10;
const DELTA_FROM_LEFT: u8 = 11;
const DELTA_FROM_TWO_ABOVE: u8 = 12;
const DELTA_IN_FIRST_ROW: u8 = 13;
const DELTA_SIGN: u8 = 14;
const HALF_A_SEGMENT: u8 = 15;
const REFUSED_EARLY: u8 = 16;
const REFUSED_LATE: u8 = 17;
const REFUSED_WHEN_EXACT: u8 = 18;
const NOTHING_BEFORE_12: u8 = 19;
const COUNT_OFF_BY_ONE: u8 = 20;
const READS_BEYOND: u8 = 21;
const SHORT_SOURCE_TAKEN: u8 = 22;
const LONG_SOURCE_REFUSED: u8 = 23;
const SOURCE_BEFORE_SIDES: u8 = 24;
const LARGE_BEFORE_ZERO: u8 = 25;
const ROOM_BEFORE_SOURCE: u8 = 26;
const PRODUCT_WRAPS: u8 = 27;
const SIDES_OF_8193: u8 = 28;
const ROW_KEPT: u8 = 29;
const REST_CLEARED: u8 = 30;
const WRITES_TO_THE_SOURCE: u8 = 31;
const WRITES_BEFORE_THE_PACKING: u8 = 32;
const SIXTEEN_RAW: u8 = 33;

thread_local! {
    /// The last row of the plane before, which the next one has nothing to do with.
    static KEPT: RefCell<Vec<u8>> = const { RefCell::new(Vec::new()) };
}

/// The refusal at entry, if any, or 0.
fn refused_at_entry<const MISTAKE: u8>(slices: &Slices, width: usize, height: usize) -> i64 {
    let most = if MISTAKE == SIDES_OF_8193 { MAX_SIDE + 1 } else { MAX_SIDE };
    let zero = width == 0 || height == 0;
    let large = width > most || height > most;
    let plane = if MISTAKE == PRODUCT_WRAPS {
        width.wrapping_mul(height) as u16 as usize
    } else {
        width.saturating_mul(height)
    };
    let short = match MISTAKE {
        SHORT_SOURCE_TAKEN => false,
        LONG_SOURCE_REFUSED => slices.src_len != plane,
        _ => slices.src_len < plane,
    };
    if MISTAKE == ROOM_BEFORE_SOURCE && !zero && !large && slices.dst_len == 0 {
        return 12;
    }
    let order = match MISTAKE {
        SOURCE_BEFORE_SIDES => [0, 2, 1],
        LARGE_BEFORE_ZERO => [1, 0, 2],
        _ => [0, 1, 2],
    };
    first_refused([(zero, 1), (large, 2), (short, 11)], order)
}

/// The code of a sample under another.
fn code<const MISTAKE: u8>(upper: u8, lower: u8) -> u8 {
    match lower.wrapping_sub(upper) {
        128 if MISTAKE == DELTA_SIGN => 0,
        _ => delta(upper, lower),
    }
}

/// What a sample is coded by, if it is: the sample above, or what a mistake takes for it.
fn upper<const MISTAKE: u8>(slices: &Slices, row: usize, column: usize, width: usize) -> Option<u8> {
    let at = row * width + column;
    match MISTAKE {
        DELTA_FROM_LEFT if row > 0 && column > 0 => Some(slices.read(at - 1)),
        DELTA_FROM_TWO_ABOVE if row > 1 => Some(slices.read(at - 2 * width)),
        DELTA_IN_FIRST_ROW if row == 0 && column > 0 => Some(slices.read(at - 1)),
        ROW_KEPT if row == 0 => KEPT.with_borrow(|kept| kept.get(column).copied()),
        _ if row > 0 => Some(slices.read(at - width)),
        _ => None,
    }
}

/// The coded values of a row.
fn coded_row<const MISTAKE: u8>(slices: &Slices, row: usize, width: usize, samples: usize) -> Vec<u8> {
    let there = width.min(samples.saturating_sub(row * width));
    (0..there)
        .map(|column| {
            let sample = slices.read(row * width + column);
            upper::<MISTAKE>(slices, row, column, width).map_or(sample, |above| code::<MISTAKE>(above, sample))
        })
        .collect()
}

/// How far the destination is written.
struct Writer<'a> {
    slices: &'a Slices,
    at: usize,
}

impl Writer<'_> {
    /// One control byte and its raw bytes, or refusal 12.
    fn put<const MISTAKE: u8>(&mut self, control: usize, raw: &[u8]) -> Result<(), i64> {
        let room = self.slices.dst_len;
        let needed = match MISTAKE {
            REFUSED_EARLY => self.at + 2 + raw.len(),
            REFUSED_LATE => self.at + raw.len(),
            _ => self.at + 1 + raw.len(),
        };
        let bytes = [&[control as u8], raw].concat();
        if needed > room {
            if MISTAKE == HALF_A_SEGMENT {
                (self.at..room).zip(bytes).for_each(|(at, byte)| self.slices.write(at, byte));
            }
            return Err(12);
        }
        for byte in bytes {
            self.slices.write(self.at, byte);
            self.at += 1;
        }
        Ok(())
    }

    /// Raw values and the run of the last of them.
    fn put_segment<const MISTAKE: u8>(&mut self, raw: &[u8], run: usize) -> Result<(), i64> {
        let most = if MISTAKE == SIXTEEN_RAW { 16 } else { 15 };
        let mut raw = raw;
        while raw.len() > most {
            self.put::<MISTAKE>(0xF0, &raw[..15])?;
            raw = &raw[15..];
        }
        if MISTAKE == SIXTEEN_AS_LITERAL && raw.len() == 1 && run == 15 {
            return self.put_segment::<MISTAKE>(&[raw[0]; 16], 0);
        }
        let short = run.min(15);
        self.put::<MISTAKE>(raw.len() * 16 + short, raw)?;
        self.put_long::<MISTAKE>(raw[raw.len() - 1], run - short)
    }

    fn put_long<const MISTAKE: u8>(&mut self, value: u8, mut run: usize) -> Result<(), i64> {
        let shortest = if MISTAKE == SIXTEEN_LEFT_NOT_LONG { 17 } else { 16 };
        let most = if MISTAKE == FORTY_EIGHT_AT_ONCE { 48 } else { 47 };
        while run >= shortest {
            let taken = run.min(most);
            self.put::<MISTAKE>(long_control::<MISTAKE>(taken), &[])?;
            run -= taken;
        }
        match run {
            0 => Ok(()),
            2..=3 if MISTAKE == REST_AS_RUN => self.put::<MISTAKE>(16 + run - 1, &[value]),
            1..=3 => self.put::<MISTAKE>(run * 16, &[value, value, value][..run]),
            _ => self.put::<MISTAKE>(16 + run - 1, &[value]),
        }
    }
}

/// The control byte of a run of 16 to 47.
fn long_control<const MISTAKE: u8>(run: usize) -> usize {
    match (run, MISTAKE) {
        (..32, _) => (run - 16) * 16 + 1,
        (_, LOW_BITS_OF_32) => (run - 32) * 16 + 1,
        (_, HIGH_BITS_OF_32) => (run - 31) * 16 + 2,
        _ => (run - 32) * 16 + 2,
    }
}

fn put_row<const MISTAKE: u8>(writer: &mut Writer<'_>, row: &[u8]) -> Result<(), i64> {
    let closing = match MISTAKE {
        TWO_REPEATS_CLOSE => 2,
        FOUR_REPEATS_CLOSE => 4,
        _ => 3,
    };
    let mut raw = Vec::new();
    let mut left = row.len();
    for equal in row.chunk_by(|left, right| left == right) {
        left -= equal.len();
        let kept_raw = MISTAKE == ROW_END_RAW && left == 0;
        raw.push(equal[0]);
        if equal.len() > closing && !kept_raw {
            writer.put_segment::<MISTAKE>(&raw, equal.len() - 1)?;
            raw.clear();
        } else {
            raw.extend(&equal[1..]);
        }
    }
    if raw.is_empty() {
        return Ok(());
    }
    writer.put_segment::<MISTAKE>(&raw, 0)
}

/// All rows; by a mistake as if they were one.
fn put_rows<const MISTAKE: u8>(writer: &mut Writer<'_>, width: usize, height: usize) -> Result<(), i64> {
    let slices = writer.slices;
    let samples = (width * height).min(slices.src_len);
    let rows = (0..height).map(|row| coded_row::<MISTAKE>(slices, row, width, samples));
    if MISTAKE == RUN_OVER_ROW_END {
        return put_row::<MISTAKE>(writer, &rows.collect::<Vec<_>>().concat());
    }
    for row in rows {
        put_row::<MISTAKE>(writer, &row)?;
    }
    Ok(())
}

/// A packer with one mistake, or with none.
struct Packer<const MISTAKE: u8>;

impl<const MISTAKE: u8> Call for Packer<MISTAKE> {
    fn call(slices: Slices, width: usize, height: usize) -> i64 {
        let refused = refused_at_entry::<MISTAKE>(&slices, width, height);
        if refused != 0 {
            return -refused;
        }
        let earlier: Vec<u8> = (0..slices.dst_len).map(|at| slices.sample(at)).collect();
        let mut writer = Writer { slices: &slices, at: 0 };
        let outcome = put_rows::<MISTAKE>(&mut writer, width, height);
        let written = writer.at;
        if MISTAKE == NOTHING_BEFORE_12 && outcome.is_err() {
            earlier.iter().enumerate().for_each(|(at, &byte)| slices.write(at, byte));
        }
        match outcome {
            Ok(()) => finish::<MISTAKE>(&slices, width, height, written),
            Err(number) => -number,
        }
    }
}

/// What is done once all rows are written.
fn finish<const MISTAKE: u8>(slices: &Slices, width: usize, height: usize, written: usize) -> i64 {
    let plane = width * height;
    match MISTAKE {
        READS_BEYOND => {
            slices.read(plane);
        }
        REST_CLEARED => (written..slices.dst_len).for_each(|at| slices.write(at, 0)),
        ROW_KEPT => KEPT.set((plane - width..plane).map(|at| slices.read(at)).collect()),
        // SAFETY: inside the source, which may not be written to.
        WRITES_TO_THE_SOURCE => unsafe { slices.src.cast_mut().write_volatile(!slices.read(0)) },
        // SAFETY: a mistake made on purpose, into memory that the comparer watches.
        WRITES_BEFORE_THE_PACKING => unsafe { slices.dst.sub(1).write_volatile(0) },
        COUNT_OFF_BY_ONE => return written as i64 + 1,
        REFUSED_WHEN_EXACT if written == slices.dst_len => return -12,
        _ => {}
    }
    written as i64
}

const SEARCH: Search = packing_search(fixed::run);

fn is_found(packer: Function, smallest: &str) {
    SEARCH.finds(with_packer(packer), smallest);
}

#[test]
fn a_right_packer_has_no_difference() {
    SEARCH.finds_nothing(with_packer(exported::<Packer<RIGHT>>));
}

#[test]
fn two_repeats_close_a_segment() {
    is_found(exported::<Packer<TWO_REPEATS_CLOSE>>, "pp 3 1 000000 EEEE");
}

#[test]
fn four_repeats_needed_to_close_a_segment() {
    is_found(exported::<Packer<FOUR_REPEATS_CLOSE>>, "pp 4 1 00*4 EEEE");
}

#[test]
fn sixteen_equal_values_as_a_literal() {
    is_found(exported::<Packer<SIXTEEN_AS_LITERAL>>, "pp 16 1 00*16 EEEE");
}

#[test]
fn sixteen_left_of_a_run_not_as_a_long_run() {
    is_found(exported::<Packer<SIXTEEN_LEFT_NOT_LONG>>, "pp 32 1 00*32 EEEEEE");
}

#[test]
fn a_run_of_48_in_one_control_byte() {
    is_found(exported::<Packer<FORTY_EIGHT_AT_ONCE>>, "pp 64 1 00*64 EEEEEE");
}

#[test]
fn low_bits_of_a_run_of_32_wrong() {
    is_found(exported::<Packer<LOW_BITS_OF_32>>, "pp 48 1 00*48 EEEEEE");
}

#[test]
fn high_bits_of_a_run_of_32_wrong() {
    is_found(exported::<Packer<HIGH_BITS_OF_32>>, "pp 48 1 00*48 EEEEEE");
}

#[test]
fn the_last_1_to_3_of_a_long_run_as_a_run() {
    is_found(exported::<Packer<REST_AS_RUN>>, "pp 18 1 00*18 EE*4");
}

#[test]
fn a_run_at_the_rows_end_left_raw() {
    is_found(exported::<Packer<ROW_END_RAW>>, "pp 4 1 00*4 EEEE");
}

#[test]
fn a_run_over_the_rows_end() {
    is_found(exported::<Packer<RUN_OVER_ROW_END>>, "pp 1 2 0000 EEEE");
}

#[test]
fn the_difference_from_the_left_neighbour() {
    is_found(exported::<Packer<DELTA_FROM_LEFT>>, "pp 2 2 00010000 EE*6");
}

#[test]
fn the_difference_from_two_rows_above() {
    is_found(exported::<Packer<DELTA_FROM_TWO_ABOVE>>, "pp 1 3 000100 EE*6");
}

#[test]
fn a_difference_in_the_first_row_too() {
    is_found(exported::<Packer<DELTA_IN_FIRST_ROW>>, "pp 2 1 0001 EEEEEE");
}

#[test]
fn the_difference_128_coded_wrong() {
    is_found(exported::<Packer<DELTA_SIGN>>, "pp 1 2 0080 EE*4");
}

#[test]
fn half_a_segment_before_refusal_12() {
    is_found(exported::<Packer<HALF_A_SEGMENT>>, "pp 1 1 00 EE");
}

#[test]
fn refusal_12_one_byte_early() {
    is_found(exported::<Packer<REFUSED_EARLY>>, "pp 1 1 00 EEEE");
}

#[test]
fn refusal_12_one_byte_late() {
    is_found(exported::<Packer<REFUSED_LATE>>, "pp 1 1 00 EE");
}

#[test]
fn refusal_12_when_the_room_is_exact() {
    is_found(exported::<Packer<REFUSED_WHEN_EXACT>>, "pp 1 1 00 EEEE");
}

#[test]
fn earlier_segments_taken_back_by_refusal_12() {
    is_found(exported::<Packer<NOTHING_BEFORE_12>>, "pp 1 2 0000 EEEE");
}

#[test]
fn a_count_off_by_one() {
    is_found(exported::<Packer<COUNT_OFF_BY_ONE>>, "pp 1 1 00 EEEE");
}

#[test]
fn a_sample_read_beyond_the_plane() {
    is_found(exported::<Packer<READS_BEYOND>>, "pp 1 1 00 EEEE");
}

#[test]
fn a_source_that_is_too_short_taken() {
    is_found(exported::<Packer<SHORT_SOURCE_TAKEN>>, "pp 1 1 - -");
}

#[test]
fn a_source_that_is_longer_refused() {
    is_found(exported::<Packer<LONG_SOURCE_REFUSED>>, "pp 1 1 0000 -");
}

#[test]
fn refusal_11_before_2() {
    is_found(exported::<Packer<SOURCE_BEFORE_SIDES>>, "pp 1 8193 - -");
}

#[test]
fn refusal_2_before_1() {
    is_found(exported::<Packer<LARGE_BEFORE_ZERO>>, "pp 0 8193 - -");
}

#[test]
fn refusal_12_before_11() {
    is_found(exported::<Packer<ROOM_BEFORE_SOURCE>>, "pp 1 1 - -");
}

#[test]
fn a_product_of_sides_that_wraps() {
    is_found(exported::<Packer<PRODUCT_WRAPS>>, "pp 8192 8 - -");
}

#[test]
fn sides_of_8193_taken() {
    is_found(exported::<Packer<SIDES_OF_8193>>, "pp 1 8193 - -");
}

#[test]
fn bytes_behind_the_packing_cleared() {
    is_found(exported::<Packer<REST_CLEARED>>, "pp 1 1 00 EEEEEE");
}

#[test]
fn a_source_written_to() {
    is_found(exported::<Packer<WRITES_TO_THE_SOURCE>>, "pp 1 1 00 EEEE");
}

#[test]
fn a_byte_written_before_the_packing() {
    is_found(exported::<Packer<WRITES_BEFORE_THE_PACKING>>, "pp 1 1 00 EEEE");
}

#[test]
fn sixteen_raw_bytes_in_one_segment() {
    is_found(exported::<Packer<SIXTEEN_RAW>>, "pp 16 1 00000001000100000001000001000000 EE*16");
}

/// Its answer depends on the call before, so there is no smallest input.
#[test]
fn a_row_kept_from_the_plane_before() {
    assert!(SEARCH.difference_in(with_packer(exported::<Packer<ROW_KEPT>>)).is_some());
    KEPT.take();
    assert!(SEARCH.random_difference_in(with_packer(exported::<Packer<ROW_KEPT>>)).is_some());
}
