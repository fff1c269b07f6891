//! The comparer must find every one of these mistakes, and none in a right unpacker.

mod support;

use comparer::case::MAX_SIDE;
use comparer::planes::counts;
use comparer::unpacking::fixed;
use comparer::Function;
use support::{exported, first_refused, undelta, unpacking_search, with_unpacker, Call, Search, Slices};

const RIGHT: u8 = 0;
const LAST_BYTE_CARRIED: u8 = 1;
const ADDED_BY_SEGMENT: u8 = 2;
const RUN_ONE_IS_SHORT: u8 = 3;
const RUN_TWO_IS_SHORT: u8 = 4;
const WIDTH_BEFORE_RAW: u8 = 5;
const COUNT_OFF_BY_ONE: u8 = 6;
const WRITES_PAST_THE_ROW: u8 = 7;
const READS_PAST_THE_BODY: u8 = 8;
const WRITES_TO_THE_BODY: u8 = 9;
const WRITES_BEFORE_THE_PLANE: u8 = 10;
const ROOM_BEFORE_SIDES: u8 = 11;
const LARGE_BEFORE_ZERO: u8 = 12;
const PRODUCT_WRAPS: u8 = 13;
const SIDES_OF_8193: u8 = 14;
const REFUSED_ROW_UNCHANGED: u8 = 15;
const REFUSED_ROW_ADDED: u8 = 16;
const ZERO_CONTROL_SKIPPED: u8 = 17;
const REST_CLEARED: u8 = 18;
const BODY_MUST_END: u8 = 19;

/// The refusal at entry, if any, or 0.
fn refused_at_entry<const MISTAKE: u8>(room: usize, width: usize, height: usize) -> i64 {
    let most = if MISTAKE == SIDES_OF_8193 { MAX_SIDE + 1 } else { MAX_SIDE };
    let zero = width == 0 || height == 0;
    let large = width > most || height > most;
    let samples = if MISTAKE == PRODUCT_WRAPS {
        (width as u32).wrapping_mul(height as u32) as u16 as usize
    } else {
        width.saturating_mul(height)
    };
    let tests = [(zero, 1), (large, 2), (room < samples, 10)];
    let order = match MISTAKE {
        ROOM_BEFORE_SIDES => [2, 0, 1],
        LARGE_BEFORE_ZERO => [1, 0, 2],
        _ => [0, 1, 2],
    };
    first_refused(tests, order)
}

/// The raw bytes and the run of a control byte.
fn counts_of<const MISTAKE: u8>(control: u8) -> (usize, usize) {
    let short = (usize::from(control >> 4), usize::from(control & 15));
    match (MISTAKE, control & 15) {
        (RUN_ONE_IS_SHORT, 1) | (RUN_TWO_IS_SHORT, 2) => short,
        _ => counts(control),
    }
}

/// Adds the row above to some samples.
fn add_above(slices: &Slices, from: usize, count: usize, width: usize) {
    for at in from..from + count {
        slices.write(at, slices.sample(at - width).wrapping_add(undelta(slices.sample(at))));
    }
}

/// Where reading is: the index in the body and the last byte of the row.
struct Reader {
    at: usize,
    last: u8,
}

/// Reads the segment at `reader` into `left` samples from `to` on. The answer is how many it filled, or the refusal.
fn segment<const MISTAKE: u8>(slices: &Slices, reader: &mut Reader, to: usize, left: usize) -> Result<usize, i64> {
    if reader.at >= slices.src_len {
        return Err(7);
    }
    let control = slices.read(reader.at);
    if control == 0 {
        reader.at += 1;
        return if MISTAKE == ZERO_CONTROL_SKIPPED { Ok(0) } else { Err(8) };
    }
    let (raw, run) = counts_of::<MISTAKE>(control);
    let first = reader.at + 1;
    let missing = first + raw > slices.src_len;
    if MISTAKE == WIDTH_BEFORE_RAW && raw + run > left {
        return Err(9);
    }
    if missing && MISTAKE != READS_PAST_THE_BODY {
        return Err(7);
    }
    let before = if raw > 0 { slices.read(first + raw - 1) } else { reader.last };
    if missing {
        return Err(7);
    }
    if raw + run > left {
        return Err(9);
    }
    reader.last = before;
    for i in 0..raw + run {
        slices.write(to + i, if i < raw { slices.read(first + i) } else { reader.last });
    }
    reader.at = first + raw;
    Ok(raw + run)
}

/// Reads one row. The answer is 0, or the refusal.
fn row<const MISTAKE: u8>(slices: &Slices, reader: &mut Reader, row: usize, width: usize) -> i64 {
    let start = row * width;
    let mut column = 0;
    if MISTAKE != LAST_BYTE_CARRIED {
        reader.last = 0;
    }
    let earlier: Vec<u8> = (0..width).map(|i| slices.sample(start + i)).collect();
    while column < width {
        match segment::<MISTAKE>(slices, reader, start + column, width - column) {
            Ok(count) if MISTAKE == ADDED_BY_SEGMENT && row > 0 => {
                add_above(slices, start + column, count, width);
                column += count;
            }
            Ok(count) => column += count,
            Err(number) => {
                if MISTAKE == REFUSED_ROW_UNCHANGED {
                    (0..width).for_each(|i| slices.write(start + i, earlier[i]));
                }
                if MISTAKE == REFUSED_ROW_ADDED && row > 0 {
                    add_above(slices, start, column, width);
                }
                return number;
            }
        }
    }
    if row > 0 && MISTAKE != ADDED_BY_SEGMENT {
        add_above(slices, start, width, width);
    }
    0
}

/// An unpacker with one mistake, or with none.
struct Unpacker<const MISTAKE: u8>;

impl<const MISTAKE: u8> Call for Unpacker<MISTAKE> {
    fn call(slices: Slices, width: usize, height: usize) -> i64 {
        let refused = refused_at_entry::<MISTAKE>(slices.dst_len, width, height);
        if refused != 0 {
            return -refused;
        }
        let mut reader = Reader { at: 0, last: 0 };
        for at in 0..height {
            let refused = row::<MISTAKE>(&slices, &mut reader, at, width);
            if refused != 0 {
                return -refused;
            }
        }
        finish::<MISTAKE>(&slices, width * height, reader.at)
    }
}

/// What is done once all rows are read.
fn finish<const MISTAKE: u8>(slices: &Slices, samples: usize, read: usize) -> i64 {
    match MISTAKE {
        WRITES_PAST_THE_ROW => slices.write(samples, 0),
        // SAFETY: a mistake made on purpose, into memory that the comparer watches.
        WRITES_BEFORE_THE_PLANE => unsafe { slices.dst.sub(1).write_volatile(0) },
        // SAFETY: inside the body, which may not be written to.
        WRITES_TO_THE_BODY => unsafe { slices.src.cast_mut().write_volatile(0) },
        REST_CLEARED => (samples..slices.dst_len).for_each(|at| slices.write(at, 0)),
        COUNT_OFF_BY_ONE => return read as i64 + 1,
        BODY_MUST_END if read < slices.src_len => return -7,
        _ => {}
    }
    read as i64
}

const SEARCH: Search = unpacking_search(fixed::run);

fn is_found(unpacker: Function, smallest: &str) {
    SEARCH.finds(with_unpacker(unpacker), smallest);
}

#[test]
fn a_right_unpacker_has_no_difference() {
    SEARCH.finds_nothing(with_unpacker(exported::<Unpacker<RIGHT>>));
}

#[test]
fn the_last_byte_carried_into_the_next_row() {
    is_found(exported::<Unpacker<LAST_BYTE_CARRIED>>, "pu 3 2 100020000103 EE*6");
}

#[test]
fn the_row_above_added_segment_by_segment() {
    is_found(exported::<Unpacker<ADDED_BY_SEGMENT>>, "pu 2 2 2000001001 EE*4");
}

#[test]
fn run_field_1_as_a_short_run() {
    is_found(exported::<Unpacker<RUN_ONE_IS_SHORT>>, "pu 1 1 01 EE");
}

#[test]
fn run_field_2_as_a_short_run() {
    is_found(exported::<Unpacker<RUN_TWO_IS_SHORT>>, "pu 2 1 02 EEEE");
}

#[test]
fn the_width_tested_before_the_raw_bytes() {
    is_found(exported::<Unpacker<WIDTH_BEFORE_RAW>>, "pu 1 1 13 EE");
}

#[test]
fn a_count_off_by_one() {
    is_found(exported::<Unpacker<COUNT_OFF_BY_ONE>>, "pu 1 1 1000 EE");
}

#[test]
fn a_byte_written_past_the_row() {
    is_found(exported::<Unpacker<WRITES_PAST_THE_ROW>>, "pu 1 1 1000 EE");
}

#[test]
fn a_byte_read_past_the_body() {
    is_found(exported::<Unpacker<READS_PAST_THE_BODY>>, "pu 1 1 10 EE");
}

#[test]
fn a_body_written_to() {
    is_found(exported::<Unpacker<WRITES_TO_THE_BODY>>, "pu 1 1 1000 EE");
}

#[test]
fn a_byte_written_before_the_plane() {
    is_found(exported::<Unpacker<WRITES_BEFORE_THE_PLANE>>, "pu 1 1 1000 EE");
}

#[test]
fn refusal_10_before_1_and_2() {
    is_found(exported::<Unpacker<ROOM_BEFORE_SIDES>>, "pu 1 8193 - -");
}

#[test]
fn refusal_2_before_1() {
    is_found(exported::<Unpacker<LARGE_BEFORE_ZERO>>, "pu 0 8193 - -");
}

#[test]
fn a_product_of_sides_that_wraps() {
    is_found(exported::<Unpacker<PRODUCT_WRAPS>>, "pu 8192 8 - -");
}

#[test]
fn sides_of_8193_taken() {
    is_found(exported::<Unpacker<SIDES_OF_8193>>, "pu 1 8193 - -");
}

#[test]
fn a_refused_row_left_as_it_was() {
    is_found(exported::<Unpacker<REFUSED_ROW_UNCHANGED>>, "pu 2 1 1000 EEEE");
}

#[test]
fn a_refused_row_with_the_row_above_added() {
    is_found(exported::<Unpacker<REFUSED_ROW_ADDED>>, "pu 2 2 2000001001 EE*4");
}

#[test]
fn control_byte_0_skipped() {
    is_found(exported::<Unpacker<ZERO_CONTROL_SKIPPED>>, "pu 1 1 00 EE");
}

#[test]
fn bytes_beyond_the_plane_cleared() {
    is_found(exported::<Unpacker<REST_CLEARED>>, "pu 1 1 1000 EEEE");
}

#[test]
fn following_bytes_refused() {
    is_found(exported::<Unpacker<BODY_MUST_END>>, "pu 1 1 100000 EE");
}
