//! The comparer must find every one of these mistakes in an unpacker that reads a row into an array in steps of fixed lengths, which may pass
//! the segment's end, and then copies it to the plane.

mod support;

use comparer::case::MAX_SIDE;
use comparer::planes::counts;
use comparer::unpacking::boundary;
use comparer::Function;
use support::{exported, first_refused, undelta, unpacking_search, with_unpacker, Call, Search, Slices};

const RIGHT: u8 = 0;
const REFUSED_ROW_AND_A_STEP: u8 = 1;
const REFUSED_ROW_WHOLE: u8 = 2;
const REFUSED_ROW_UNDONE: u8 = 3;
const ROWS_IN_STEPS: u8 = 4;
const FIRST_ROW_UNDONE: u8 = 5;
const LAST_ROW_AS_CODES: u8 = 6;
const CODES_ABOVE: u8 = 7;
const LONG_RUN_IS_48: u8 = 8;
const LONG_RUN_STEP_OF_32: u8 = 9;
const RUN_STEP_OF_8: u8 = 10;
const RUN_BEFORE_RAW: u8 = 11;
const LITERAL_OF_16: u8 = 12;
const LAST_FROM_BEHIND: u8 = 13;
const LAST_WITHOUT_RAW: u8 = 14;
const LAST_BYTE_CARRIED: u8 = 15;
const STEP_MUST_FIT: u8 = 16;
const ZERO_CONTROL_TAKEN: u8 = 17;
const STEP_WITH_16_LEFT: u8 = 18;
const STEP_EVERYWHERE: u8 = 19;
const ARRAY_OF_8192: u8 = 20;

/// The bytes of the body that a step needs: the control byte and 16 more.
const STEP_NEEDS: usize = 17;

/// Where reading is: the index in the body, and the row so far as coded values, of which the first `column` count.
struct Reader {
    at: usize,
    last: u8,
    column: usize,
    codes: [u8; MAX_SIDE + 64],
}

impl Reader {
    /// Writes a value so many times; with `ARRAY_OF_8192` nothing where it would pass the longest row.
    fn fill<const MISTAKE: u8>(&mut self, from: usize, count: usize, value: u8) {
        if MISTAKE != ARRAY_OF_8192 || from + count <= MAX_SIDE {
            self.codes[from..from + count].fill(value);
        }
    }
}

/// Whether a segment that begins with `left` bytes of the body is written in steps.
fn by_steps<const MISTAKE: u8>(left: usize, raw: usize) -> bool {
    match MISTAKE {
        STEP_WITH_16_LEFT => STEP_NEEDS - 1 <= left,
        STEP_EVERYWHERE => raw < left,
        _ => STEP_NEEDS <= left,
    }
}

/// Writes a segment in steps, and returns the last byte after it.
fn step<const MISTAKE: u8>(slices: &Slices, reader: &mut Reader, raw: usize, run: usize) -> u8 {
    let (first, column) = (reader.at + 1, reader.column);
    if raw == 0 && run >= 16 {
        let step = if MISTAKE == LONG_RUN_STEP_OF_32 { 32 } else { 48 };
        reader.fill::<MISTAKE>(column, step, reader.last);
        return reader.last;
    }
    let last = match MISTAKE {
        LAST_FROM_BEHIND => slices.read(first + 14),
        LAST_WITHOUT_RAW => slices.read(reader.at + raw),
        _ if raw == 0 => reader.last,
        _ => slices.read(reader.at + raw),
    };
    let copies = if MISTAKE == RUN_STEP_OF_8 { 8 } else { 16 };
    if MISTAKE == RUN_BEFORE_RAW {
        reader.fill::<MISTAKE>(column + raw, copies, last);
    }
    for i in 0..16 {
        reader.codes[column + i] = slices.read(first + i);
    }
    if run > 0 && MISTAKE != RUN_BEFORE_RAW {
        reader.fill::<MISTAKE>(column + raw, copies, last);
    }
    last
}

/// Writes a segment's own values, and returns the last byte after it.
fn own_values(slices: &Slices, reader: &mut Reader, raw: usize, run: usize) -> u8 {
    let first = reader.at + 1;
    for i in 0..raw {
        reader.codes[reader.column + i] = slices.read(first + i);
    }
    let last = if raw > 0 { slices.read(first + raw - 1) } else { reader.last };
    reader.fill::<RIGHT>(reader.column + raw, run, last);
    last
}

/// Reads a segment into the row. The answer is the refusal and whether the segment was written in steps.
fn segment<const MISTAKE: u8>(slices: &Slices, reader: &mut Reader, width: usize) -> Result<(), (i64, bool)> {
    if reader.at >= slices.src_len {
        return Err((7, false));
    }
    let left = slices.src_len - reader.at;
    let control = slices.read(reader.at);
    let (raw, mut run) = counts(control);
    let steps = by_steps::<MISTAKE>(left, raw);
    if control == 0 && !(MISTAKE == ZERO_CONTROL_TAKEN && steps) {
        return Err((8, steps));
    }
    if left <= raw {
        return Err((7, steps));
    }
    let last = if steps { step::<MISTAKE>(slices, reader, raw, run) } else { own_values(slices, reader, raw, run) };
    match MISTAKE {
        LONG_RUN_IS_48 if steps && raw == 0 && run >= 16 => run = 48,
        LITERAL_OF_16 if steps && control == 0xF0 => run = 1,
        _ => {}
    }
    let needed = if MISTAKE == STEP_MUST_FIT && steps { (raw + run).max(16) } else { raw + run };
    if width < reader.column + needed {
        return Err((9, steps));
    }
    reader.last = last;
    reader.at += 1 + raw;
    reader.column += raw + run;
    Ok(())
}

/// Copies so many of the row's coded values to the plane.
fn copy_codes(slices: &Slices, reader: &Reader, start: usize, count: usize) {
    (0..count).for_each(|i| slices.write(start + i, reader.codes[i]));
}

/// The same with the delta code undone below these values.
fn copy_undone(slices: &Slices, reader: &Reader, start: usize, count: usize, above: impl Fn(usize) -> u8) {
    (0..count).for_each(|i| slices.write(start + i, above(i).wrapping_add(undelta(reader.codes[i]))));
}

/// What a refused row leaves in the plane.
fn copy_refused<const MISTAKE: u8>(slices: &Slices, reader: &Reader, start: usize, width: usize, steps: bool) {
    let column = reader.column;
    match MISTAKE {
        REFUSED_ROW_AND_A_STEP if steps => copy_codes(slices, reader, start, width.min(column + 16)),
        REFUSED_ROW_WHOLE => copy_codes(slices, reader, start, width),
        REFUSED_ROW_UNDONE if steps && start > 0 => {
            copy_undone(slices, reader, start, column, |i| slices.sample(start - width + i));
        }
        _ => copy_codes(slices, reader, start, column),
    }
}

/// What a full row leaves in the plane. `above` has the codes of the row above.
fn copy_full<const MISTAKE: u8>(slices: &Slices, reader: &Reader, above: &[u8], start: usize, is_last: bool) {
    let width = reader.column;
    match (MISTAKE, start) {
        (FIRST_ROW_UNDONE, 0) => copy_undone(slices, reader, 0, width, |_| 0),
        (_, 0) => copy_codes(slices, reader, 0, width),
        (LAST_ROW_AS_CODES, _) if is_last => copy_codes(slices, reader, start, width),
        (CODES_ABOVE, _) => copy_undone(slices, reader, start, width, |i| above[i]),
        (ROWS_IN_STEPS, _) => {
            let count = width.next_multiple_of(16).min(slices.dst_len - start);
            copy_undone(slices, reader, start, count, |i| slices.sample(start - width + i));
        }
        _ => copy_undone(slices, reader, start, width, |i| slices.sample(start - width + i)),
    }
}

/// Reads one row. The answer is 0, or the refusal.
fn row<const MISTAKE: u8>(slices: &Slices, reader: &mut Reader, width: usize, (at, height): (usize, usize)) -> i64 {
    let above = reader.codes[..width].to_vec();
    reader.column = 0;
    if MISTAKE != LAST_BYTE_CARRIED || slices.src_len < reader.at + STEP_NEEDS {
        reader.last = 0;
    }
    while reader.column < width {
        if let Err((number, steps)) = segment::<MISTAKE>(slices, reader, width) {
            copy_refused::<MISTAKE>(slices, reader, at * width, width, steps);
            return number;
        }
    }
    copy_full::<MISTAKE>(slices, reader, &above, at * width, at + 1 == height);
    0
}

/// An unpacker with one mistake, or with none.
struct Unpacker<const MISTAKE: u8>;

impl<const MISTAKE: u8> Call for Unpacker<MISTAKE> {
    fn call(slices: Slices, width: usize, height: usize) -> i64 {
        let large = width > MAX_SIDE || height > MAX_SIDE;
        let short = slices.dst_len < width.saturating_mul(height);
        let refused = first_refused([(width == 0 || height == 0, 1), (large, 2), (short, 10)], [0, 1, 2]);
        if refused != 0 {
            return -refused;
        }
        let mut reader = Reader { at: 0, last: 0, column: 0, codes: [0; MAX_SIDE + 64] };
        for at in 0..height {
            let refused = row::<MISTAKE>(&slices, &mut reader, width, (at, height));
            if refused != 0 {
                return -refused;
            }
        }
        reader.at as i64
    }
}

/// The fixed cases are those of boundary lengths alone: shorter bodies have no place for a step.
const SEARCH: Search = unpacking_search(boundary::run);

fn is_found(unpacker: Function, smallest: &str) {
    SEARCH.finds(with_unpacker(unpacker), smallest);
}

#[test]
fn a_right_unpacker_has_no_difference() {
    SEARCH.finds_nothing(with_unpacker(exported::<Unpacker<RIGHT>>));
}

#[test]
fn a_refused_row_with_a_step_more() {
    is_found(exported::<Unpacker<REFUSED_ROW_AND_A_STEP>>, "pu 1 1 00*17 EE");
}

#[test]
fn a_refused_row_filled_from_the_array() {
    is_found(exported::<Unpacker<REFUSED_ROW_WHOLE>>, "pu 1 1 - EE");
}

#[test]
fn a_refused_row_with_the_delta_undone() {
    is_found(exported::<Unpacker<REFUSED_ROW_UNDONE>>, "pu 4 2 40000001000300*17 EE*8");
}

#[test]
fn a_row_copied_in_steps_past_its_end() {
    is_found(exported::<Unpacker<ROWS_IN_STEPS>>, "pu 1 2 10001000 EEEEEE");
}

#[test]
fn the_first_row_undone() {
    is_found(exported::<Unpacker<FIRST_ROW_UNDONE>>, "pu 1 1 1001 EE");
}

#[test]
fn the_last_row_left_as_codes() {
    is_found(exported::<Unpacker<LAST_ROW_AS_CODES>>, "pu 1 2 10011000 EEEE");
}

#[test]
fn a_row_undone_below_codes() {
    is_found(exported::<Unpacker<CODES_ABOVE>>, "pu 4 3 03100104300000001000 EE*12");
}

#[test]
fn a_long_run_counted_as_its_step() {
    is_found(exported::<Unpacker<LONG_RUN_IS_48>>, "pu 16 1 0100*16 EE*16");
}

#[test]
fn a_long_run_longer_than_its_step() {
    is_found(exported::<Unpacker<LONG_RUN_STEP_OF_32>>, "pu 33 2 F000*14,01211200*16 EE*66");
}

#[test]
fn a_short_run_longer_than_its_step() {
    is_found(exported::<Unpacker<RUN_STEP_OF_8>>, "pu 9 1 0900*8,0100*7 EE*9");
}

#[test]
fn the_run_written_before_the_raw_bytes() {
    is_found(exported::<Unpacker<RUN_BEFORE_RAW>>, "pu 3 1 0300000100*13 EEEEEE");
}

#[test]
fn a_literal_counted_as_its_step() {
    is_found(exported::<Unpacker<LITERAL_OF_16>>, "pu 15 1 F000*16 EE*15");
}

#[test]
fn the_last_byte_taken_from_behind_the_raw_bytes() {
    is_found(exported::<Unpacker<LAST_FROM_BEHIND>>, "pu 3 1 0300*14,0100 EEEEEE");
}

#[test]
fn the_last_byte_changed_without_raw_bytes() {
    is_found(exported::<Unpacker<LAST_WITHOUT_RAW>>, "pu 3 1 0300*16 EEEEEE");
}

#[test]
fn the_last_byte_carried_into_a_row_that_begins_with_a_step() {
    is_found(exported::<Unpacker<LAST_BYTE_CARRIED>>, "pu 3 2 300000010300*16 EE*6");
}

#[test]
fn a_segment_refused_because_its_step_does_not_fit() {
    is_found(exported::<Unpacker<STEP_MUST_FIT>>, "pu 7 1 7000*16 EE*7");
}

#[test]
fn control_byte_0_taken_in_a_step() {
    is_found(exported::<Unpacker<ZERO_CONTROL_TAKEN>>, "pu 1 1 000100*15 EE");
}

#[test]
fn a_step_with_one_byte_too_few_left() {
    is_found(exported::<Unpacker<STEP_WITH_16_LEFT>>, "pu 1 1 0300*15 EE");
}

#[test]
fn steps_up_to_the_end_of_the_body() {
    is_found(exported::<Unpacker<STEP_EVERYWHERE>>, "pu 1 1 03 EE");
}

#[test]
fn no_room_for_a_step_behind_the_longest_row() {
    is_found(exported::<Unpacker<ARRAY_OF_8192>>, "pu 8162 1 F000*14,01F2*173,0100*16 EE*8162");
}
