//! The comparer must find every one of these mistakes in a packer that searches a row for runs by words of flags, and writes its segments to
//! an array in copies of 16 bytes. The stored cases must find them, too.

mod support;

use comparer::packing::places;
use comparer::planes::segment_starts;
use comparer::Function;
use std::ops::Range;
use support::packer::{by_segments, search, Array, Arrays, Packer, Right, NARROW, WORD};
use support::{exported, packing_search, stored, with_packer, Search, Slices};

/// The fixed cases are those of runs at every place alone: most other planes have rows that are too short for a search.
const SEARCH: Search = packing_search(places::run);

fn is_found_by_stored_cases(packer: Function) {
    assert!(stored::difference_in(packer).is_some(), "the stored cases find nothing");
}

#[test]
fn a_right_packer_has_no_difference() {
    SEARCH.finds_nothing(with_packer(exported::<Right>));
    assert_eq!(stored::difference_in(exported::<Right>), None);
}

/// A packer that does some steps differently, and the smallest input that shows it. Random cases need not find it with `finds_in_fixed`.
macro_rules! wrong {
    ($name:ident, $smallest:literal, $steps:tt) => {
        wrong!(finds, $name, $smallest, $steps);
    };
    ($finds:ident, $name:ident, $smallest:literal, { $($steps:tt)* }) => {
        #[test]
        fn $name() {
            struct Wrong;
            impl Packer for Wrong {
                $($steps)*
            }
            SEARCH.$finds(with_packer(exported::<Wrong>), $smallest);
            is_found_by_stored_cases(exported::<Wrong>);
        }
    };
}

// The flags.

wrong!(a_flag_one_place_early, "pp 32 1 0001*31 EE*6", {
    fn is_flagged(codes: &Array, at: usize) -> bool {
        Right::is_flagged(codes, at + 1)
    }
});

wrong!(a_flag_one_place_late, "pp 32 1 00*32 EE*5", {
    fn is_flagged(codes: &Array, at: usize) -> bool {
        at > 0 && Right::is_flagged(codes, at - 1)
    }
});

wrong!(three_repeats_taken_as_no_run, "pp 32 1 01*32 EE*6", {
    fn is_flagged(codes: &Array, at: usize) -> bool {
        (1..5).all(|next| codes.get(at + next) == codes.get(at))
    }
});

wrong!(two_repeats_taken_as_a_run, "pp 32 1 00*27,0100*4 EE*6", {
    fn is_flagged(codes: &Array, at: usize) -> bool {
        (1..3).all(|next| codes.get(at + next) == codes.get(at))
    }
});

wrong!(flags_kept_from_the_row_above, "pp 32 2 00*46,0100*17 EE*6", {
    fn flag_runs(arrays: &mut Arrays) {
        for at in (0..arrays.width).filter(|&at| Right::is_flagged(&arrays.codes, at)) {
            arrays.flags.set(at, 1);
        }
    }
});

wrong!(flags_of_complete_words_alone, "pp 36 1 00*36 EE*5", {
    fn flag_runs(arrays: &mut Arrays) {
        for at in 0..arrays.width / WORD * WORD {
            let flag = Right::is_flagged(&arrays.codes, at);
            arrays.flags.set(at, flag.into());
        }
    }
});

// The search.

wrong!(a_run_one_short, "pp 32 1 01*32 EE*6", {
    fn run_end(flags: &Array, run: usize, width: usize) -> usize {
        width.min(Right::next_clear(flags, run..width) + 2)
    }
});

wrong!(a_run_one_long, "pp 32 1 00*27,0100*4 EE*6", {
    fn run_end(flags: &Array, run: usize, width: usize) -> usize {
        width.min(Right::next_clear(flags, run..width) + 4)
    }
});

wrong!(a_run_at_the_rows_end_one_short, "pp 32 1 00*32 EE*6", {
    fn run_end(flags: &Array, run: usize, width: usize) -> usize {
        let end = Right::run_end(flags, run, width);
        if end == width {
            end - 1
        } else {
            end
        }
    }
});

wrong!(zeros_behind_the_row_taken_as_repeats, "pp 32 1 00*28,01000000 EE*7", {
    fn is_behind_the_last(run: usize, width: usize) -> bool {
        width <= run
    }
});

wrong!(a_run_that_passes_the_row, "pp 32 1 00*32 EEEEEE", {
    fn run_end(flags: &Array, run: usize, width: usize) -> usize {
        Right::next_clear(flags, run..width) + 3
    }
});

wrong!(the_next_row_taken_as_repeats, "pp 32 1 00*28,0100*4 EE*7", {
    fn code_row(slices: &Slices, arrays: &mut Arrays, row: usize) {
        let width = arrays.width;
        Right::code_row(slices, arrays, row);
        for column in width..width + 3 {
            // Where no row follows, what is there does not go on with a run.
            let follows = row * width + column < slices.src_len;
            let other = !arrays.codes.get(width - 1);
            arrays.codes.set(column, if follows { Right::code(slices, width, row, column) } else { other });
        }
    }

    fn is_behind_the_last(run: usize, width: usize) -> bool {
        width <= run
    }
});

wrong!(the_last_flag_of_a_word, "pp 32 1 00*32 EE*11", {
    fn next_set(flags: &Array, places: Range<usize>) -> usize {
        let end = places.end;
        places.step_by(WORD).find_map(|word| (word..word + WORD).rfind(|&at| flags.get(at) == 1)).unwrap_or(end)
    }
});

wrong!(flags_before_the_search_in_its_word, "pp 32 1 00*20,0100*11 EE*8", {
    fn next_set(flags: &Array, places: Range<usize>) -> usize {
        let from = places.start;
        search(flags, from / WORD * WORD..places.end, 1).max(from)
    }
});

wrong!(a_run_cut_behind_its_first_word, "pp 32 1 00*32 EE*6", {
    fn next_clear(flags: &Array, places: Range<usize>) -> usize {
        let end = places.end.min(places.start + WORD);
        search(flags, places.start..end, 0)
    }
});

wrong!(a_run_cut_at_the_last_complete_word, "pp 32 1 0100*31 EE*9", {
    fn next_clear(flags: &Array, places: Range<usize>) -> usize {
        let words = places.len() / WORD * WORD;
        search(flags, places.start..places.start + words, 0)
    }
});

wrong!(a_run_behind_the_last_complete_word_not_found, "pp 32 1 00*26,0100*5 EE*11", {
    fn next_set(flags: &Array, places: Range<usize>) -> usize {
        let words = places.len() / WORD * WORD;
        let found = search(flags, places.start..places.start + words, 1);
        if found < places.start + words {
            found
        } else {
            places.end
        }
    }
});

wrong!(flags_skipped_by_the_first_of_four_words, "pp 32 1 000000010000000100*24 EE*35", {
    fn next_set(flags: &Array, places: Range<usize>) -> usize {
        let mut from = places.start;
        while from + 4 * WORD <= places.end && search(flags, from..from + WORD, 1) == from + WORD {
            from += 4 * WORD;
        }
        search(flags, from..places.end, 1)
    }
});

wrong!(a_run_that_goes_on_by_the_last_of_four_words, "pp 35 1 00*24,01*11 EEEEEE", {
    fn next_clear(flags: &Array, places: Range<usize>) -> usize {
        let mut from = places.start;
        while from + 4 * WORD <= places.end && search(flags, from + 3 * WORD..from + 4 * WORD, 0) == from + 4 * WORD {
            from += 4 * WORD;
        }
        search(flags, from..places.end, 0)
    }
});

// The segments.

// Flag i stands at byte 16 + i of the array that the segments are written to. That is too near: they take more bytes than they have values.
wrong!(flags_overwritten_by_segments, "pp 69 1 00000001000100000001000001000000010001000000010000010000000100000100000001000001000000010000010000000100010000000100000100*4,0100*4 EE*72", {
    fn put_segment(arrays: &mut Arrays, raw: Range<usize>, run: usize, at: usize) -> usize {
        let to = Right::put_segment(arrays, raw, run, at);
        for flag in 0..to {
            arrays.flags.set(flag, arrays.packed.get(16 + flag));
        }
        to
    }
});

wrong!(fifteen_raw_bytes_without_their_run, "pp 32 1 00*17,010000010000000100000100000001 EE*21", {
    fn is_split(raw: usize) -> bool {
        raw >= 15
    }
});

wrong!(the_runs_first_byte_lost_behind_fourteen, "pp 32 1 000000010000010000000100000100*18 EE*18", {
    fn put_literal(arrays: &mut Arrays, from: usize, count: usize, run: usize, at: usize) -> usize {
        let kept = if run > 0 { count.min(14) } else { count };
        Right::put_literal(arrays, from, kept, run, at)
    }
});

wrong!(raw_bytes_copied_by_eights, "pp 32 1 00*13,0100*5,01010000000100000100*4 EE*16", {
    fn copy_raw(arrays: &mut Arrays, from: usize, at: usize) {
        (0..8).for_each(|i| arrays.packed.set(at + i, arrays.codes.get(from + i)));
    }
});

wrong!(no_copy_that_would_pass_the_row, "pp 32 1 00*27,0100*4 EE*7", {
    fn copy_raw(arrays: &mut Arrays, from: usize, at: usize) {
        if from + 16 <= arrays.width {
            Right::copy_raw(arrays, from, at);
        }
    }
});

wrong!(the_last_1_to_3_of_a_long_run_as_a_run, "pp 32 1 00*19,0100*12 EE*7", {
    fn raw_of_rest(_left: usize) -> usize {
        1
    }
});

wrong!(segments_behind_those_of_the_row_above, "pp 32 2 00*64 EE*9", {
    fn first_byte(arrays: &Arrays) -> usize {
        arrays.count
    }
});

// The destination.

wrong!(a_row_copied_without_room, "pp 32 1 00*32 -", {
    fn write_short_of_room(slices: &mut Slices, arrays: &Arrays, to: usize, count: usize) -> Result<usize, i64> {
        Right::copy_row(slices, arrays, to, count);
        Ok(to + count)
    }
});

wrong!(half_a_segment_before_refusal_12, "pp 32 1 00*32 EE", {
    fn write_short_of_room(slices: &mut Slices, arrays: &Arrays, to: usize, _count: usize) -> Result<usize, i64> {
        Right::copy_row(slices, arrays, to, slices.dst_len - to);
        Err(12)
    }
});

wrong!(a_truncated_row_as_if_it_were_complete, "pp 32 1 00*32 -", {
    fn write_short_of_room(slices: &mut Slices, arrays: &Arrays, to: usize, _count: usize) -> Result<usize, i64> {
        Right::copy_row(slices, arrays, to, slices.dst_len - to);
        Ok(slices.dst_len)
    }
});

wrong!(nothing_of_a_refused_row, "pp 32 1 00*32 EEEE", {
    fn write_short_of_room(_slices: &mut Slices, _arrays: &Arrays, _to: usize, _count: usize) -> Result<usize, i64> {
        Err(12)
    }
});

wrong!(a_refused_row_and_what_a_copy_has_behind_it, "pp 32 1 00*27,0100*4 EEEEEE", {
    fn write_short_of_room(slices: &mut Slices, arrays: &Arrays, to: usize, count: usize) -> Result<usize, i64> {
        let room = slices.dst_len - to;
        let starts = segment_starts(arrays.packed.first(count));
        let fits = starts.into_iter().rfind(|&start| start <= room).unwrap_or(0);
        Right::copy_row(slices, arrays, to, room.min(fits.next_multiple_of(16)));
        Err(12)
    }
});

wrong!(a_refused_row_from_the_start, "pp 32 2 00*64 EEEEEE", {
    fn write_short_of_room(slices: &mut Slices, arrays: &Arrays, _to: usize, _count: usize) -> Result<usize, i64> {
        by_segments(slices, arrays, 0)
    }
});

wrong!(a_row_copied_by_sixteens, "pp 32 1 00*32 EE*4", {
    fn copy_row(slices: &Slices, arrays: &Arrays, to: usize, count: usize) {
        let room = slices.dst_len - to;
        Right::copy_row(slices, arrays, to, room.min(count.next_multiple_of(16)));
    }
});

// The rows.

wrong!(the_first_row_above_every_row, "pp 1 3 000100 EE*6", {
    fn row_above(row: usize) -> Option<usize> {
        (row > 0).then_some(0)
    }
});

wrong!(the_row_two_above, "pp 1 3 000100 EE*6", {
    fn row_above(row: usize) -> Option<usize> {
        (row > 0).then(|| row.saturating_sub(2))
    }
});

wrong!(the_row_above_itself, "pp 1 2 0001 EE*4", {
    fn row_above(row: usize) -> Option<usize> {
        (row > 0).then_some(row)
    }
});

wrong!(the_first_row_coded_too, "pp 1 1 01 EEEE", {
    fn row_above(row: usize) -> Option<usize> {
        Some(row.saturating_sub(1))
    }
});

wrong!(the_last_codes_of_the_row_above, "pp 1 2 0001 EE*4", {
    fn code_row(slices: &Slices, arrays: &mut Arrays, row: usize) {
        let width = arrays.width;
        let stale: Vec<u8> = (0..width).map(|at| arrays.codes.get(at)).collect();
        Right::code_row(slices, arrays, row);
        if row > 0 {
            (width / WORD * WORD..width).for_each(|at| arrays.codes.set(at, stale[at]));
        }
    }
});

// The arrays.

wrong!(finds_in_fixed, a_row_of_257_in_the_arrays_of_256, "pp 257 1 00*256,01 EE*9", {
    fn longest(width: usize) -> usize {
        if width <= NARROW + 1 {
            NARROW
        } else {
            Right::longest(width)
        }
    }
});

wrong!(finds_in_fixed, no_room_for_a_word_behind_the_longest_row, "pp 253 1 00*249,01*4 EE*12", {
    fn next_set(flags: &Array, places: Range<usize>) -> usize {
        let (end, longest) = (places.end, Right::longest(places.end));
        let mut words = places.step_by(WORD).filter(|word| word + WORD <= longest);
        words.find_map(|word| (word..word + WORD).find(|&at| flags.get(at) == 1)).unwrap_or(end)
    }
});

/// Only rows without runs show it, which are too long to be written here.
#[test]
fn no_room_for_control_bytes() {
    struct Wrong;
    impl Packer for Wrong {
        fn arrays(width: usize) -> Arrays {
            Arrays { packed: Array::new(Right::longest(width)), ..Right::arrays(width) }
        }
    }
    assert!(SEARCH.difference_in(with_packer(exported::<Wrong>)).is_some());
    is_found_by_stored_cases(exported::<Wrong>);
}

/// The stored cases are not tried: what replays them has no forbidden pages.
#[test]
fn a_row_read_by_sixteens_past_the_source() {
    struct Wrong;
    impl Packer for Wrong {
        fn code_row(slices: &Slices, arrays: &mut Arrays, row: usize) {
            let width = arrays.width;
            (width..width.next_multiple_of(16)).for_each(|column| {
                slices.read(row * width + column);
            });
            Right::code_row(slices, arrays, row);
        }
    }
    SEARCH.finds(with_packer(exported::<Wrong>), "pp 1 1 00 -");
}
