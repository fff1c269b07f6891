//! The comparer must find every one of these mistakes in a picture decoder, and none in a right one.

#[macro_use]
mod support;

use comparer::case::MAX_SIDE;
use comparer::picture::case::{ARGB, AYCOCG};
use comparer::picture::fixed;
use comparer::picture::random::Random;
use comparer::picture::Form;
use comparer::{Extent, Library};
use support::decoder::{min_plane, pictures, unpacked, Call, Decoder, Right};
use support::{Search, RIGHT_LIBRARY};

const SEARCH: Search = Search {
    fixed: fixed::run,
    random: |seed| {
        let mut random = Random::new(seed, Extent::Body);
        Box::new(move |comparer| random.round(comparer))
    },
    rounds: 500,
    alone: 20_000,
};

/// The decoder beside right coders of planes.
fn with<D: Decoder>() -> Library {
    Library { pictures: pictures::<D>(), ..RIGHT_LIBRARY }
}

#[test]
fn a_right_decoder_has_no_difference() {
    SEARCH.finds_nothing(with::<Right>());
}

/// A decoder that does some steps differently, and the smallest input that shows it.
macro_rules! wrong {
    ($($mistake:tt)*) => {
        wrong_function!(Decoder, with, $($mistake)*);
    };
}

// Colours.

wrong!(chroma_widened_before_the_multiplication, "iu 1 1 0 0 2:0 004000 - EEEEEE", {
    fn chroma(level: u32, byte: u8) -> i32 {
        i32::from(byte as i8) << (level - 1)
    }
});

wrong!(the_sign_forgotten, "iu 1 1 0 0 2:0 004000 - EEEEEE", {
    fn chroma(level: u32, byte: u8) -> i32 {
        i32::from(byte << (level - 1))
    }
});

wrong!(the_level_one_too_high, "iu 1 1 0 0 1:0 000001 - EEEEEE", {
    fn chroma(level: u32, byte: u8) -> i32 {
        i32::from((byte << level) as i8)
    }
});

wrong!(the_level_one_too_low, "iu 1 1 0 0 1:0 000001 - EEEEEE", {
    fn chroma(level: u32, byte: u8) -> i32 {
        i32::from((byte << (level - 1)) as i8) / 2
    }
});

wrong!(the_level_without_effect, "iu 1 1 0 0 2:0 000100 - EEEEEE", {
    fn chroma(_level: u32, byte: u8) -> i32 {
        i32::from(byte as i8)
    }
});

wrong!(red_and_blue_never_swapped, "iu 1 1 0 0 1:0 000100 - EEEEEE", {
    fn keeps_order(_form: Form) -> bool {
        true
    }
});

wrong!(red_and_blue_swapped_with_alpha, "iu 1 1 0 0 1:0 000100 - EEEEEE", {
    fn keeps_order(form: Form) -> bool {
        !form.alpha
    }
});

wrong!(red_and_blue_always_swapped, "iu 1 1 0 1 1:0 00000100 - EEEEEE", {
    fn keeps_order(_form: Form) -> bool {
        false
    }
});

wrong!(red_and_blue_swapped_in_argb_too, "iu 1 1 0 0 argb 000001 - EEEEEE", {
    fn argb(form: Form, [first, second, third]: [u8; 3]) -> [u8; 3] {
        if form.alpha {
            [first, second, third]
        } else {
            [third, second, first]
        }
    }
});

wrong!(no_clipping, "iu 1 1 0 0 1:0 000100 - EEEEEE", {
    fn clip(value: i32) -> u8 {
        value as u8
    }
});

wrong!(no_clipping_at_0, "iu 1 1 0 0 1:0 000100 - EEEEEE", {
    fn clip(value: i32) -> u8 {
        value.min(255) as u8
    }
});

wrong!(clipping_at_254, "iu 1 1 0 0 1:0 007F80 - EEEEEE", {
    fn clip(value: i32) -> u8 {
        value.clamp(0, 254) as u8
    }
});

wrong!(clipping_to_1, "iu 1 1 0 0 1:0 000000 - EEEEEE", {
    fn clip(value: i32) -> u8 {
        value.clamp(1, 255) as u8
    }
});

wrong!(clipping_before_the_last_addition, "iu 1 1 0 0 1:0 000101 - EEEEEE", {
    fn convert(y: i32, co: i32, cg: i32) -> [i32; 3] {
        let t = (y - cg).clamp(0, 255);
        [t + co, y + cg, t - co]
    }
});

wrong!(co_and_cg_exchanged, "iu 1 1 0 0 1:0 000001 - EEEEEE", {
    fn convert(y: i32, cg: i32, co: i32) -> [i32; 3] {
        let t = y - cg;
        [t + co, y + cg, t - co]
    }
});

wrong!(cg_subtracted_from_green, "iu 1 1 0 0 1:0 000001 - EEEEEE", {
    fn convert(y: i32, co: i32, cg: i32) -> [i32; 3] {
        let t = y - cg;
        [t + co, y - cg, t - co]
    }
});

// Subsampling.

wrong!(chroma_sides_rounded_down, "iu 1 1 0 0 1:1 00 - -", {
    fn chroma_sides(call: &Call) -> (usize, usize) {
        let shift = u32::from(Self::is_subsampled(call.form));
        (call.width >> shift, call.height >> shift)
    }
});

wrong!(chroma_columns_not_halved, "iu 2 1 0 0 1:1 00000100 - EE*6", {
    fn chroma_index(call: &Call, row: usize, column: usize) -> usize {
        let (across, _) = Self::chroma_sides(call);
        (row >> u32::from(Self::is_subsampled(call.form))) * across + column
    }
});

wrong!(chroma_rows_not_halved, "iu 1 2 0 0 1:1 00000100 - EE*6", {
    fn chroma_index(call: &Call, row: usize, column: usize) -> usize {
        let (across, _) = Self::chroma_sides(call);
        row * across + (column >> u32::from(Self::is_subsampled(call.form)))
    }
});

wrong!(chroma_columns_halved_upward, "iu 2 1 0 0 1:1 00000100 - EE*6", {
    fn chroma_index(call: &Call, row: usize, column: usize) -> usize {
        let (across, _) = Self::chroma_sides(call);
        if Self::is_subsampled(call.form) {
            row / 2 * across + column.div_ceil(2)
        } else {
            row * across + column
        }
    }
});

wrong!(chroma_rows_halved_upward, "iu 1 2 0 0 1:1 00000100 - EE*6", {
    fn chroma_index(call: &Call, row: usize, column: usize) -> usize {
        let (across, _) = Self::chroma_sides(call);
        if Self::is_subsampled(call.form) {
            row.div_ceil(2) * across + column / 2
        } else {
            row * across + column
        }
    }
});

wrong!(chroma_rows_as_long_as_the_pictures, "iu 2 3 0 0 1:1 00*8,0100 - EE*18", {
    fn chroma_index(call: &Call, row: usize, column: usize) -> usize {
        let shift = u32::from(Self::is_subsampled(call.form));
        (row >> shift) * call.width + (column >> shift)
    }
});

// Chroma samples found by counting. A counter that runs too far is kept within the plane.

wrong!(the_last_column_of_an_odd_width_from_the_next_chroma_row, "iu 1 3 0 0 1:1 00*5,0100 - EE*9", {
    fn chroma_index(call: &Call, row: usize, column: usize) -> usize {
        let index = Right::chroma_index(call, row, column);
        let (across, down) = Self::chroma_sides(call);
        let last = Self::is_subsampled(call.form) && call.width % 2 == 1 && column + 1 == call.width;
        (index + if last { across } else { 0 }).min(across * down - 1)
    }
});

wrong!(the_chroma_column_not_put_back_at_the_start_of_a_row, "iu 3 2 0 0 1:1 00*8,0100 - EE*18", {
    fn chroma_index(call: &Call, row: usize, column: usize) -> usize {
        let index = Right::chroma_index(call, row, column);
        let (across, down) = Self::chroma_sides(call);
        let passed = if Self::is_subsampled(call.form) { row * (call.width / 2) } else { 0 };
        (index + passed).min(across * down - 1)
    }
});

wrong!(argb_subsampled_by_the_flag, "iu 2 1 0 0 argb:0:1 00*4 - -", {
    fn is_subsampled(form: Form) -> bool {
        form.subsampled
    }
});

wrong!(subsampling_forgotten, "iu 2 1 0 0 1:1 00*4 - -", {
    fn is_subsampled(_form: Form) -> bool {
        false
    }
});

// Alpha.

wrong!(alpha_unpacked_behind_the_planes, "iu 1 1 1 1 argb 10000000 EEEEEE EEEEEE", {
    fn unpack_alpha(call: &mut Call) -> Result<usize, i64> {
        let behind = Self::colour_len(call);
        if call.work.len < behind + call.full() {
            let body = call.body.bytes().to_vec();
            return unpacked(&body, &mut vec![0; call.full()], (call.width, call.height));
        }
        Self::unpack_plane(call, 0, behind, (call.width, call.height))
    }
});

wrong!(alpha_unpacked_to_nowhere, "iu 1 1 1 1 argb 10000000 EEEEEE EEEEEE", {
    fn unpack_alpha(call: &mut Call) -> Result<usize, i64> {
        let body = call.body.bytes().to_vec();
        unpacked(&body, &mut vec![0; call.full()], (call.width, call.height))
    }
});

wrong!(alpha_back_when_the_first_colour_plane_is_refused, "iu 2 1 1 1 argb 100010001001 EE*6 EE*6", {
    fn unpack_planes(call: &mut Call) -> Result<(), i64> {
        let sides = (call.width, call.height);
        if !call.form.alpha {
            return Right::unpack_planes(call);
        }
        let read = Self::unpack_alpha(call)?;
        let alpha = call.work.bytes()[..call.full()].to_vec();
        let first = Self::unpack_plane(call, read, 0, sides);
        if first.is_err() {
            call.work.bytes_mut()[..alpha.len()].copy_from_slice(&alpha);
        }
        first?;
        Right::unpack_planes(call)
    }
});

wrong!(alpha_cleared_before_the_first_colour_plane, "iu 2 1 1 1 argb 10001001 EE*6 EE*6", {
    fn unpack_alpha(call: &mut Call) -> Result<usize, i64> {
        let read = Self::unpack_plane(call, 0, 0, (call.width, call.height))?;
        let full = call.full();
        call.work.bytes_mut()[..full].fill(0);
        Ok(read)
    }
});

wrong!(alpha_not_skipped_in_a_raw_picture, "iu 1 1 0 1 argb 01000000 - EEEEEE", {
    fn raw_start(_call: &Call) -> usize {
        0
    }
});

// Planes.

wrong!(a_plane_started_a_byte_late, "iu 1 1 1 0 argb 100000 EEEEEE EEEEEE", {
    fn next_plane(_call: &Call, at: usize, _sides: (usize, usize)) -> usize {
        at + 1
    }
});

wrong!(a_plane_started_a_byte_early, "iu 1 1 1 0 argb 100100 EEEEEE EEEEEE", {
    fn next_plane(_call: &Call, at: usize, _sides: (usize, usize)) -> usize {
        at.saturating_sub(1)
    }
});

wrong!(a_plane_started_behind_the_minimum_size, "iu 1 1 1 0 argb 100100 EEEEEE EEEEEE", {
    fn unpack_plane(call: &mut Call, from: usize, to: usize, sides: (usize, usize)) -> Result<usize, i64> {
        Right::unpack_plane(call, from, to, sides)?;
        Ok(min_plane(sides))
    }
});

wrong!(full_offsets_if_subsampled, "iu 2 1 0 0 1:1 00000001 - EE*6", {
    fn offsets(call: &Call) -> [usize; 3] {
        [0, call.full(), 2 * call.full()]
    }
});

wrong!(second_and_third_plane_exchanged_in_the_work_area, "iu 1 1 1 0 argb 10001000 EEEEEE EEEEEE", {
    fn offsets(call: &Call) -> [usize; 3] {
        let [first, second, third] = Right::offsets(call);
        if call.form.rle {
            [first, third, second]
        } else {
            [first, second, third]
        }
    }
});

wrong!(planes_one_sample_apart, "iu 1 1 1 0 argb 100010001000 EE*4 EEEEEE", {
    fn offsets(call: &Call) -> [usize; 3] {
        let [first, second, third] = Right::offsets(call);
        [first, second, third + usize::from(call.form.rle && call.work.len > Self::colour_len(call))]
    }
});

wrong!(the_work_area_left_as_it_was, "iu 1 1 1 0 argb 100010001000 EEEEEE EEEEEE", {
    fn decode(call: &mut Call) -> i64 {
        let earlier = call.work.bytes().to_vec();
        let answer = Right::decode(call);
        if answer > 0 {
            call.work.bytes_mut().copy_from_slice(&earlier);
        }
        answer
    }
});

wrong!(a_refused_picture_with_a_clean_work_area, "iu 1 1 1 0 argb 000000 EEEEEE EEEEEE", {
    fn after_refusal(call: &mut Call, _number: i64) {
        call.work.bytes_mut().fill(0);
    }
});

wrong!(a_refused_third_plane_taken_back, "iu 2 1 1 0 argb 2000002000001000 EE*6 EE*6", {
    fn unpack_planes(call: &mut Call) -> Result<(), i64> {
        let from = Self::offsets(call)[2];
        let earlier = call.work.bytes()[from..].to_vec();
        let outcome = Right::unpack_planes(call);
        // Only if the two planes before it are complete.
        let body = call.body.bytes().to_vec();
        let (full, chroma) = ((call.width, call.height), Self::chroma_sides(call));
        let planes = [full, full, chroma].into_iter().skip(usize::from(!call.form.alpha));
        let mut at = 0;
        for sides in planes {
            at += unpacked(&body[at..], &mut vec![0; sides.0 * sides.1], sides)?;
        }
        if outcome.is_err() {
            call.work.bytes_mut()[from..].copy_from_slice(&earlier);
        }
        outcome
    }
});

wrong!(refusal_7_for_every_plane_that_is_refused, "iu 1 1 1 0 argb 000000 EEEEEE EEEEEE", {
    fn unpack_plane(call: &mut Call, from: usize, to: usize, sides: (usize, usize)) -> Result<usize, i64> {
        Right::unpack_plane(call, from, to, sides).map_err(|_| 7)
    }
});

wrong!(bytes_behind_the_planes_refused, "iu 1 1 1 0 argb 10001000100000 EEEEEE EEEEEE", {
    fn unpack_plane(call: &mut Call, from: usize, to: usize, sides: (usize, usize)) -> Result<usize, i64> {
        let read = Right::unpack_plane(call, from, to, sides)?;
        let last = to == Self::offsets(call)[2];
        if last && from + read < call.body.len {
            Err(7)
        } else {
            Ok(read)
        }
    }
});

wrong!(a_raw_body_with_bytes_behind_it_refused, "iu 1 1 0 0 argb 00*4 - -", {
    fn tests(call: &Call) -> [bool; 6] {
        let mut tests = Right::tests(call);
        tests[3] |= !call.form.rle && call.body.len > Self::min_body(call);
        tests
    }
});

// The image.

wrong!(nothing_written, "iu 1 1 0 0 argb 000000 - EEEEEE", {
    fn write_image(_call: &mut Call) {}
});

wrong!(written_upside_down, "iu 1 2 0 0 argb 000000010000 - EE*6", {
    fn place(call: &Call, pixel: usize) -> usize {
        (call.height - 1 - pixel / call.width) * call.width + pixel % call.width
    }
});

wrong!(written_from_right_to_left, "iu 2 1 0 0 argb 000000010000 - EE*6", {
    fn place(call: &Call, pixel: usize) -> usize {
        pixel / call.width * call.width + call.width - 1 - pixel % call.width
    }
});

wrong!(the_first_row_copied_down, "iu 1 2 0 0 argb 000000010000 - EE*6", {
    fn write_image(call: &mut Call) {
        Right::write_image(call);
        let (row, end) = (3 * call.width, 3 * call.full());
        let first = call.image.bytes()[..row].to_vec();
        call.image.bytes_mut()[..end].chunks_mut(row).for_each(|row| row.copy_from_slice(&first));
    }
});

wrong!(the_last_pixel_left_out, "iu 1 1 0 0 argb 000000 - EEEEEE", {
    fn write_image(call: &mut Call) {
        let last = 3 * call.full() - 3;
        let earlier = call.image.bytes()[last..].to_vec();
        Right::write_image(call);
        call.image.bytes_mut()[last..].copy_from_slice(&earlier);
    }
});

wrong!(written_before_a_later_refusal, "iu 1 1 1 0 argb 100000 EEEEEE EEEEEE", {
    fn unpack_planes(call: &mut Call) -> Result<(), i64> {
        let outcome = Right::unpack_planes(call);
        call.image.bytes_mut()[0] = call.work.bytes()[0];
        outcome
    }
});

wrong!(cleared_by_a_later_refusal, "iu 1 1 1 0 argb 000000 EEEEEE EEEEEE", {
    fn after_refusal(call: &mut Call, _number: i64) {
        call.image.bytes_mut().fill(0);
    }
});

wrong!(cleared_by_every_refusal, "iu 1 1 0 0 argb - - EE", {
    fn decode(call: &mut Call) -> i64 {
        if Self::refused(call) != 0 {
            call.image.bytes_mut().fill(0);
        }
        Right::decode(call)
    }
});

wrong!(a_byte_behind_it_in_the_slice, "iu 1 1 0 0 argb 000000 - EE*4", {
    fn finish(call: &mut Call) -> i64 {
        let end = 3 * call.full();
        call.image.bytes_mut()[end..].iter_mut().take(1).for_each(|byte| *byte = 0);
        Right::finish(call)
    }
});

wrong!(a_byte_behind_the_slice, "iu 1 1 0 0 argb 000000 - EEEEEE", {
    fn finish(call: &mut Call) -> i64 {
        call.image.write(call.image.len, 0);
        Right::finish(call)
    }
});

wrong!(four_bytes_for_the_last_pixel, "iu 1 1 0 0 argb 000000 - EEEEEE", {
    fn finish(call: &mut Call) -> i64 {
        call.image.write(3 * call.full(), 0xFF);
        Right::finish(call)
    }
});

// The other slices.

wrong!(a_byte_behind_the_planes_in_the_work_area, "iu 1 1 1 0 argb 100010001000 EE*4 EEEEEE", {
    fn finish(call: &mut Call) -> i64 {
        let end = if call.form.rle { Self::colour_len(call) } else { call.work.len };
        call.work.bytes_mut()[end..].iter_mut().take(1).for_each(|byte| *byte = 0);
        Right::finish(call)
    }
});

wrong!(a_byte_behind_the_work_area, "iu 1 1 1 0 argb 100010001000 EEEEEE EEEEEE", {
    fn finish(call: &mut Call) -> i64 {
        if call.form.rle {
            call.work.write(call.work.len, 0);
        }
        Right::finish(call)
    }
});

wrong!(the_work_area_used_by_a_raw_picture, "iu 1 1 0 0 argb 000000 EEEEEE EEEEEE", {
    fn finish(call: &mut Call) -> i64 {
        if !call.form.rle && call.work.len >= Self::colour_len(call) {
            let planes = Self::planes(call);
            let len = Self::colour_len(call);
            call.work.bytes_mut()[..len].copy_from_slice(&planes[..len]);
        }
        Right::finish(call)
    }
});

wrong!(the_body_written_to, "iu 1 1 0 0 argb 000000 - EEEEEE", {
    fn finish(call: &mut Call) -> i64 {
        call.body.write(0, !call.body.read(0));
        Right::finish(call)
    }
});

wrong!(a_byte_read_behind_the_body, "iu 1 1 0 0 argb 000000 - EEEEEE", {
    fn finish(call: &mut Call) -> i64 {
        call.body.read(call.body.len);
        Right::finish(call)
    }
});

// The answer.

wrong!(pixels_instead_of_bytes, "iu 1 1 0 0 argb 000000 - EEEEEE", {
    fn finish(call: &mut Call) -> i64 {
        call.full() as i64
    }
});

wrong!(four_bytes_a_pixel, "iu 1 1 0 0 argb 000000 - EEEEEE", {
    fn finish(call: &mut Call) -> i64 {
        4 * call.full() as i64
    }
});

wrong!(the_images_length_as_the_answer, "iu 1 1 0 0 argb 000000 - EE*4", {
    fn finish(call: &mut Call) -> i64 {
        call.image.len as i64
    }
});

// Refusals before anything is read: their order.

wrong!(refusal_2_before_1, "iu 0 8193 0 0 argb - - -", {
    fn order() -> [i64; 6] {
        [2, 1, 3, 4, 5, 6]
    }
});

wrong!(refusal_3_before_2, "iu 8193 1 0 0 0:0 - - -", {
    fn order() -> [i64; 6] {
        [1, 3, 2, 4, 5, 6]
    }
});

wrong!(refusal_4_before_3, "iu 1 1 0 0 0:0 - - -", {
    fn order() -> [i64; 6] {
        [1, 2, 4, 3, 5, 6]
    }
});

wrong!(refusal_5_before_4, "iu 1 1 1 0 argb - - -", {
    fn order() -> [i64; 6] {
        [1, 2, 3, 5, 4, 6]
    }
});

wrong!(refusal_6_before_5, "iu 1 1 1 0 argb 000000 - -", {
    fn order() -> [i64; 6] {
        [1, 2, 3, 4, 6, 5]
    }
});

wrong!(refusal_6_before_4, "iu 1 1 0 0 argb - - -", {
    fn order() -> [i64; 6] {
        [1, 2, 3, 6, 4, 5]
    }
});

wrong!(the_body_read_before_refusal_6, "iu 1 1 1 0 argb 000000 EEEEEE -", {
    fn decode(call: &mut Call) -> i64 {
        let refused = Self::refused(call);
        if refused == 6 && call.form.rle {
            let earlier = call.work.bytes().to_vec();
            let outcome = Self::unpack_planes(call);
            call.work.bytes_mut().copy_from_slice(&earlier);
            return outcome.map_or_else(|number| -number, |()| -6);
        }
        Right::decode(call)
    }
});

// Their limits.

wrong!(sides_of_8193_taken, "iu 1 8193 0 0 argb - - -", {
    fn max_side() -> usize {
        MAX_SIDE + 1
    }
});

wrong!(sides_of_8192_refused, "iu 1 8192 0 0 argb - - -", {
    fn max_side() -> usize {
        MAX_SIDE - 1
    }
});

wrong!(level_0_taken, "iu 1 1 0 0 0:0 - - -", {
    fn level_refused(form: Form) -> bool {
        form.level != 0 && Right::level_refused(form)
    }
});

wrong!(level_8_taken, "iu 1 1 0 0 8:0 - - -", {
    fn level_refused(form: Form) -> bool {
        form.definition > AYCOCG || form.definition == AYCOCG && (form.level == 0 || form.level > 8)
    }
});

wrong!(level_7_refused, "iu 1 1 0 0 7:0 - - -", {
    fn level_refused(form: Form) -> bool {
        form.definition > AYCOCG || form.definition == AYCOCG && (form.level == 0 || form.level > 6)
    }
});

wrong!(levels_modulo_8, "iu 1 1 0 0 9:0 - - -", {
    fn level_refused(form: Form) -> bool {
        form.definition > AYCOCG || form.definition == AYCOCG && form.level & 7 == 0
    }
});

wrong!(argb_refused_by_its_level, "iu 1 1 0 0 argb:8:0 - - -", {
    fn level_refused(form: Form) -> bool {
        Right::level_refused(form) || form.level > 7
    }
});

wrong!(unknown_definitions_taken_for_aycocg, "iu 1 1 0 0 2:1:0 - - -", {
    fn level_refused(form: Form) -> bool {
        form.definition != ARGB && (form.level == 0 || form.level > 7)
    }
});

wrong!(definition_255_taken, "iu 1 1 0 0 255:0:0 - - -", {
    fn level_refused(form: Form) -> bool {
        form.definition != 255 && Right::level_refused(form)
    }
});

wrong!(the_level_truncated_to_a_byte, "iu 1 1 0 0 257:0 - - -", {
    fn level_refused(form: Form) -> bool {
        Right::level_refused(Form { level: form.level & 0xFF, ..form })
    }
});

wrong!(the_level_truncated_to_two_bytes, "iu 1 1 0 0 65537:0 - - -", {
    fn level_refused(form: Form) -> bool {
        Right::level_refused(Form { level: form.level & 0xFFFF, ..form })
    }
});

wrong!(the_level_signed, "iu 1 1 0 0 2147483648:0 - - -", {
    fn level_refused(form: Form) -> bool {
        form.definition > AYCOCG || form.definition == AYCOCG && (form.level == 0 || form.level as i32 > 7)
    }
});

wrong!(the_definition_truncated_to_a_byte, "iu 1 1 0 0 256:0:0 - - -", {
    fn level_refused(form: Form) -> bool {
        Right::level_refused(Form { definition: form.definition & 0xFF, ..form })
    }
});

wrong!(the_definition_truncated_to_two_bytes, "iu 1 1 0 0 65536:0:0 - - -", {
    fn level_refused(form: Form) -> bool {
        Right::level_refused(Form { definition: form.definition & 0xFFFF, ..form })
    }
});

wrong!(a_body_that_is_one_byte_short_taken, "iu 1 1 0 0 argb 0000 - -", {
    fn min_body(call: &Call) -> usize {
        Right::min_body(call).saturating_sub(1)
    }

    fn planes(call: &Call) -> Vec<u8> {
        if call.form.rle {
            call.work.bytes().to_vec()
        } else {
            call.body.bytes().get(call.alpha_len()..).unwrap_or(&[]).to_vec()
        }
    }
});

wrong!(a_body_of_its_minimum_size_refused, "iu 1 1 0 0 argb 000000 - -", {
    fn min_body(call: &Call) -> usize {
        Right::min_body(call).saturating_add(1)
    }
});

wrong!(the_minimum_rle_body_by_48, "iu 48 1 1 0 argb 000000 - -", {
    fn min_rle_body(call: &Call) -> usize {
        let plane = |(width, height): (usize, usize)| height.saturating_mul(width.div_ceil(48));
        let full = plane((call.width, call.height)).saturating_mul(1 + usize::from(call.form.alpha));
        full.saturating_add(plane(Self::chroma_sides(call)).saturating_mul(2))
    }
});

wrong!(the_minimum_rle_body_without_alpha, "iu 1 1 1 1 argb 000000 - -", {
    fn min_rle_body(call: &Call) -> usize {
        let chroma = min_plane(Self::chroma_sides(call)).saturating_mul(2);
        min_plane((call.width, call.height)).saturating_add(chroma)
    }
});

wrong!(the_minimum_rle_body_of_full_planes, "iu 1 2 1 0 1:1 00*4 - -", {
    fn min_rle_body(call: &Call) -> usize {
        min_plane((call.width, call.height)).saturating_mul(3 + usize::from(call.form.alpha))
    }
});

wrong!(the_minimum_rle_body_of_the_samples, "iu 1 2 1 0 argb 000000 - -", {
    fn min_rle_body(call: &Call) -> usize {
        let plane = |(width, height): (usize, usize)| width.saturating_mul(height).div_ceil(47);
        let full = plane((call.width, call.height)).saturating_mul(1 + usize::from(call.form.alpha));
        full.saturating_add(plane(Self::chroma_sides(call)).saturating_mul(2))
    }
});

wrong!(the_minimum_rle_body_not_asked, "iu 1 1 1 0 argb - - -", {
    fn min_rle_body(_call: &Call) -> usize {
        0
    }
});

wrong!(a_work_area_that_is_one_byte_short_taken, "iu 1 1 1 0 argb 000000 EEEE -", {
    fn min_work(call: &Call) -> usize {
        Right::min_work(call).saturating_sub(1)
    }
});

wrong!(a_work_area_that_is_exact_refused, "iu 1 1 1 0 argb 000000 EEEEEE -", {
    fn min_work(call: &Call) -> usize {
        Right::min_work(call).saturating_add(usize::from(call.form.rle))
    }
});

wrong!(a_work_area_asked_of_a_raw_picture, "iu 1 1 0 0 argb 000000 - -", {
    fn min_work(call: &Call) -> usize {
        Self::colour_len(call)
    }
});

wrong!(a_work_area_of_three_full_planes_asked, "iu 2 1 1 0 1:1 000000 EE*4 -", {
    fn min_work(call: &Call) -> usize {
        if call.form.rle {
            call.full().saturating_mul(3)
        } else {
            0
        }
    }
});

wrong!(a_work_area_of_four_planes_asked_with_alpha, "iu 1 1 1 1 argb 00*4 EEEEEE -", {
    fn min_work(call: &Call) -> usize {
        let alpha = if call.form.rle { call.alpha_len() } else { 0 };
        Right::min_work(call).saturating_add(alpha)
    }
});

wrong!(an_image_that_is_one_byte_short_taken, "iu 1 1 0 0 argb 000000 - EEEE", {
    fn min_image(call: &Call) -> usize {
        Right::min_image(call).saturating_sub(1)
    }

    fn write_image(call: &mut Call) {
        if call.image.len >= Right::min_image(call) {
            Right::write_image(call);
        }
    }
});

wrong!(an_image_that_is_exact_refused, "iu 1 1 0 0 argb 000000 - EEEEEE", {
    fn min_image(call: &Call) -> usize {
        Right::min_image(call).saturating_add(1)
    }
});

wrong!(an_images_length_that_wraps, "iu 7282 3 0 0 argb 00*65664 - EEEE", {
    fn min_image(call: &Call) -> usize {
        usize::from(call.full().wrapping_mul(3) as u16)
    }

    fn write_image(call: &mut Call) {
        if call.image.len >= Right::min_image(call) {
            Right::write_image(call);
        }
    }
});

// What random cases can hardly find, or are not asked to: the cases that are the same in every run must.

/// The same, but random cases need not find it.
macro_rules! wrong_in_fixed {
    ($name:ident, $smallest:literal, { $($steps:tt)* }) => {
        #[test]
        fn $name() {
            struct Wrong;
            impl Decoder for Wrong {
                $($steps)*
            }
            SEARCH.finds_in_fixed(with::<Wrong>(), $smallest);
        }
    };
}

wrong_in_fixed!(one_colour_wrong, "iu 1 1 0 0 1:0 C8B321 - EEEEEE", {
    fn convert(y: i32, co: i32, cg: i32) -> [i32; 3] {
        let t = y - cg;
        let wrong = i32::from((y, co, cg) == (200, -77, 33));
        [t + co, y + cg, t - co + wrong]
    }
});

wrong_in_fixed!(a_work_size_for_a_raw_picture, "is 1 1 0 0 0", {
    fn work_size(_rle: bool, definition: u32, subsampled: bool, width: usize, height: usize) -> usize {
        Right::work_size(true, definition, subsampled, width, height)
    }
});

wrong_in_fixed!(a_work_size_of_full_planes, "is 1 2 1 1 1", {
    fn work_size(rle: bool, definition: u32, _subsampled: bool, width: usize, height: usize) -> usize {
        Right::work_size(rle, definition, false, width, height)
    }
});

wrong_in_fixed!(a_work_size_of_argb_subsampled, "is 1 2 1 0 1", {
    fn work_size(rle: bool, _definition: u32, subsampled: bool, width: usize, height: usize) -> usize {
        Right::work_size(rle, AYCOCG, subsampled, width, height)
    }
});

wrong_in_fixed!(a_work_size_of_unknown_definitions_as_argb, "is 1 2 1 2 1", {
    fn work_size(rle: bool, definition: u32, subsampled: bool, width: usize, height: usize) -> usize {
        Right::work_size(rle, definition, subsampled && definition == AYCOCG, width, height)
    }
});

wrong_in_fixed!(a_work_size_with_the_definition_truncated_to_a_byte, "is 1 2 1 256 1", {
    fn work_size(rle: bool, definition: u32, subsampled: bool, width: usize, height: usize) -> usize {
        Right::work_size(rle, definition & 0xFF, subsampled, width, height)
    }
});

wrong_in_fixed!(a_work_size_with_the_definition_truncated_to_two_bytes, "is 1 2 1 65536 1", {
    fn work_size(rle: bool, definition: u32, subsampled: bool, width: usize, height: usize) -> usize {
        Right::work_size(rle, definition & 0xFFFF, subsampled, width, height)
    }
});

wrong_in_fixed!(a_work_size_for_refused_sides, "is 8193 1 1 0 0", {
    fn work_size(rle: bool, definition: u32, subsampled: bool, width: usize, height: usize) -> usize {
        Right::work_size(rle, definition, subsampled, width.min(MAX_SIDE), height)
    }
});

wrong_in_fixed!(an_image_size_for_refused_sides, "is 1 8193 0 0 0", {
    fn image_size(width: usize, height: usize) -> usize {
        width.saturating_mul(height).saturating_mul(3)
    }
});

wrong_in_fixed!(an_image_size_of_four_bytes_a_pixel, "is 1 1 0 0 0", {
    fn image_size(width: usize, height: usize) -> usize {
        Right::image_size(width, height) / 3 * 4
    }
});
