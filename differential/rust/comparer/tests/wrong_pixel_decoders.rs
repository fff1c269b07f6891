//! The comparer must find every one of these mistakes in a function that unpacks pictures to four-byte pixels, and none in a right one.

#[macro_use]
mod support;

use comparer::picture::case::ARGB;
use comparer::picture::fixed;
use comparer::picture::random::Random;
use comparer::picture::Form;
use comparer::{Extent, Format, Layout, Library};
use support::decoder::{pictures, unpacked, Call, Decoder, Right};
use support::{Search, RIGHT_LIBRARY};

const SEARCH: Search = Search {
    fixed: fixed::run_pixels,
    random: |seed| {
        let mut random = Random::pixels(seed, Extent::Body);
        Box::new(move |comparer| random.round(comparer))
    },
    rounds: 500,
    alone: 20_000,
};

/// The decoder beside right functions for the rest.
fn with<D: Decoder>() -> Library {
    Library { pictures: pictures::<D>(), ..RIGHT_LIBRARY }
}

#[test]
fn a_right_decoder_has_no_difference() {
    SEARCH.finds_nothing(with::<Right>());
}

/// A decoder that does some steps differently, and the smallest input that shows it.
macro_rules! wrong {
    ($($mistake:tt)*) => {
        wrong_function!(Decoder, with, $($mistake)*);
    };
}

/// The places of R, G, B and A, of which two are exchanged.
fn exchanged(layout: u32, one: usize, other: usize) -> [usize; 4] {
    let mut places = Right::places(layout);
    places.swap(one, other);
    places
}

/// The number of a call's layout.
fn number(call: &Call) -> u32 {
    match call.format {
        Format::Pixels(Layout(number)) => number,
        Format::Rgb24 => 0,
    }
}

// The layout of a pixel.

wrong!(red_and_blue_exchanged_in_bgra, "xu 1 1 0 0 argb bgra 000001 - EE*4", {
    fn places(layout: u32) -> [usize; 4] {
        if layout == 0 {
            exchanged(layout, 0, 2)
        } else {
            Right::places(layout)
        }
    }
});

wrong!(red_and_blue_exchanged_in_rgba, "xu 1 1 0 0 argb rgba 000001 - EE*4", {
    fn places(layout: u32) -> [usize; 4] {
        if layout == 1 {
            exchanged(layout, 0, 2)
        } else {
            Right::places(layout)
        }
    }
});

wrong!(red_and_blue_exchanged_in_argb, "xu 1 1 0 0 argb argb 000001 - EE*4", {
    fn places(layout: u32) -> [usize; 4] {
        if layout == 2 {
            exchanged(layout, 0, 2)
        } else {
            Right::places(layout)
        }
    }
});

wrong!(red_and_blue_exchanged_in_abgr, "xu 1 1 0 0 argb abgr 000001 - EE*4", {
    fn places(layout: u32) -> [usize; 4] {
        if layout == 3 {
            exchanged(layout, 0, 2)
        } else {
            Right::places(layout)
        }
    }
});

wrong!(red_and_green_exchanged_in_argb, "xu 1 1 0 0 argb argb 000100 - EE*4", {
    fn places(layout: u32) -> [usize; 4] {
        if layout == 2 {
            exchanged(layout, 0, 1)
        } else {
            Right::places(layout)
        }
    }
});

wrong!(alpha_and_red_exchanged_in_abgr, "xu 1 1 0 0 argb abgr 000000 - EE*4", {
    fn places(layout: u32) -> [usize; 4] {
        if layout == 3 {
            exchanged(layout, 0, 3)
        } else {
            Right::places(layout)
        }
    }
});

wrong!(argb_and_abgr_exchanged, "xu 1 1 0 0 argb argb 000001 - EE*4", {
    fn places(layout: u32) -> [usize; 4] {
        Right::places(if layout > 1 { 5 - layout } else { layout })
    }
});

wrong!(no_rearrangement, "xu 1 1 0 0 argb rgba 000000 - EE*4", {
    fn places(layout: u32) -> [usize; 4] {
        if layout == 1 {
            [0, 1, 1, 3]
        } else {
            Right::places(layout)
        }
    }
});

wrong!(every_layout_as_bgra, "xu 1 1 0 0 argb rgba 000001 - EE*4", {
    fn places(_layout: u32) -> [usize; 4] {
        Right::places(0)
    }
});

wrong!(red_and_blue_exchanged_if_aycocg, "xu 1 1 0 0 1:0 bgra 000100 - EE*4", {
    fn keeps_order(form: Form) -> bool {
        !form.alpha
    }
});

wrong!(red_and_blue_never_exchanged_in_four_bytes, "xu 1 1 0 0 1:0 bgra 000100 - EE*4", {
    fn keeps_order(_form: Form) -> bool {
        true
    }
});

// Layouts that there are not.

wrong!(a_layout_modulo_4, "xu 1 1 0 0 argb 4 - - -", {
    fn layout_refused(_format: Format) -> bool {
        false
    }

    fn places(layout: u32) -> [usize; 4] {
        Right::places(layout % 4)
    }
});

wrong!(a_layout_modulo_256, "xu 1 1 0 0 argb 256 - - -", {
    fn layout_refused(format: Format) -> bool {
        matches!(format, Format::Pixels(Layout(number)) if number % 256 > 3)
    }

    fn places(layout: u32) -> [usize; 4] {
        Right::places(layout % 256)
    }
});

wrong!(a_layout_modulo_65536, "xu 1 1 0 0 argb 65536 - - -", {
    fn layout_refused(format: Format) -> bool {
        matches!(format, Format::Pixels(Layout(number)) if number % 65_536 > 3)
    }

    fn places(layout: u32) -> [usize; 4] {
        Right::places(layout % 65_536)
    }
});

wrong!(a_layout_as_a_signed_number, "xu 1 1 0 0 argb 2147483648 - - -", {
    fn layout_refused(format: Format) -> bool {
        matches!(format, Format::Pixels(Layout(number)) if number as i32 > 3)
    }

    fn places(layout: u32) -> [usize; 4] {
        Right::places(layout & 3)
    }
});

wrong!(layout_4_accepted, "xu 1 1 0 0 argb 4 - - -", {
    fn layout_refused(format: Format) -> bool {
        matches!(format, Format::Pixels(Layout(number)) if number > 4)
    }
});

wrong!(layout_3_refused, "xu 1 1 0 0 argb abgr - - -", {
    fn layout_refused(format: Format) -> bool {
        matches!(format, Format::Pixels(Layout(number)) if number > 2)
    }
});

wrong!(refusal_3_by_the_layout_before_1, "xu 0 0 0 0 argb 4 - - -", {
    fn refused(call: &Call) -> i64 {
        if Self::layout_refused(call.format) {
            3
        } else {
            Right::refused(call)
        }
    }
});

wrong!(refusal_3_by_the_layout_between_1_and_2, "xu 8193 1 0 0 argb 4 - - -", {
    fn refused(call: &Call) -> i64 {
        match Right::refused(call) {
            2 if Self::layout_refused(call.format) => 3,
            number => number,
        }
    }
});

wrong!(refusal_3_by_the_layout_behind_4, "xu 1 1 0 0 argb 4 - - -", {
    fn refused(call: &Call) -> i64 {
        match Right::refused(call) {
            3 if !Self::level_refused(call.form) && call.body.len < Self::min_body(call) => 4,
            number => number,
        }
    }
});

wrong!(refusal_3_by_the_layout_behind_5, "xu 1 1 1 0 argb 4 000000 - -", {
    fn refused(call: &Call) -> i64 {
        match Right::refused(call) {
            3 if !Self::level_refused(call.form)
                && call.body.len >= Self::min_body(call)
                && call.work.len < Self::min_work(call) =>
            {
                5
            }
            number => number,
        }
    }
});

wrong!(refusal_3_by_the_layout_behind_6, "xu 1 1 0 0 argb 4 000000 - -", {
    fn refused(call: &Call) -> i64 {
        match Right::refused(call) {
            3 if !Self::level_refused(call.form)
                && call.body.len >= Self::min_body(call)
                && call.work.len >= Self::min_work(call)
                && call.image.len < Self::min_image(call) =>
            {
                6
            }
            number => number,
        }
    }
});

wrong!(a_wrong_layout_clears_the_image, "xu 1 1 0 0 argb 4 - - EE", {
    fn decode(call: &mut Call) -> i64 {
        let answer = Right::decode(call);
        if answer == -3 && !Self::level_refused(call.form) {
            call.image.bytes_mut().fill(0);
        }
        answer
    }
});

wrong!(the_level_not_looked_at_in_four_bytes, "xu 1 1 0 0 0:0 bgra - - -", {
    fn level_refused(_form: Form) -> bool {
        false
    }
});

// Alpha.

wrong!(alpha_0_where_there_is_none, "xu 1 1 0 0 argb bgra 000000 - EE*4", {
    fn alpha(call: &Call, pixel: usize) -> u8 {
        if call.form.alpha {
            Right::alpha(call, pixel)
        } else {
            0
        }
    }
});

wrong!(alpha_0_where_an_rle_picture_has_none, "xu 1 1 1 0 argb bgra 100010001000 EEEEEE EE*4", {
    fn alpha(call: &Call, pixel: usize) -> u8 {
        if !call.form.alpha && call.form.rle {
            0
        } else {
            Right::alpha(call, pixel)
        }
    }
});

wrong!(alpha_254_where_there_is_none, "xu 1 1 0 0 argb bgra 000000 - EE*4", {
    fn alpha(call: &Call, pixel: usize) -> u8 {
        if call.form.alpha {
            Right::alpha(call, pixel)
        } else {
            254
        }
    }
});

wrong!(alpha_always_255, "xu 1 1 0 1 argb bgra 00*4 - EE*4", {
    fn alpha(_call: &Call, _pixel: usize) -> u8 {
        255
    }
});

wrong!(alpha_left_as_the_image_had_it, "xu 1 1 0 0 argb bgra 000000 - EE*4", {
    fn alpha(call: &Call, pixel: usize) -> u8 {
        call.image.read(4 * pixel + Right::places(number(call))[3])
    }
});

wrong!(alpha_overwritten_by_the_first_colour_plane, "xu 1 1 1 1 argb bgra 10000000 EE*4 EE*4", {
    fn alpha_offset(_call: &Call) -> usize {
        0
    }
});

wrong!(alpha_taken_from_the_first_colour_plane, "xu 1 1 1 1 argb bgra 1001100010001000 EE*4 EE*4", {
    fn alpha(call: &Call, pixel: usize) -> u8 {
        if call.form.alpha && call.form.rle {
            call.work.read(pixel)
        } else {
            Right::alpha(call, pixel)
        }
    }
});

wrong!(alpha_in_front_of_the_colour_planes, "xu 1 1 1 1 argb bgra 10000000 EE*4 EE*4", {
    fn alpha_offset(_call: &Call) -> usize {
        0
    }

    fn offsets(call: &Call) -> [usize; 3] {
        Right::offsets(call).map(|at| at + if call.form.rle { Self::kept_alpha_len(call) } else { 0 })
    }
});

wrong!(alpha_behind_three_full_planes, "xu 1 2 1 1 1:1 bgra 1000*5 EE*7 EE*8", {
    fn alpha_offset(call: &Call) -> usize {
        (3 * call.full()).min(call.work.len - call.full())
    }

    fn unpack_alpha(call: &mut Call) -> Result<usize, i64> {
        let spare = call.work.len - Self::colour_len(call) - call.full();
        let to = (3 * call.full()).min(Self::colour_len(call) + spare);
        Self::unpack_plane(call, 0, to, (call.width, call.height))
    }
});

wrong!(alpha_unpacked_last, "xu 1 1 1 1 argb bgra 10000000 EE*4 EE*4", {
    fn unpack_planes(call: &mut Call) -> Result<(), i64> {
        let earlier = call.work.bytes().to_vec();
        let outcome = Right::unpack_planes(call);
        if outcome.is_err() && call.form.alpha {
            let from = Self::alpha_offset(call);
            call.work.bytes_mut()[from..].copy_from_slice(&earlier[from..]);
        }
        outcome
    }
});

wrong!(alpha_taken_back_if_a_colour_plane_is_refused, "xu 1 1 1 1 argb bgra 10000000 EE*4 EE*4", {
    fn after_refusal(call: &mut Call, _number: i64) {
        if call.form.alpha {
            let (from, len) = (Self::alpha_offset(call), call.full());
            call.work.bytes_mut()[from..from + len].fill(0xEE);
        }
    }
});

wrong!(the_colour_part_cleared_before_alpha, "xu 1 1 1 1 argb bgra 00*4 EE*4 EE*4", {
    fn unpack_alpha(call: &mut Call) -> Result<usize, i64> {
        let len = Self::colour_len(call);
        call.work.bytes_mut()[..len].fill(0);
        Right::unpack_alpha(call)
    }
});

wrong!(alpha_unpacked_to_nowhere, "xu 1 1 1 1 argb bgra 10000000 EE*4 EE*4", {
    fn unpack_alpha(call: &mut Call) -> Result<usize, i64> {
        let body = call.body.bytes().to_vec();
        unpacked(&body, &mut vec![0; call.full()], (call.width, call.height))
    }
});

wrong!(a_refused_alpha_plane_taken_back, "xu 2 1 1 1 argb bgra 10000000 EE*8 EE*8", {
    fn unpack_alpha(call: &mut Call) -> Result<usize, i64> {
        let earlier = call.work.bytes().to_vec();
        let read = Right::unpack_alpha(call);
        if read.is_err() {
            call.work.bytes_mut().copy_from_slice(&earlier);
        }
        read
    }
});

wrong!(raw_alpha_read_from_the_last_colour_plane, "xu 1 1 0 1 argb bgra 01000000 - EE*4", {
    fn alpha(call: &Call, pixel: usize) -> u8 {
        if call.form.alpha && !call.form.rle {
            return call.body.bytes()[Self::colour_len(call) + pixel];
        }
        Right::alpha(call, pixel)
    }
});

wrong!(raw_alpha_read_from_the_colours_place, "xu 1 1 0 1 argb bgra 01000000 - EE*4", {
    fn alpha(call: &Call, pixel: usize) -> u8 {
        if call.form.alpha && !call.form.rle {
            return call.body.bytes()[call.full() + pixel];
        }
        Right::alpha(call, pixel)
    }
});

wrong!(raw_colours_read_from_the_alpha_plane, "xu 1 1 0 1 argb bgra 01000000 - EE*4", {
    fn raw_start(_call: &Call) -> usize {
        0
    }
});

wrong!(alpha_behind_by_one_row, "xu 1 2 0 1 argb bgra 0100*7 - EE*8", {
    fn alpha(call: &Call, pixel: usize) -> u8 {
        Right::alpha(call, if pixel < call.width { pixel } else { pixel - call.width })
    }
});

wrong!(alpha_of_the_first_row_in_all, "xu 1 2 0 1 argb bgra 0100*7 - EE*8", {
    fn alpha(call: &Call, pixel: usize) -> u8 {
        Right::alpha(call, pixel % call.width)
    }
});

wrong!(alpha_behind_by_one_pixel, "xu 2 1 0 1 argb bgra 0100*7 - EE*8", {
    fn alpha(call: &Call, pixel: usize) -> u8 {
        Right::alpha(call, pixel.saturating_sub(1))
    }
});

wrong!(alpha_halved_with_the_chroma_rows, "xu 1 2 0 1 1:1 bgra 000100*4 - EE*8", {
    fn alpha(call: &Call, pixel: usize) -> u8 {
        let (row, column) = (pixel / call.width, pixel % call.width);
        let row = if Self::is_subsampled(call.form) { row & !1 } else { row };
        Right::alpha(call, row * call.width + column)
    }
});

wrong!(alpha_of_the_last_pixel_of_an_odd_row_left, "xu 3 1 0 1 argb bgra 00000100*9 - EE*12", {
    fn alpha(call: &Call, pixel: usize) -> u8 {
        let column = pixel % call.width;
        let last = column > 0 && column + 1 == call.width && call.width % 2 == 1;
        Right::alpha(call, pixel - usize::from(last))
    }
});

wrong!(colours_multiplied_by_alpha, "xu 1 1 0 1 argb bgra 00000001 - EE*4", {
    fn argb(_form: Form, samples: [u8; 3]) -> [u8; 3] {
        samples
    }

    fn pixel(call: &Call, planes: &[u8], starts: [usize; 3], pixel: usize) -> [u8; 3] {
        let alpha = u16::from(Self::alpha(call, pixel));
        Right::pixel(call, planes, starts, pixel).map(|sample| (u16::from(sample) * alpha / 255) as u8)
    }
});

// Colours.

wrong!(the_last_pixel_of_an_odd_row_from_the_chroma_sample_before, "xu 3 1 0 0 1:1 bgra 00*4,010000 - EE*12", {
    fn chroma_index(call: &Call, row: usize, column: usize) -> usize {
        let index = Right::chroma_index(call, row, column);
        let last = Self::is_subsampled(call.form) && call.width % 2 == 1 && column > 0 && column + 1 == call.width;
        index - usize::from(last)
    }
});

wrong!(the_last_row_of_an_odd_height_from_the_chroma_row_before, "xu 1 3 0 0 1:1 bgra 00*5,0100 - EE*12", {
    fn chroma_index(call: &Call, row: usize, column: usize) -> usize {
        let last = Self::is_subsampled(call.form) && call.height % 2 == 1 && row > 0 && row + 1 == call.height;
        Right::chroma_index(call, row - usize::from(last), column)
    }
});

wrong!(chroma_columns_not_halved, "xu 2 1 0 0 1:1 bgra 00000100 - EE*8", {
    fn chroma_index(call: &Call, row: usize, column: usize) -> usize {
        let (across, _) = Self::chroma_sides(call);
        (row >> u32::from(Self::is_subsampled(call.form))) * across + column
    }
});

wrong!(chroma_rows_not_halved, "xu 1 2 0 0 1:1 bgra 00000100 - EE*8", {
    fn chroma_index(call: &Call, row: usize, column: usize) -> usize {
        let (across, _) = Self::chroma_sides(call);
        row * across + (column >> u32::from(Self::is_subsampled(call.form)))
    }
});

// Chroma samples found by counting. A counter that runs too far is kept within the plane.

wrong!(the_last_column_of_an_odd_width_from_the_next_chroma_row, "xu 1 3 0 0 1:1 bgra 00*5,0100 - EE*12", {
    fn chroma_index(call: &Call, row: usize, column: usize) -> usize {
        let index = Right::chroma_index(call, row, column);
        let (across, down) = Self::chroma_sides(call);
        let last = Self::is_subsampled(call.form) && call.width % 2 == 1 && column + 1 == call.width;
        (index + if last { across } else { 0 }).min(across * down - 1)
    }
});

wrong!(the_chroma_column_not_put_back_at_the_start_of_a_row, "xu 3 2 0 0 1:1 bgra 00*8,0100 - EE*24", {
    fn chroma_index(call: &Call, row: usize, column: usize) -> usize {
        let index = Right::chroma_index(call, row, column);
        let (across, down) = Self::chroma_sides(call);
        let passed = if Self::is_subsampled(call.form) { row * (call.width / 2) } else { 0 };
        (index + passed).min(across * down - 1)
    }
});

/// Random rows are seldom so long.
macro_rules! wrong_in_long_rows {
    ($name:ident, $smallest:literal, { $($other:tt)* }) => {
        #[test]
        fn $name() {
            struct Wrong;
            impl Decoder for Wrong {
                $($other)*
            }
            SEARCH.finds_in_fixed(with::<Wrong>(), $smallest);
        }
    };
}

wrong_in_long_rows!(a_row_of_257_in_arrays_of_256, "xu 257 1 0 0 1:0 bgra 00*770,01 - EE*1028", {
    fn chroma_index(call: &Call, row: usize, column: usize) -> usize {
        let index = Right::chroma_index(call, row, column);
        index - usize::from(call.width == 257 && column == 256 && call.form.definition != ARGB)
    }
});

wrong_in_long_rows!(
    alpha_behind_the_256th_pixel_from_the_row_before,
    "xu 257 2 0 1 argb bgra 00*256,0100*1799 - EE*2056",
    {
        fn alpha(call: &Call, pixel: usize) -> u8 {
            let late = call.width == 257 && pixel % 257 == 256 && pixel > 256;
            Right::alpha(call, pixel - if late { 257 } else { 0 })
        }
    }
);

wrong_in_long_rows!(no_alpha_in_the_last_pixel_of_the_longest_row, "xu 8192 1 0 0 argb bgra 00*24576 - EE*32768", {
    fn alpha(call: &Call, pixel: usize) -> u8 {
        if !call.form.alpha && pixel % call.width == 8191 {
            0
        } else {
            Right::alpha(call, pixel)
        }
    }
});

// Sizes and lengths.

wrong!(refusal_5_by_the_size_of_three_bytes, "xu 1 1 1 1 argb bgra 00*4 EEEEEE -", {
    fn kept_alpha_len(_call: &Call) -> usize {
        0
    }

    fn unpack_alpha(call: &mut Call) -> Result<usize, i64> {
        let body = call.body.bytes().to_vec();
        let (from, len, sides) = (Self::alpha_offset(call), call.full(), (call.width, call.height));
        match call.work.bytes_mut().get_mut(from..from + len) {
            Some(alpha) => unpacked(&body, alpha, sides),
            None => unpacked(&body, &mut vec![0; len], sides),
        }
    }
});

wrong!(refusal_5_with_room_for_alpha_where_there_is_none, "xu 1 1 1 0 argb bgra 000000 EEEEEE -", {
    fn kept_alpha_len(call: &Call) -> usize {
        call.full()
    }
});

wrong!(refusal_5_with_room_for_a_small_alpha_plane, "xu 1 2 1 1 1:1 bgra 00*6 EE*5 -", {
    fn kept_alpha_len(call: &Call) -> usize {
        if call.form.alpha {
            Self::chroma_len(call)
        } else {
            0
        }
    }

    fn unpack_alpha(call: &mut Call) -> Result<usize, i64> {
        let body = call.body.bytes().to_vec();
        let (from, len, sides) = (Self::alpha_offset(call), call.full(), (call.width, call.height));
        match call.work.bytes_mut().get_mut(from..from + len) {
            Some(alpha) => unpacked(&body, alpha, sides),
            None => Err(5),
        }
    }
});

wrong!(a_work_area_needed_for_the_alpha_of_a_raw_picture, "xu 1 1 0 1 argb bgra 00*4 - -", {
    fn min_work(call: &Call) -> usize {
        if call.form.rle {
            Right::min_work(call)
        } else {
            Self::kept_alpha_len(call)
        }
    }
});

wrong!(refusal_6_by_three_bytes_a_pixel, "xu 1 1 0 0 argb bgra 000000 - EEEEEE", {
    fn min_image(call: &Call) -> usize {
        call.full().saturating_mul(3)
    }

    fn write_image(call: &mut Call) {
        if call.image.len >= 4 * call.full() {
            Right::write_image(call);
        }
    }
});

wrong!(refusal_6_by_four_bytes_only_with_alpha, "xu 1 1 0 0 argb bgra 000000 - EEEEEE", {
    fn min_image(call: &Call) -> usize {
        call.full().saturating_mul(3 + usize::from(call.form.alpha))
    }

    fn write_image(call: &mut Call) {
        if call.image.len >= 4 * call.full() {
            Right::write_image(call);
        }
    }
});

wrong!(refusals_5_and_6_exchanged, "xu 1 1 1 0 argb bgra 000000 - -", {
    fn order() -> [i64; 6] {
        [1, 2, 3, 4, 6, 5]
    }
});

wrong!(the_answer_of_three_bytes, "xu 1 1 0 0 argb bgra 000000 - EE*4", {
    fn finish(call: &mut Call) -> i64 {
        3 * call.full() as i64
    }
});

wrong!(the_minimum_body_without_alpha, "xu 1 1 1 1 argb bgra 000000 - -", {
    fn min_rle_body(call: &Call) -> usize {
        Right::min_rle_body(call)
            - if call.form.alpha { support::decoder::min_plane((call.width, call.height)) } else { 0 }
    }
});

// Bytes that must not be touched.

wrong!(the_work_area_touched_by_a_raw_picture, "xu 1 1 0 0 argb bgra 000000 EE EE*4", {
    fn write_image(call: &mut Call) {
        if !call.form.rle && call.work.len > 0 {
            call.work.write(0, 0);
        }
        Right::write_image(call);
    }
});

wrong!(alpha_of_a_raw_picture_copied_to_the_work_area, "xu 1 1 0 1 argb bgra 00*4 EE*4 EE*4", {
    fn write_image(call: &mut Call) {
        if !call.form.rle && call.form.alpha && call.work.len >= Self::colour_len(call) + call.full() {
            let alpha = call.body.bytes()[..call.full()].to_vec();
            let from = Self::colour_len(call);
            call.work.bytes_mut()[from..from + alpha.len()].copy_from_slice(&alpha);
        }
        Right::write_image(call);
    }
});

wrong!(a_byte_behind_the_image_written, "xu 1 1 0 0 argb bgra 000000 - EE*4", {
    fn finish(call: &mut Call) -> i64 {
        call.image.write(4 * call.full(), 0);
        Right::finish(call)
    }
});

wrong!(a_byte_behind_the_image_cleared_if_there_is_one, "xu 1 1 0 0 argb bgra 000000 - EE*5", {
    fn finish(call: &mut Call) -> i64 {
        if call.image.len > 4 * call.full() {
            call.image.write(4 * call.full(), 0);
        }
        Right::finish(call)
    }
});

wrong!(a_byte_behind_alpha_cleared_in_the_work_area, "xu 1 1 1 1 argb bgra 1000100010001000 EE*5 EE*4", {
    fn finish(call: &mut Call) -> i64 {
        let end = Self::colour_len(call) + call.full();
        if call.form.alpha && call.form.rle && call.work.len > end {
            call.work.write(end, 0);
        }
        Right::finish(call)
    }
});

wrong!(the_image_written_before_the_planes_are_known, "xu 1 1 1 0 argb bgra 000000 EEEEEE EE*4", {
    fn after_refusal(call: &mut Call, _number: i64) {
        call.image.bytes_mut()[..4].fill(0);
    }
});

wrong!(a_byte_behind_the_body_read, "xu 1 1 0 1 argb bgra 00*4 - EE*4", {
    fn finish(call: &mut Call) -> i64 {
        if call.form.alpha {
            call.body.read(call.body.len);
        }
        Right::finish(call)
    }
});

// The sizes.

wrong!(a_work_size_without_alpha, "xw 1 1 1 1 0 0", {
    fn pixels_work_size(form: Form, width: usize, height: usize) -> usize {
        Right::pixels_work_size(Form { alpha: false, ..form }, width, height)
    }
});

wrong!(a_work_size_that_always_has_alpha, "xw 1 1 1 0 0 0", {
    fn pixels_work_size(form: Form, width: usize, height: usize) -> usize {
        Right::pixels_work_size(Form { alpha: true, ..form }, width, height)
    }
});

wrong!(a_work_size_of_a_raw_picture_with_alpha, "xw 1 1 0 1 0 0", {
    fn pixels_work_size(form: Form, width: usize, height: usize) -> usize {
        match Right::pixels_work_size(form, width, height) {
            0 if form.alpha => Self::image_size(width, height) / 3,
            size => size,
        }
    }
});

wrong!(a_work_size_with_a_small_alpha_plane, "xw 1 2 1 1 1 1", {
    fn pixels_work_size(form: Form, width: usize, height: usize) -> usize {
        match Right::pixels_work_size(Form { alpha: false, ..form }, width, height) {
            0 => 0,
            size => size + usize::from(form.alpha) * (size - width * height) / 2,
        }
    }
});

wrong!(a_work_size_of_sides_over_8192, "xw 1 8193 1 0 0 0", {
    fn pixels_work_size(form: Form, width: usize, height: usize) -> usize {
        Right::pixels_work_size(form, width.min(8192), height.min(8192))
    }
});

wrong!(an_image_size_of_three_bytes, "xw 1 1 0 0 0 0", {
    fn pixels_image_size(width: usize, height: usize) -> usize {
        Right::image_size(width, height)
    }
});

wrong!(an_image_size_of_sides_over_8192, "xw 1 8193 0 0 0 0", {
    fn pixels_image_size(width: usize, height: usize) -> usize {
        Right::pixels_image_size(width.min(8192), height.min(8192))
    }
});
