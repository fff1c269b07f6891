//! The comparer must find every one of these mistakes in functions that read streams, and none in right ones.

#[macro_use]
mod support;

use comparer::picture::case::ARGB;
use comparer::picture::Form;
use comparer::stream::fixed;
use comparer::stream::random::Random;
use comparer::Library;
use support::decoder::{self, Decoder, Slice};
use support::stream::{streams, RightDecoder as Right, RightEncoder, StreamCall, StreamDecoder};
use support::{Search, RIGHT_LIBRARY};

const SEARCH: Search = Search {
    fixed: fixed::run,
    random: |seed| {
        let mut random = Random::new(seed);
        Box::new(move |comparer| random.round(comparer))
    },
    rounds: 500,
    alone: 20_000,
};

/// The decoder beside right functions for the rest.
fn with<D: StreamDecoder>() -> Library {
    Library { streams: streams::<D, RightEncoder>(), ..RIGHT_LIBRARY }
}

#[test]
fn a_right_decoder_has_no_difference() {
    SEARCH.finds_nothing(with::<Right>());
}

/// A decoder that does some steps differently, and the smallest input that shows it.
macro_rules! wrong {
    ($($mistake:tt)*) => {
        wrong_function!(StreamDecoder, with, $($mistake)*);
    };
}

/// The refusal by wrong sides, or 0.
fn wrong_sides(call: &StreamCall) -> i64 {
    if call.width == 0 || call.height == 0 {
        1
    } else if call.width > 8192 || call.height > 8192 {
        2
    } else {
        0
    }
}

/// The first refusal of some that is none, or 0.
fn first(refusals: [i64; 3]) -> i64 {
    refusals.into_iter().find(|&number| number != 0).unwrap_or(0)
}

// The header byte.

wrong!(the_alpha_bit_the_wrong_way_round, "su 1 1 2000*4 - -", {
    fn alpha(byte: u8) -> bool {
        byte & 0x20 != 0
    }
});

wrong!(never_alpha, "su 1 1 00*5 - -", {
    fn alpha(_byte: u8) -> bool {
        false
    }
});

wrong!(the_rle_bit_the_wrong_way_round, "su 0 0 20 - -", {
    fn rle(byte: u8) -> bool {
        byte & 0x10 == 0
    }
});

wrong!(the_bits_of_rle_and_alpha_exchanged, "su 0 0 20 - -", {
    fn rle(byte: u8) -> bool {
        byte & 0x20 != 0
    }

    fn alpha(byte: u8) -> bool {
        byte & 0x10 == 0
    }
});

wrong!(a_level_of_two_bits, "ss 1 2 1C", {
    fn level(byte: u8) -> u32 {
        u32::from(byte & 0x03)
    }
});

wrong!(a_level_of_four_bits, "su 1 1 2800 - -", {
    fn level(byte: u8) -> u32 {
        u32::from(byte & 0x0F)
    }
});

wrong!(the_level_one_too_high, "su 1 1 2100000100 - EEEEEE", {
    fn level(byte: u8) -> u32 {
        match byte & 0x07 {
            level @ 1..=6 => u32::from(level) + 1,
            level => u32::from(level),
        }
    }
});

wrong!(the_top_bits_taken_as_level, "su 1 1 6000 - -", {
    fn level(byte: u8) -> u32 {
        u32::from(byte & 0x07 | (byte & 0xC0) >> 3)
    }
});

wrong!(the_top_bits_refused, "su 0 0 6000 - -", {
    fn refused(call: &StreamCall) -> i64 {
        match Right::refused(call) {
            0 if Self::header(call) & 0xC0 != 0 => 3,
            number => number,
        }
    }
});

wrong!(the_highest_bit_taken_as_alpha, "su 1 1 A000*4 - -", {
    fn alpha(byte: u8) -> bool {
        byte & 0xA0 != 0x20
    }
});

wrong!(subsampling_forgotten, "su 2 1 39000000 EE*4 -", {
    fn subsampled(_byte: u8) -> bool {
        false
    }
});

wrong!(bit_3_taken_under_level_0, "su 2 1 2800*5 - -", {
    fn decode_body(call: &mut decoder::Call) -> i64 {
        struct Subsampling;
        impl Decoder for Subsampling {
            fn is_subsampled(form: Form) -> bool {
                form.subsampled
            }
        }
        Subsampling::decode(call)
    }
});

wrong!(bit_3_refused_under_level_0, "su 0 0 2800 - -", {
    fn refused(call: &StreamCall) -> i64 {
        let byte = Self::header(call);
        match Right::refused(call) {
            0 if byte & 0x0F == 0x08 => 3,
            number => number,
        }
    }

    fn header(call: &StreamCall) -> u8 {
        if call.stream.len == 0 {
            0
        } else {
            call.stream.read(0)
        }
    }
});

wrong!(level_0_taken_as_aycocg, "su 1 1 2000 - -", {
    fn form(byte: u8) -> Form {
        Form { definition: 1, ..Right::form(byte) }
    }
});

wrong!(the_header_byte_at_the_end, "su 1 1 2000*4 - -", {
    fn header(call: &StreamCall) -> u8 {
        call.stream.read(call.stream.len - 1)
    }
});

// The body.

wrong!(the_pad_byte_taken_as_body, "su 1 1 20000000 - -", {
    fn body_len(len: usize, _form: Form) -> usize {
        len - 1
    }
});

wrong!(the_last_byte_cut_off_an_rle_body, "su 1 1 30000000 - -", {
    fn body_len(len: usize, _form: Form) -> usize {
        len.saturating_sub(2)
    }
});

wrong!(the_pad_byte_cut_off_an_rle_body_if_it_is_0, "su 1 1 1000*4 - -", {
    fn decode(call: &mut StreamCall) -> i64 {
        let len = call.stream.len;
        if len > 1 && Right::rle(call.stream.read(0)) && call.stream.read(len - 1) == 0 {
            call.stream.len -= 1;
        }
        Right::decode(call)
    }
});

wrong!(the_body_with_the_header_byte, "su 1 1 2000*4 - EEEEEE", {
    fn body_start() -> usize {
        0
    }
});

wrong!(a_byte_behind_the_stream_read, "su 1 1 2000*4 - EEEEEE", {
    fn decode(call: &mut StreamCall) -> i64 {
        let answer = Right::decode(call);
        if answer > 0 {
            call.stream.read(call.stream.len);
        }
        answer
    }
});

wrong!(the_first_byte_of_an_empty_stream_read, "su 0 0 - - -", {
    fn refused(call: &StreamCall) -> i64 {
        call.stream.read(0);
        Right::refused(call)
    }

    fn header(call: &StreamCall) -> u8 {
        call.stream.read(0)
    }
});

// Refusals 13 and 14.

wrong!(refusal_13_after_1, "su 0 0 - - -", {
    fn refused(call: &StreamCall) -> i64 {
        first([wrong_sides(call), Right::refused(call), 0])
    }

    fn lacks_pad(_len: usize, _form: Form) -> bool {
        false
    }
});

wrong!(refusal_13_before_1_and_14_behind_it, "su 0 0 20 - -", {
    fn refused(call: &StreamCall) -> i64 {
        let empty = if call.stream.len == 0 { 13 } else { 0 };
        first([empty, wrong_sides(call), Right::refused(call)])
    }
});

wrong!(refusal_14_behind_2_alone, "su 1 8193 20 - -", {
    fn refused(call: &StreamCall) -> i64 {
        let number = Right::refused(call);
        let large = if wrong_sides(call) == 2 && number == 14 { 2 } else { 0 };
        first([large, number, 0])
    }
});

wrong!(refusal_14_behind_4, "su 0 0 20 - -", {
    fn lacks_pad(_len: usize, _form: Form) -> bool {
        false
    }

    fn body_len(len: usize, form: Form) -> usize {
        (len - 1).saturating_sub(usize::from(!form.rle))
    }
});

wrong!(refusal_14_of_an_rle_stream, "su 0 0 30 - -", {
    fn lacks_pad(len: usize, _form: Form) -> bool {
        len == 1
    }
});

wrong!(refusal_14_of_two_bytes, "su 0 0 2000 - -", {
    fn lacks_pad(len: usize, form: Form) -> bool {
        !form.rle && len <= 2
    }
});

wrong!(refusal_13_of_a_raw_stream_of_one_byte, "su 0 0 20 - -", {
    fn refused(call: &StreamCall) -> i64 {
        match Right::refused(call) {
            14 => 13,
            number => number,
        }
    }
});

wrong!(an_empty_stream_refused_by_14, "su 0 0 - - -", {
    fn refused(call: &StreamCall) -> i64 {
        match Right::refused(call) {
            13 => 14,
            number => number,
        }
    }
});

wrong!(an_empty_stream_refused_by_4, "su 0 0 - - -", {
    fn refused(call: &StreamCall) -> i64 {
        match Right::refused(call) {
            13 => first([wrong_sides(call), 4, 0]),
            number => number,
        }
    }
});

wrong!(an_empty_stream_clears_the_image, "su 0 0 - - EE", {
    fn decode(call: &mut StreamCall) -> i64 {
        if call.stream.len == 0 {
            call.image.bytes_mut().fill(0);
        }
        Right::decode(call)
    }
});

wrong!(a_missing_pad_byte_clears_the_work_area, "su 0 0 20 EE -", {
    fn decode(call: &mut StreamCall) -> i64 {
        let answer = Right::decode(call);
        if answer == -14 {
            call.work.bytes_mut().fill(0);
        }
        answer
    }
});

wrong!(refusals_5_and_6_exchanged, "su 1 1 30000000 - -", {
    fn decode_body(call: &mut decoder::Call) -> i64 {
        struct Exchanged;
        impl Decoder for Exchanged {
            fn order() -> [i64; 6] {
                [1, 2, 3, 4, 6, 5]
            }
        }
        Exchanged::decode(call)
    }
});

wrong!(a_work_area_needed_for_a_raw_stream, "su 1 1 2000*4 - -", {
    fn decode_body(call: &mut decoder::Call) -> i64 {
        struct Needed;
        impl Decoder for Needed {
            fn min_work(call: &decoder::Call) -> usize {
                Self::colour_len(call)
            }
        }
        Needed::decode(call)
    }
});

wrong!(the_answer_with_the_header_byte, "su 1 1 2000*4 - EEEEEE", {
    fn decode_body(call: &mut decoder::Call) -> i64 {
        match decoder::Right::decode(call) {
            count @ 1.. => count + 1,
            refused => refused,
        }
    }
});

// The size of the work area.

wrong!(a_work_area_of_a_raw_stream, "ss 1 1 00", {
    fn work_size_of(form: Form, width: usize, height: usize) -> usize {
        Right::work_size_of(Form { rle: true, ..form }, width, height)
    }
});

wrong!(a_work_area_that_ignores_subsampling, "ss 1 2 19", {
    fn work_size_of(form: Form, width: usize, height: usize) -> usize {
        Right::work_size_of(Form { subsampled: false, ..form }, width, height)
    }
});

wrong!(a_work_area_subsampled_under_level_0, "ss 1 2 18", {
    fn work_size_of(form: Form, width: usize, height: usize) -> usize {
        Right::work_size_of(Form { definition: 1, ..form }, width, height)
    }
});

wrong!(a_work_area_with_room_for_alpha, "ss 1 1 10", {
    fn work_size_of(form: Form, width: usize, height: usize) -> usize {
        match Right::work_size_of(form, width, height) {
            0 => 0,
            size => size + usize::from(form.alpha) * width * height,
        }
    }
});

wrong!(a_work_area_of_sides_over_8192, "ss 1 8193 10", {
    fn work_size_of(form: Form, width: usize, height: usize) -> usize {
        match Right::work_size_of(form, width.min(8192), height.min(8192)) {
            0 => 0,
            _ => form.colour_samples(width.min(1 << 20), height.min(1 << 20)),
        }
    }
});

wrong!(a_work_area_of_a_side_of_0, "ss 0 0 10", {
    fn work_size_of(form: Form, width: usize, height: usize) -> usize {
        Right::work_size_of(form, width.max(1), height.max(1))
    }
});

wrong!(no_work_area_of_a_side_of_8192, "ss 1 8192 10", {
    fn work_size_of(form: Form, width: usize, height: usize) -> usize {
        if width == 8192 || height == 8192 {
            return 0;
        }
        Right::work_size_of(form, width, height)
    }
});

wrong!(a_work_area_of_an_empty_stream, "ss 1 1 -", {
    fn work_size(stream: Slice, width: usize, height: usize) -> usize {
        if stream.len == 0 {
            return Self::work_size_of(Form { definition: ARGB, ..Right::form(0x10) }, width, height);
        }
        Right::work_size(stream, width, height)
    }
});

wrong!(a_work_area_by_the_last_byte, "ss 1 1 0010", {
    fn work_size(stream: Slice, width: usize, height: usize) -> usize {
        if stream.len == 0 {
            return 0;
        }
        Self::work_size_of(Right::form(stream.read(stream.len - 1)), width, height)
    }
});

wrong!(no_work_area_of_a_stream_without_a_body, "ss 1 1 10", {
    fn work_size(stream: Slice, width: usize, height: usize) -> usize {
        if stream.len < 2 {
            return 0;
        }
        Right::work_size(stream, width, height)
    }
});

wrong!(a_work_area_by_a_byte_behind_the_header, "ss 0 0 00", {
    fn work_size(stream: Slice, width: usize, height: usize) -> usize {
        if stream.len > 0 {
            stream.read(1);
        }
        Right::work_size(stream, width, height)
    }
});
