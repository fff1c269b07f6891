//! The comparer must find every one of these mistakes in functions that unpack streams to four-byte pixels, and none in right ones. Most
//! mistakes in unpacking a body are those of wrong_pixel_decoders.rs.

#[macro_use]
mod support;

use comparer::picture::Form;
use comparer::stream::fixed;
use comparer::stream::random::Random;
use comparer::{Format, Layout, Library};
use support::decoder::{self, Decoder, Slice};
use support::stream::{streams, RightDecoder as Right, RightEncoder, StreamCall, StreamDecoder};
use support::{Search, RIGHT_LIBRARY};

const SEARCH: Search = Search {
    fixed: fixed::run_pixels,
    random: |seed| {
        let mut random = Random::pixels(seed);
        Box::new(move |comparer| random.round(comparer))
    },
    rounds: 500,
    alone: 20_000,
};

/// The decoder beside right functions for the rest.
fn with<D: StreamDecoder>() -> Library {
    Library { streams: streams::<D, RightEncoder>(), ..RIGHT_LIBRARY }
}

#[test]
fn a_right_decoder_has_no_difference() {
    SEARCH.finds_nothing(with::<Right>());
}

/// A decoder that does some steps differently, and the smallest input that shows it.
macro_rules! wrong {
    ($($mistake:tt)*) => {
        wrong_function!(StreamDecoder, with, $($mistake)*);
    };
}

fn is_unknown(call: &StreamCall) -> bool {
    matches!(call.format, Format::Pixels(Layout(number)) if number > 3)
}

/// The call with another layout, which gets this number of the one passed.
fn with_layout(call: &mut StreamCall, number: impl Fn(u32) -> u32) -> i64 {
    if let Format::Pixels(Layout(layout)) = call.format {
        call.format = Format::Pixels(Layout(number(layout)));
    }
    Right::decode(call)
}

// The layout.

wrong!(a_layout_modulo_4, "xs 1 1 4 2000 - -", {
    fn decode(call: &mut StreamCall) -> i64 {
        with_layout(call, |layout| layout % 4)
    }
});

wrong!(a_layout_modulo_256, "xs 1 1 256 2000 - -", {
    fn decode(call: &mut StreamCall) -> i64 {
        with_layout(call, |layout| layout % 256)
    }
});

wrong!(layout_4_as_3, "xs 1 1 4 2000 - -", {
    fn decode(call: &mut StreamCall) -> i64 {
        with_layout(call, |layout| if layout == 4 { 3 } else { layout })
    }
});

wrong!(argb_and_abgr_exchanged, "xs 1 1 argb 2000000100 - EE*4", {
    fn decode(call: &mut StreamCall) -> i64 {
        with_layout(call, |layout| if (2..4).contains(&layout) { 5 - layout } else { layout })
    }
});

wrong!(every_layout_as_bgra, "xs 1 1 rgba 2000000100 - EE*4", {
    fn decode(call: &mut StreamCall) -> i64 {
        with_layout(call, |layout| if layout < 4 { 0 } else { layout })
    }
});

// The place of refusal 3.

wrong!(refusal_3_before_13, "xs 0 0 4 - - -", {
    fn refused(call: &StreamCall) -> i64 {
        if is_unknown(call) {
            3
        } else {
            Right::refused(call)
        }
    }
});

wrong!(refusal_3_before_14, "xs 0 0 4 20 - -", {
    fn refused(call: &StreamCall) -> i64 {
        match Right::refused(call) {
            14 if is_unknown(call) => 3,
            number => number,
        }
    }
});

wrong!(refusal_3_before_1, "xs 0 0 4 2000 - -", {
    fn refused(call: &StreamCall) -> i64 {
        match Right::refused(call) {
            0 if is_unknown(call) => 3,
            number => number,
        }
    }
});

wrong!(refusal_3_before_2, "xs 1 8193 4 2000 - -", {
    fn refused(call: &StreamCall) -> i64 {
        match Right::refused(call) {
            0 if is_unknown(call) && call.width > 0 && call.height > 0 => 3,
            number => number,
        }
    }
});

wrong!(refusal_3_behind_4, "xs 1 1 4 2000 - -", {
    fn decode_body(call: &mut decoder::Call) -> i64 {
        match decoder::Right::decode(call) {
            -3 if call.body.len < decoder::Right::min_body(call) => -4,
            answer => answer,
        }
    }
});

wrong!(refusal_3_behind_6, "xs 1 1 4 2000*4 - -", {
    fn decode_body(call: &mut decoder::Call) -> i64 {
        let image = call.image.len;
        match decoder::Right::decode(call) {
            -3 if call.body.len >= decoder::Right::min_body(call)
                && call.work.len >= decoder::Right::min_work(call)
                && image < decoder::Right::min_image(call) =>
            {
                -6
            }
            answer => answer,
        }
    }
});

wrong!(a_wrong_layout_clears_the_work_area, "xs 1 1 4 2000 EE -", {
    fn decode(call: &mut StreamCall) -> i64 {
        let answer = Right::decode(call);
        if answer == -3 {
            call.work.bytes_mut().fill(0);
        }
        answer
    }
});

wrong!(level_0_refused_by_3, "xs 1 1 bgra 2000 - -", {
    fn form(byte: u8) -> Form {
        Form { definition: 1, ..Right::form(byte) }
    }
});

// The body.

wrong!(alpha_0_where_there_is_none, "xs 1 1 bgra 2000*4 - EE*4", {
    fn decode_body(call: &mut decoder::Call) -> i64 {
        struct Transparent;
        impl Decoder for Transparent {
            fn alpha(call: &decoder::Call, pixel: usize) -> u8 {
                if call.form.alpha {
                    decoder::Right::alpha(call, pixel)
                } else {
                    0
                }
            }
        }
        Transparent::decode(call)
    }
});

wrong!(alpha_overwritten_by_the_first_colour_plane, "xs 1 1 bgra 1010000000 EE*4 EE*4", {
    fn decode_body(call: &mut decoder::Call) -> i64 {
        struct Overwritten;
        impl Decoder for Overwritten {
            fn alpha_offset(_call: &decoder::Call) -> usize {
                0
            }
        }
        Overwritten::decode(call)
    }
});

wrong!(the_header_byte_taken_as_alpha, "xs 1 1 bgra 00*6 - EE*4", {
    fn decode_body(call: &mut decoder::Call) -> i64 {
        struct Early;
        impl Decoder for Early {
            fn alpha(call: &decoder::Call, pixel: usize) -> u8 {
                if !call.form.alpha || call.form.rle {
                    return decoder::Right::alpha(call, pixel);
                }
                // A byte that is not 0 shows it sooner.
                Slice { at: call.body.at.wrapping_sub(1), len: 1 }.read(pixel) ^ 1
            }
        }
        Early::decode(call)
    }
});

wrong!(the_pad_byte_taken_as_body, "xs 1 1 bgra 00*5 - -", {
    fn body_len(len: usize, _form: Form) -> usize {
        len - 1
    }
});

wrong!(the_answer_of_three_bytes, "xs 1 1 bgra 2000*4 - EE*4", {
    fn decode_body(call: &mut decoder::Call) -> i64 {
        match decoder::Right::decode(call) {
            count @ 1.. => count / 4 * 3,
            refused => refused,
        }
    }
});

wrong!(refusal_5_by_the_size_of_three_bytes, "xs 1 1 bgra 1000*4 EEEEEE -", {
    fn decode_body(call: &mut decoder::Call) -> i64 {
        let three = decoder::Right::colour_len(call);
        match decoder::Right::decode(call) {
            -5 if call.form.rle && call.work.len >= three => -6,
            answer => answer,
        }
    }
});

wrong!(refusal_6_by_three_bytes_a_pixel, "xs 1 1 bgra 2000*4 - EEEEEE", {
    fn decode_body(call: &mut decoder::Call) -> i64 {
        let three = 3 * call.full();
        match decoder::Right::decode(call) {
            -6 if call.image.len >= three => three as i64,
            answer => answer,
        }
    }
});

wrong!(a_raw_stream_touches_the_work_area, "xs 1 1 bgra 2000*4 EE EE*4", {
    fn decode_body(call: &mut decoder::Call) -> i64 {
        let answer = decoder::Right::decode(call);
        if answer > 0 && !call.form.rle && call.work.len > 0 {
            call.work.write(0, 0);
        }
        answer
    }
});

// The size of the work area.

wrong!(a_work_area_without_alpha, "xz 1 1 10", {
    fn pixels_work_size_of(form: Form, width: usize, height: usize) -> usize {
        Right::work_size_of(form, width, height)
    }
});

wrong!(a_work_area_that_always_has_alpha, "xz 1 1 30", {
    fn pixels_work_size_of(form: Form, width: usize, height: usize) -> usize {
        Right::pixels_work_size_of(Form { alpha: true, ..form }, width, height)
    }
});

wrong!(a_work_area_for_the_alpha_of_a_raw_stream, "xz 1 1 00", {
    fn pixels_work_size_of(form: Form, width: usize, height: usize) -> usize {
        match Right::pixels_work_size_of(form, width, height) {
            0 if form.alpha => {
                Right::work_size_of(Form { rle: true, ..form }, width, height).min(width.saturating_mul(height))
            }
            size => size,
        }
    }
});

wrong!(a_work_area_with_a_small_alpha_plane, "xz 1 2 19", {
    fn pixels_work_size_of(form: Form, width: usize, height: usize) -> usize {
        match Right::work_size_of(form, width, height) {
            0 => 0,
            size => size + usize::from(form.alpha) * (size - width * height) / 2,
        }
    }
});

wrong!(a_work_area_of_an_empty_stream, "xz 1 1 -", {
    fn pixels_work_size(stream: Slice, width: usize, height: usize) -> usize {
        if stream.len == 0 {
            return Self::pixels_work_size_of(Right::form(0x10), width, height);
        }
        Right::pixels_work_size(stream, width, height)
    }
});

wrong!(a_work_area_by_a_byte_behind_the_header, "xz 0 0 00", {
    fn pixels_work_size(stream: Slice, width: usize, height: usize) -> usize {
        if stream.len > 0 {
            stream.read(1);
        }
        Right::pixels_work_size(stream, width, height)
    }
});
