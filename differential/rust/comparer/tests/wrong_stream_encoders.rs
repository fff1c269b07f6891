//! The comparer must find every one of these mistakes in functions that write streams, and none in right ones.

#[macro_use]
mod support;

use comparer::encoding::fixed;
use comparer::{Extent, Library};
use support::encoder::{self, Call, Encoder as _};
use support::stream::{behind, streams, RightDecoder, RightEncoder as Right, StreamCall, StreamDecoder, StreamEncoder};
use support::{encoding_rounds, Search, RIGHT_LIBRARY};

const SEARCH: Search = Search {
    fixed: fixed::run_streams,
    random: |seed| encoding_rounds(seed, Extent::Stream),
    rounds: 300,
    alone: 5_000,
};

/// The encoder beside right functions for the rest.
fn with<E: StreamEncoder>() -> Library {
    Library { streams: streams::<RightDecoder, E>(), ..RIGHT_LIBRARY }
}

#[test]
fn a_right_encoder_has_no_difference() {
    SEARCH.finds_nothing(with::<Right>());
}

/// An encoder that does some steps differently, and the smallest input that shows it.
macro_rules! wrong {
    ($($mistake:tt)*) => {
        wrong_function!(StreamEncoder, with, $($mistake)*);
    };
}

// The header byte.

wrong!(the_header_byte_written_before_packing_succeeded, "sb 1 1 bgra 0 0 00*4 EE", {
    fn encode_body(call: &mut Call) -> i64 {
        call.dst.write(0, Self::header(call));
        Right::encode_body(call)
    }
});

wrong!(the_header_byte_written_before_an_rle_body, "sb 1 1 bgra 1 0 00*4 EE", {
    fn encode_body(call: &mut Call) -> i64 {
        if call.rle {
            call.dst.write(0, Self::header(call));
        }
        Right::encode_body(call)
    }
});

wrong!(the_header_byte_written_before_refusal_11, "sb 1 1 bgra 0 0 - EE", {
    fn encode(call: &mut Call) -> i64 {
        if encoder::Right::refused(call) == 11 && call.dst.len > 0 {
            call.dst.write(0, Self::header(call));
        }
        Right::encode(call)
    }
});

wrong!(the_header_byte_written_where_nothing_else_fits, "sb 1 1 bgra 0 0 00*4 EE", {
    fn after_refusal(call: &mut Call) {
        if call.dst.len == 1 {
            call.dst.write(0, Self::header(call));
        }
    }
});

wrong!(the_first_byte_cleared_by_a_refusal, "sb 1 1 bgra 0 0 00*4 EE", {
    fn after_refusal(call: &mut Call) {
        call.dst.write(0, 0);
    }
});

wrong!(the_alpha_flag_of_four_planes, "sb 1 1 bgra 0 1 00*4 EE*6", {
    fn header(call: &Call) -> u8 {
        Right::header(call) & if call.alpha { 0x10 } else { 0x30 }
    }
});

wrong!(the_alpha_flag_of_four_rle_planes, "sb 1 1 bgra 1 1 00*4 EE*9", {
    fn header(call: &Call) -> u8 {
        Right::header(call) & if call.alpha && call.rle { 0x10 } else { 0x30 }
    }
});

wrong!(the_alpha_bit_the_wrong_way_round, "sb 1 1 bgra 0 0 00*4 EE*5", {
    fn header(call: &Call) -> u8 {
        Right::header(call) & 0x10
    }
});

wrong!(always_the_header_byte_of_rle, "sb 1 1 bgra 0 0 00*4 EE*5", {
    fn header(_call: &Call) -> u8 {
        0x30
    }
});

wrong!(always_the_header_byte_of_a_raw_stream, "sb 1 1 bgra 1 0 00*4 EE*7", {
    fn header(_call: &Call) -> u8 {
        0x20
    }
});

wrong!(a_loss_level_of_1, "sb 1 1 bgra 0 0 00*4 EE*5", {
    fn header(call: &Call) -> u8 {
        Right::header(call) | 1
    }
});

wrong!(a_top_bit_written, "sb 1 1 bgra 0 0 00*4 EE*5", {
    fn header(call: &Call) -> u8 {
        Right::header(call) | 0x80
    }
});

wrong!(bit_3_written, "sb 1 1 bgra 0 0 00*4 EE*5", {
    fn header(call: &Call) -> u8 {
        Right::header(call) | 0x08
    }
});

wrong!(no_header_byte, "sb 1 1 bgra 0 0 00*4 EE*4", {
    fn encode(call: &mut Call) -> i64 {
        encoder::Right::encode(call)
    }
});

// The answer.

wrong!(the_count_without_the_header_byte, "sb 1 1 bgra 0 0 00*4 EE*5", {
    fn count(body: i64) -> i64 {
        body
    }
});

wrong!(the_count_one_too_high, "sb 1 1 bgra 0 0 00*4 EE*5", {
    fn count(body: i64) -> i64 {
        body + 2
    }
});

// The destination.

wrong!(the_body_written_over_the_first_byte, "sb 1 1 bgra 0 0 00*4 EE*4", {
    fn body_start() -> usize {
        0
    }
});

wrong!(the_body_a_byte_too_late, "sb 1 1 bgra 0 0 00*4 EE*5", {
    fn body_start() -> usize {
        2
    }
});

wrong!(segments_of_a_refused_stream_not_kept, "sb 1 1 bgra 1 0 00*4 EEEEEE", {
    fn encode_body(call: &mut Call) -> i64 {
        let before = call.dst.bytes().to_vec();
        let answer = Right::encode_body(call);
        if answer < 0 {
            call.dst.bytes_mut().copy_from_slice(&before);
        }
        answer
    }
});

wrong!(segments_of_a_refused_stream_from_the_first_byte_on, "sb 1 1 bgra 1 0 00*4 EEEE", {
    fn after_refusal(call: &mut Call) {
        if call.rle {
            behind(call, 0, encoder::Right::encode);
        }
    }
});

wrong!(the_rest_of_a_refused_destination_cleared, "sb 1 1 bgra 0 0 00*4 EE", {
    fn after_refusal(call: &mut Call) {
        let last = call.dst.len - 1;
        call.dst.write(last, 0);
    }
});

wrong!(samples_of_a_refused_raw_stream, "sb 1 1 bgra 0 0 00*4 EEEE", {
    fn encode_body(call: &mut Call) -> i64 {
        let answer = Right::encode_body(call);
        if answer < 0 && !call.rle {
            let body = encoder::Right::raw_body(call);
            (1..call.dst.len).zip(body).for_each(|(at, byte)| call.dst.write(at, byte));
        }
        answer
    }
});

wrong!(a_raw_stream_without_a_pad_byte, "sb 1 1 bgra 0 0 00*4 EE*5", {
    fn encode_body(call: &mut Call) -> i64 {
        match Right::encode_body(call) {
            count @ 1.. if !call.rle => count - 1,
            answer => answer,
        }
    }
});

wrong!(an_rle_stream_with_a_pad_byte, "sb 1 1 bgra 1 0 00*4 EE*8", {
    fn encode_body(call: &mut Call) -> i64 {
        let answer = Right::encode_body(call);
        if answer > 0 && call.rle && call.dst.len > answer as usize + 1 {
            call.dst.write(answer as usize + 1, 0);
            return answer + 1;
        }
        answer
    }
});

wrong!(room_for_a_byte_too_many_needed, "sc 1 1 0 00 00 00 none EE*5", {
    fn encode_body(call: &mut Call) -> i64 {
        let len = call.dst.len;
        call.dst.len -= usize::from(!call.rle && len > 1);
        let answer = Right::encode_body(call);
        call.dst.len = len;
        answer
    }
});

wrong!(room_for_the_body_alone_needed, "sb 1 1 bgra 0 0 00*4 EE*4", {
    fn encode_body(call: &mut Call) -> i64 {
        call.dst.len += usize::from(!call.rle);
        let answer = Right::encode_body(call);
        call.dst.len -= usize::from(!call.rle);
        answer
    }
});

// An empty destination.

wrong!(refusal_12_of_an_empty_destination_before_11, "sc 1 1 0 - - - none -", {
    fn encode(call: &mut Call) -> i64 {
        if call.dst.len == 0 && encoder::Right::refused(call) == 11 {
            return -12;
        }
        Right::encode(call)
    }
});

wrong!(refusal_12_of_an_empty_destination_before_1, "sc 0 0 0 - - - none -", {
    fn encode(call: &mut Call) -> i64 {
        if call.dst.len == 0 {
            return -12;
        }
        Right::encode(call)
    }
});

wrong!(an_empty_destination_answered_0, "sb 1 1 bgra 0 0 00*4 -", {
    fn without_room(_call: &Call) -> i64 {
        0
    }
});

wrong!(an_empty_destination_refused_by_11, "sb 1 1 bgra 0 0 00*4 -", {
    fn without_room(_call: &Call) -> i64 {
        -11
    }
});

wrong!(an_empty_destination_written, "sb 1 1 bgra 0 0 00*4 -", {
    fn encode(call: &mut Call) -> i64 {
        if call.dst.len == 0 && encoder::Right::refused(call) == 0 {
            call.dst.write(0, Self::header(call));
        }
        Right::encode(call)
    }
});

/// A decoder that takes a stream as the right one does, but not what the library has packed.
struct Unreadable;

impl StreamDecoder for Unreadable {
    fn decode(call: &mut StreamCall) -> i64 {
        let answer = RightDecoder::decode(call);
        call.image.bytes_mut().fill(0x55);
        answer
    }
}

/// Each packed stream of three planes is unpacked by the library too.
#[test]
fn a_stream_that_the_library_does_not_read_back() {
    let library = Library { streams: streams::<Unreadable, Right>(), ..RIGHT_LIBRARY };
    let difference = SEARCH.difference_in(library).expect("a mistake is found");
    assert_eq!(difference.case.to_string(), "sb 1 1 bgra 0 0 00*4 EE*5");
    assert_eq!((&difference.reason[..], difference.side), ("the image unpacked again", "rdp6, unpacked by itself"));
}
