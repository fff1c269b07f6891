//! The comparer must find every one of these mistakes in an encoder that reads a channel of 16 pixels at once, then of four, then of single
//! ones: in RLE pictures, whose rows are read one by one, and in raw ones, whose pixels are read together.

mod support;

use comparer::encoding::{blocks, Channel};
use support::encoder::{Call, Encoder, Right, A, B, G, R};
use support::{encoding_search, with_encoder, Search};

/// The fixed cases are those around the length of a block alone.
const SEARCH: Search = encoding_search(blocks::run);

/// The pixels of a block.
const BLOCK: usize = 16;

/// Where a sample is among those that are read together: its index, how many there are, and how many of them are in complete blocks.
struct Place {
    index: usize,
    count: usize,
    blocks: usize,
}

impl Place {
    fn of(call: &Call, at: usize) -> Place {
        let count = if call.rle { call.width } else { call.full() };
        Place { index: at % count, count, blocks: count / BLOCK * BLOCK }
    }

    /// Whether it is read without the others of a block, though there are blocks.
    fn is_left_over(&self) -> bool {
        self.blocks > 0 && self.index >= self.blocks
    }
}

/// The channel behind another in a pixel; behind A that of the next pixel.
fn neighbour(channel: Channel) -> Channel {
    match channel {
        B => G,
        G => R,
        R => A,
        A => B,
    }
}

#[test]
fn a_right_encoder_has_no_difference() {
    SEARCH.finds_nothing(with_encoder::<Right>());
}

/// An encoder that reads a sample of pixels differently, of raw pictures alone and of RLE ones alone, and the smallest inputs that show it.
macro_rules! wrong {
    ($name:ident, $raw:literal, $rle:literal, |$call:ident, $channel:ident, $at:ident, $place:ident| $sample:expr) => {
        #[test]
        fn $name() {
            struct Wrong<const RLE: bool>;
            impl<const RLE: bool> Encoder for Wrong<RLE> {
                fn sample($call: &Call, $channel: Channel, $at: usize) -> u8 {
                    if !$call.is_bitmap() || $call.rle != RLE {
                        return Right::sample($call, $channel, $at);
                    }
                    let $place = Place::of($call, $at);
                    $sample
                }
            }
            SEARCH.finds(with_encoder::<Wrong<false>>(), $raw);
            SEARCH.finds(with_encoder::<Wrong<true>>(), $rle);
        }
    };
}

wrong!(
    the_17th_pixel_left_out,
    "pb 6 3 bgra 0 0 00*65,0100*6 EE*55",
    "pb 17 1 bgra 1 0 00*66,0100 EE*4",
    |call, channel, at, place| match place.index {
        BLOCK => 0,
        _ => Right::sample(call, channel, at),
    }
);

wrong!(
    leftover_pixels_written_over_the_first,
    "pb 6 3 bgra 0 0 00*5,0100*66 EE*55",
    "pb 17 1 bgra 1 0 00000100*65 EEEE",
    |call, channel, at, place| {
        if place.is_left_over() {
            return 0;
        }
        let written_over = place.blocks > 0 && place.index < place.count - place.blocks;
        Right::sample(call, channel, if written_over { at + place.blocks } else { at })
    }
);

wrong!(
    leftover_pixels_read_from_the_first,
    "pb 6 3 bgra 0 0 00*5,0100*66 EE*55",
    "pb 17 1 bgra 1 0 00000100*65 EEEEEE",
    |call, channel, at, place| {
        Right::sample(call, channel, if place.is_left_over() { at - place.blocks } else { at })
    }
);

wrong!(
    every_block_read_from_the_first_pixels,
    "pb 11 3 bgra 0 0 00*105,0100*26 EE*100",
    "pb 32 1 bgra 1 0 00*26,0100*101 EE*5",
    |call, channel, at, place| {
        let in_a_block = place.index < place.blocks;
        Right::sample(call, channel, if in_a_block { at - place.index / BLOCK * BLOCK } else { at })
    }
);

wrong!(
    a_neighbouring_channel_in_the_last_block,
    "pb 6 3 bgra 0 0 00*53,0100*18 EE*55",
    "pb 16 1 bgra 1 0 00*58,0100*5 EEEE",
    |call, channel, at, place| {
        let in_the_last = place.index < place.blocks && place.index + BLOCK >= place.blocks;
        Right::sample(call, if in_the_last { neighbour(channel) } else { channel }, at)
    }
);

wrong!(
    a_neighbouring_channel_behind_the_blocks,
    "pb 6 3 bgra 0 0 00*71,01 EE*55",
    "pb 17 1 bgra 1 0 00*67,01 EE*4",
    |call, channel, at, place| {
        Right::sample(call, if place.is_left_over() { neighbour(channel) } else { channel }, at)
    }
);

wrong!(
    alpha_of_a_block_with_its_highest_bit_lost,
    "pb 6 3 bgra 0 1 0000008000*68 EE*73",
    "pb 16 1 bgra 1 1 00*59,8000*4 EEEE",
    |call, channel, at, place| {
        let lost = channel == A && place.index < place.blocks;
        Right::sample(call, channel, at) & if lost { 0x7F } else { 0xFF }
    }
);

wrong!(
    the_last_1_to_3_pixels_left_out,
    "pb 6 3 bgra 0 0 00*70,0100 EE*55",
    "pb 17 1 bgra 1 0 00*66,0100 EE*4",
    |call, channel, at, place| {
        let left_out = place.is_left_over() && place.index >= place.count / 4 * 4;
        if left_out {
            0
        } else {
            Right::sample(call, channel, at)
        }
    }
);

wrong!(
    four_pixels_read_past_the_last,
    "pb 6 3 bgra 0 0 00*72 EE*55",
    "pb 17 1 bgra 1 0 00*68 -",
    |call, channel, at, place| {
        if place.is_left_over() {
            let last = at - place.index + place.count.next_multiple_of(4) - 1;
            call.slices()[0].read(4 * last);
        }
        Right::sample(call, channel, at)
    }
);

wrong!(
    a_block_read_past_the_last,
    "pb 6 3 bgra 0 0 00*72 EE*55",
    "pb 17 1 bgra 1 0 00*68 -",
    |call, channel, at, place| {
        if place.is_left_over() {
            let last = at - place.index + place.count.next_multiple_of(BLOCK) - 1;
            call.slices()[0].read(4 * last);
        }
        Right::sample(call, channel, at)
    }
);
