//! The comparer must find every one of these mistakes in a picture encoder, and none in a right one.

#[macro_use]
mod support;

use comparer::case::MAX_SIDE;
use comparer::encoding::fixed;
use comparer::encoding::Channel;
use comparer::Comparer;
use support::encoder::{packed, Call, Encoder, Given, Right, A, B, G, R};
use support::{encoding_search, with_encoder, Search};

const SEARCH: Search = encoding_search(fixed::run);

#[test]
fn a_right_encoder_has_no_difference() {
    SEARCH.finds_nothing(with_encoder::<Right>());
}

/// An encoder that does some steps differently, and the smallest input that shows it.
macro_rules! wrong {
    ($($mistake:tt)*) => {
        wrong_function!(Encoder, with_encoder, $($mistake)*);
    };
}

// The order of the planes.

wrong!(blue_first, "pb 1 1 bgra 0 0 00000100 EE*4", {
    fn plane_order(call: &Call) -> Vec<Channel> {
        if call.alpha {
            vec![A, B, G, R]
        } else {
            vec![B, G, R]
        }
    }
});

wrong!(green_and_blue_exchanged, "pb 1 1 bgra 0 0 00010000 EE*4", {
    fn plane_order(call: &Call) -> Vec<Channel> {
        if call.alpha {
            vec![A, R, B, G]
        } else {
            vec![R, B, G]
        }
    }
});

wrong!(red_and_green_exchanged_with_alpha, "pb 1 1 bgra 0 1 00000100 EE*5", {
    fn plane_order(call: &Call) -> Vec<Channel> {
        if call.alpha {
            vec![A, G, R, B]
        } else {
            vec![R, G, B]
        }
    }
});

wrong!(the_alpha_plane_last, "pb 1 1 bgra 0 1 00000001 EE*5", {
    fn plane_order(call: &Call) -> Vec<Channel> {
        if call.alpha {
            vec![R, G, B, A]
        } else {
            vec![R, G, B]
        }
    }
});

wrong!(the_alpha_plane_last_if_raw, "pb 1 1 bgra 0 1 00000001 EE*5", {
    fn plane_order(call: &Call) -> Vec<Channel> {
        match (call.alpha, call.rle) {
            (true, true) => vec![A, R, G, B],
            (true, false) => vec![R, G, B, A],
            (false, _) => vec![R, G, B],
        }
    }
});

wrong!(the_alpha_plane_left_out, "pb 1 1 bgra 0 1 00*4 EE*5", {
    fn plane_order(_call: &Call) -> Vec<Channel> {
        vec![R, G, B]
    }
});

wrong!(an_alpha_plane_of_every_bitmap, "pb 1 1 bgra 0 0 00*4 EE*4", {
    fn plane_order(call: &Call) -> Vec<Channel> {
        if call.alpha || call.is_bitmap() {
            vec![A, R, G, B]
        } else {
            vec![R, G, B]
        }
    }
});

wrong!(red_in_every_plane, "pb 1 1 bgra 0 0 00000100 EE*4", {
    fn plane_order(call: &Call) -> Vec<Channel> {
        vec![R; call.planes()]
    }
});

// The layout of a pixel.

wrong!(bgra_as_rgba, "pb 1 1 bgra 0 0 00000100 EE*4", {
    fn place(channel: Channel) -> usize {
        channel as usize
    }
});

wrong!(bgra_as_argb, "pb 1 1 bgra 0 0 00000001 EE*4", {
    fn place(channel: Channel) -> usize {
        (channel as usize + 1) % 4
    }
});

wrong!(bgra_as_abgr, "pb 1 1 bgra 0 0 00000001 EE*4", {
    fn place(channel: Channel) -> usize {
        3 - channel as usize
    }
});

wrong!(a_channel_off_by_one, "pb 1 1 bgra 0 0 00000001 EE*4", {
    fn place(channel: Channel) -> usize {
        Right::place(channel) + 1
    }
});

wrong!(alpha_read_from_red, "pb 1 1 bgra 0 1 00000001 EE*5", {
    fn place(channel: Channel) -> usize {
        Right::place(channel).min(2)
    }
});

wrong!(alpha_read_from_the_first_byte, "pb 1 1 bgra 0 1 00000001 EE*5", {
    fn place(channel: Channel) -> usize {
        if channel == A {
            0
        } else {
            Right::place(channel)
        }
    }
});

wrong!(a_stride_of_3, "pb 2 1 bgra 0 0 00*6,0100 EE*7", {
    fn stride(_call: &Call) -> usize {
        3
    }
});

wrong!(a_stride_of_3_without_alpha, "pb 2 1 bgra 0 0 00*6,0100 EE*7", {
    fn stride(call: &Call) -> usize {
        call.planes()
    }
});

wrong!(a_stride_of_5, "pb 2 1 bgra 0 0 00*7,01 EE*7", {
    fn stride(_call: &Call) -> usize {
        5
    }
});

wrong!(a_stride_of_1, "pb 2 1 bgra 0 0 00*6,0100 EE*7", {
    fn stride(_call: &Call) -> usize {
        1
    }
});

wrong!(alpha_in_front_of_the_other_channels, "pc 1 1 0 00 00 00 01 EE*5", {
    fn sample(call: &Call, channel: Channel, at: usize) -> u8 {
        if call.is_bitmap() || !call.alpha {
            return Right::sample(call, channel, at);
        }
        call.slices()[(channel as usize + 1) % 4].bytes()[at]
    }
});

wrong!(alpha_inverted, "pb 1 1 bgra 0 1 00*4 EE*5", {
    fn sample(call: &Call, channel: Channel, at: usize) -> u8 {
        let sample = Right::sample(call, channel, at);
        if channel == A {
            !sample
        } else {
            sample
        }
    }
});

wrong!(alpha_always_opaque, "pb 1 1 bgra 0 1 00*4 EE*5", {
    fn sample(call: &Call, channel: Channel, at: usize) -> u8 {
        if channel == A {
            0xFF
        } else {
            Right::sample(call, channel, at)
        }
    }
});

wrong!(colours_multiplied_by_alpha, "pb 1 1 bgra 0 1 00000100 EE*5", {
    fn sample(call: &Call, channel: Channel, at: usize) -> u8 {
        let sample = Right::sample(call, channel, at);
        if !call.alpha || channel == A {
            return sample;
        }
        (u16::from(sample) * u16::from(Right::sample(call, A, at)) / 255) as u8
    }
});

// The other layouts, and those that there are not.

wrong!(red_and_blue_exchanged_in_rgba, "pb 1 1 rgba 0 0 01000000 EE*4", {
    fn place_in(layout: u32, channel: Channel) -> usize {
        match (layout, channel) {
            (1, R) => 2,
            (1, B) => 0,
            _ => Right::place_in(layout, channel),
        }
    }
});

wrong!(red_and_blue_exchanged_in_argb, "pb 1 1 argb 0 0 00010000 EE*4", {
    fn place_in(layout: u32, channel: Channel) -> usize {
        match (layout, channel) {
            (2, R) => 3,
            (2, B) => 1,
            _ => Right::place_in(layout, channel),
        }
    }
});

wrong!(red_and_blue_exchanged_in_abgr, "pb 1 1 abgr 0 0 00000001 EE*4", {
    fn place_in(layout: u32, channel: Channel) -> usize {
        match (layout, channel) {
            (3, R) => 1,
            (3, B) => 3,
            _ => Right::place_in(layout, channel),
        }
    }
});

wrong!(alpha_of_argb_read_from_the_last_byte, "pb 1 1 argb 0 1 01000000 EE*5", {
    fn place_in(layout: u32, channel: Channel) -> usize {
        match (layout, channel) {
            (2, A) => 3,
            _ => Right::place_in(layout, channel),
        }
    }
});

wrong!(every_layout_as_bgra, "pb 1 1 rgba 0 0 01000000 EE*4", {
    fn place_in(_layout: u32, channel: Channel) -> usize {
        Right::place(channel)
    }
});

wrong!(argb_and_abgr_exchanged, "pb 1 1 argb 0 0 00010000 EE*4", {
    fn place_in(layout: u32, channel: Channel) -> usize {
        Right::place_in(if layout > 1 { 5 - layout } else { layout }, channel)
    }
});

wrong!(the_other_layouts_shifted_in_wide_rows, "pb 64 1 rgba 0 0 00*254,0100 EE*193", {
    fn sample(call: &Call, channel: Channel, at: usize) -> u8 {
        let last = call.layout == 1 && call.width >= 64 && at % call.width == call.width - 1;
        Right::sample(call, channel, at - usize::from(last))
    }
});

wrong!(a_layout_modulo_4, "pb 1 1 4 0 0 - -", {
    fn layout_refused(_layout: u32) -> bool {
        false
    }

    fn place_in(layout: u32, channel: Channel) -> usize {
        Right::place_in(layout % 4, channel)
    }
});

wrong!(a_layout_modulo_256, "pb 1 1 256 0 0 - -", {
    fn layout_refused(layout: u32) -> bool {
        layout % 256 > 3
    }

    fn place_in(layout: u32, channel: Channel) -> usize {
        Right::place_in(layout % 256, channel)
    }
});

wrong!(layout_3_refused, "pb 1 1 abgr 0 0 - -", {
    fn layout_refused(layout: u32) -> bool {
        layout > 2
    }
});

wrong!(refusal_3_before_1, "pb 0 0 4 0 0 - -", {
    fn layout_order() -> usize {
        0
    }
});

wrong!(refusal_3_between_1_and_2, "pb 8193 1 4 0 0 - -", {
    fn layout_order() -> usize {
        1
    }
});

wrong!(refusal_3_after_11, "pb 1 1 4 0 0 - -", {
    fn layout_order() -> usize {
        3
    }
});

wrong!(refusal_3_after_12, "pb 1 1 4 0 0 00*4 -", {
    fn refused(call: &Call) -> i64 {
        match Right::refused(call) {
            3 if !Self::is_short(call) && !call.rle && call.dst.len < Self::raw_needed(call) => 12,
            number => number,
        }
    }
});

wrong!(a_wrong_layout_clears_the_destination, "pb 1 1 4 0 0 - EE", {
    fn encode(call: &mut Call) -> i64 {
        let answer = Right::encode(call);
        if answer == -3 {
            call.dst.bytes_mut().fill(0);
        }
        answer
    }
});

// Which samples are packed.

wrong!(rows_upside_down, "pc 1 2 0 0000 0001 0000 none EE*7", {
    fn sample(call: &Call, channel: Channel, at: usize) -> u8 {
        let (row, column) = (at / call.width, at % call.width);
        Right::sample(call, channel, (call.height - 1 - row) * call.width + column)
    }
});

wrong!(rows_from_right_to_left, "pb 2 1 bgra 0 0 00*6,0100 EE*7", {
    fn sample(call: &Call, channel: Channel, at: usize) -> u8 {
        let (row, column) = (at / call.width, at % call.width);
        Right::sample(call, channel, row * call.width + call.width - 1 - column)
    }
});

wrong!(rows_and_columns_exchanged, "pc 2 2 0 00*4 00*4 00000100 none EE*13", {
    fn sample(call: &Call, channel: Channel, at: usize) -> u8 {
        let (row, column) = (at / call.width, at % call.width);
        Right::sample(call, channel, column * call.height + row)
    }
});

wrong!(the_first_row_copied_down, "pc 1 2 0 0000 0001 0000 none EE*7", {
    fn sample(call: &Call, channel: Channel, at: usize) -> u8 {
        Right::sample(call, channel, at % call.width)
    }
});

wrong!(the_first_sample_left_out, "pb 1 1 bgra 0 0 00000100 EE*4", {
    fn sample(call: &Call, channel: Channel, at: usize) -> u8 {
        Right::sample(call, channel, at + 1)
    }
});

wrong!(the_last_sample_left_out_of_a_raw_picture, "pb 1 1 bgra 0 0 00*4 EE*4", {
    fn used(call: &Call, _channel: Channel) -> usize {
        call.full() - usize::from(!call.rle)
    }
});

wrong!(long_sources_written_completely, "pc 1 1 0 00 00 0000 none EE*4", {
    fn used(call: &Call, channel: Channel) -> usize {
        match &call.given {
            _ if call.rle => call.full(),
            Given::Channels(slices) => slices[channel as usize].len,
            Given::Pixels(pixels) => pixels.len / 4,
        }
    }
});

wrong!(long_sources_written_as_far_as_there_is_room, "pc 1 1 0 00 00 0000 none EE*5", {
    fn used(call: &Call, channel: Channel) -> usize {
        match &call.given {
            Given::Channels(slices) if !call.rle => slices[channel as usize].len,
            Given::Pixels(pixels) if !call.rle => pixels.len / 4,
            _ => call.full(),
        }
    }

    fn raw_body(call: &Call) -> Vec<u8> {
        let mut body = Right::raw_body(call);
        let all: Vec<u8> = Self::plane_order(call).into_iter().flat_map(|of| Self::plane(call, of)).collect();
        if all.len() < call.dst.len {
            body = all;
            body.push(0);
        }
        body
    }
});

wrong!(the_last_samples_of_a_long_source, "pc 1 1 0 00 00 0001 none EE*4", {
    fn sample(call: &Call, channel: Channel, at: usize) -> u8 {
        let more = match &call.given {
            Given::Channels(slices) => slices[channel as usize].len - call.full(),
            Given::Pixels(pixels) => pixels.len / 4 - call.full(),
        };
        Right::sample(call, channel, more + at)
    }
});

wrong!(rows_beyond_the_height_packed, "pc 1 1 1 0000 0100 0000 none EE*4", {
    fn write_plane(call: &mut Call, channel: Channel, at: usize) -> Result<usize, i64> {
        let rows = Self::counts(call).into_iter().min().unwrap_or(0) / call.width;
        let plane: Vec<u8> = (0..rows * call.width).map(|at| Self::sample(call, channel, at)).collect();
        packed(&plane, call.dst.bytes_mut().get_mut(at..).unwrap_or(&mut []), (call.width, rows))
    }
});

// RLE planes.

wrong!(rle_for_raw_and_raw_for_rle, "pb 1 1 bgra 0 0 00*4 EEEE", {
    fn encode(call: &mut Call) -> i64 {
        call.rle = !call.rle;
        Right::encode(call)
    }
});

wrong!(always_raw, "pb 1 1 bgra 1 0 00*4 EEEE", {
    fn encode(call: &mut Call) -> i64 {
        call.rle = false;
        Right::encode(call)
    }
});

wrong!(always_rle, "pb 1 1 bgra 0 0 00*4 EEEE", {
    fn encode(call: &mut Call) -> i64 {
        call.rle = true;
        Right::encode(call)
    }
});

wrong!(raw_where_rle_is_longer, "pb 1 1 bgra 1 0 00*4 EE*6", {
    fn write_rle(call: &mut Call) -> Result<usize, i64> {
        let count = Right::write_rle(call)?;
        if count > Self::raw_needed(call) {
            Self::write_raw(call)
        } else {
            Ok(count)
        }
    }
});

wrong!(each_plane_as_one_row, "pc 1 2 1 0000 0000 0000 none EEEE", {
    fn write_plane(call: &mut Call, channel: Channel, at: usize) -> Result<usize, i64> {
        let (plane, full) = (Self::plane(call, channel), call.full());
        packed(&plane, call.dst.bytes_mut().get_mut(at..).unwrap_or(&mut []), (full, 1))
    }
});

wrong!(width_and_height_of_a_plane_exchanged, "pc 2 1 1 0000 0000 0000 none EEEE", {
    fn write_plane(call: &mut Call, channel: Channel, at: usize) -> Result<usize, i64> {
        let (plane, sides) = (Self::plane(call, channel), (call.height, call.width));
        packed(&plane, call.dst.bytes_mut().get_mut(at..).unwrap_or(&mut []), sides)
    }
});

wrong!(a_plane_coded_by_the_last_row_of_the_plane_before, "pb 1 1 bgra 1 0 00000100 EE*4", {
    fn write_rle(call: &mut Call) -> Result<usize, i64> {
        let order = Self::plane_order(call);
        let planes: Vec<u8> = order.into_iter().flat_map(|channel| Self::plane(call, channel)).collect();
        let sides = (call.width, call.height * call.planes());
        packed(&planes, call.dst.bytes_mut(), sides)
    }
});

wrong!(a_zero_byte_behind_rle_planes, "pb 1 1 bgra 1 0 00*4 EE*6", {
    fn write_rle(call: &mut Call) -> Result<usize, i64> {
        let count = Right::write_rle(call)?;
        if count == call.dst.len {
            return Err(12);
        }
        call.dst.write(count, 0);
        Ok(count + 1)
    }
});

wrong!(a_zero_byte_behind_rle_planes_if_there_is_room, "pb 1 1 bgra 1 0 00*4 EE*7", {
    fn write_rle(call: &mut Call) -> Result<usize, i64> {
        let count = Right::write_rle(call)?;
        if count < call.dst.len {
            call.dst.write(count, 0);
            return Ok(count + 1);
        }
        Ok(count)
    }
});

wrong!(a_zero_byte_behind_each_rle_plane, "pb 1 1 bgra 1 0 00*4 EEEEEE", {
    fn next_plane(call: &Call, at: usize) -> usize {
        if at < call.dst.len {
            call.dst.write(at, 0);
        }
        at + 1
    }
});

wrong!(a_plane_started_a_byte_late, "pb 1 1 bgra 1 0 00*4 EE*4", {
    fn next_plane(_call: &Call, at: usize) -> usize {
        at + 1
    }

    fn finish(_call: &mut Call, count: usize) -> i64 {
        count as i64
    }
});

wrong!(a_plane_started_a_byte_early, "pb 1 1 bgra 1 0 00*4 EEEEEE", {
    fn write_rle(call: &mut Call) -> Result<usize, i64> {
        let mut at: usize = 0;
        for channel in Self::plane_order(call) {
            at = at.saturating_sub(1);
            at += Self::write_plane(call, channel, at)?;
        }
        Ok(at)
    }
});

wrong!(every_plane_at_the_start, "pb 1 1 bgra 1 0 00*4 EEEE", {
    fn write_rle(call: &mut Call) -> Result<usize, i64> {
        let mut count = 0;
        for channel in Self::plane_order(call) {
            count += Self::write_plane(call, channel, 0)?;
        }
        Ok(count)
    }
});

wrong!(every_plane_at_its_raw_place, "pc 4 1 1 00*4 00*4 00*4 none EE*4", {
    fn write_rle(call: &mut Call) -> Result<usize, i64> {
        let (mut count, full) = (0, call.full());
        for (at, channel) in Self::plane_order(call).into_iter().enumerate() {
            count += Self::write_plane(call, channel, count.max(at * full))?;
        }
        Ok(count)
    }
});

// Refusal 12 of an RLE picture.

wrong!(everything_taken_back_by_refusal_12, "pb 1 1 bgra 1 0 00*4 EEEE", {
    fn write_rle(call: &mut Call) -> Result<usize, i64> {
        let earlier = call.dst.bytes().to_vec();
        let outcome = Right::write_rle(call);
        if outcome.is_err() {
            call.dst.bytes_mut().copy_from_slice(&earlier);
        }
        outcome
    }
});

wrong!(the_refused_plane_taken_back, "pc 17 1 1 00*17 00*17 00*17 none EEEE", {
    fn write_plane(call: &mut Call, channel: Channel, at: usize) -> Result<usize, i64> {
        let earlier = call.dst.bytes().to_vec();
        let outcome = Right::write_plane(call, channel, at);
        if outcome.is_err() {
            call.dst.bytes_mut().copy_from_slice(&earlier);
        }
        outcome
    }
});

wrong!(the_planes_before_the_refused_one_taken_back, "pb 1 1 bgra 1 0 00*4 EEEE", {
    fn write_rle(call: &mut Call) -> Result<usize, i64> {
        let earlier = call.dst.bytes().to_vec();
        let mut at = 0;
        for channel in Self::plane_order(call) {
            at += Self::write_plane(call, channel, at).inspect_err(|_| {
                call.dst.bytes_mut()[..at].copy_from_slice(&earlier[..at]);
            })?;
        }
        Ok(at)
    }
});

wrong!(half_a_segment_before_refusal_12, "pb 1 1 bgra 1 0 00*4 EE", {
    fn write_plane(call: &mut Call, channel: Channel, at: usize) -> Result<usize, i64> {
        let (plane, sides) = (Self::plane(call, channel), (call.width, call.height));
        let mut packing = vec![0; 2 * plane.len()];
        let count = packed(&plane, &mut packing, sides)?;
        let fits = count.min(call.dst.len - at);
        call.dst.bytes_mut()[at..at + fits].copy_from_slice(&packing[..fits]);
        if fits < count {
            Err(12)
        } else {
            Ok(count)
        }
    }
});

wrong!(the_rest_cleared_by_refusal_12, "pb 1 1 bgra 1 0 00*4 EE", {
    fn write_rle(call: &mut Call) -> Result<usize, i64> {
        let mut at = 0;
        for channel in Self::plane_order(call) {
            let outcome = Self::write_plane(call, channel, at);
            if outcome.is_err() {
                call.dst.bytes_mut()[at..].fill(0);
            }
            at += outcome?;
        }
        Ok(at)
    }
});

wrong!(the_planes_behind_a_refused_one_tried, "pc 17 1 1 00*17 00*17 01*4,00*13 none EEEE", {
    fn write_rle(call: &mut Call) -> Result<usize, i64> {
        let (mut at, mut refused) = (0, None);
        for channel in Self::plane_order(call) {
            match Self::write_plane(call, channel, at) {
                Ok(count) => at += count,
                Err(number) => refused = Some(number),
            }
        }
        refused.map_or(Ok(at), Err)
    }
});

wrong!(refusal_12_when_the_room_is_exact, "pc 1 1 1 00 00 00 none EE*6", {
    fn finish(call: &mut Call, count: usize) -> i64 {
        if call.rle && count == call.dst.len {
            -12
        } else {
            count as i64
        }
    }
});

wrong!(refusal_12_of_rle_by_the_worst_case, "pc 1 1 1 00 00 00 none EEEE", {
    fn write_rle(call: &mut Call) -> Result<usize, i64> {
        if call.dst.len < 2 * call.planes() * call.full() {
            return Err(12);
        }
        Right::write_rle(call)
    }
});

wrong!(refusal_12_of_rle_by_the_raw_size, "pc 1 1 1 00 00 00 none EEEE", {
    fn write_rle(call: &mut Call) -> Result<usize, i64> {
        if call.dst.len < Self::raw_needed(call) {
            return Err(12);
        }
        Right::write_rle(call)
    }
});

wrong!(refusal_12_at_once_for_an_empty_plane_left, "pb 1 1 bgra 1 0 00*4 EEEE", {
    fn write_rle(call: &mut Call) -> Result<usize, i64> {
        let mut at = 0;
        for channel in Self::plane_order(call) {
            if at == call.dst.len {
                call.dst.bytes_mut().fill(0);
                return Err(12);
            }
            at += Self::write_plane(call, channel, at)?;
        }
        Ok(at)
    }
});

// Raw pictures.

wrong!(no_zero_byte, "pb 1 1 bgra 0 0 00*4 EE*4", {
    fn pad() -> Vec<u8> {
        vec![]
    }
});

wrong!(no_zero_byte_asked_or_written, "pb 1 1 bgra 0 0 00*4 EEEEEE", {
    fn pad() -> Vec<u8> {
        vec![]
    }

    fn raw_needed(call: &Call) -> usize {
        call.planes() * call.full()
    }
});

wrong!(a_zero_byte_counted_and_not_written, "pb 1 1 bgra 0 0 00*4 EE*4", {
    fn pad() -> Vec<u8> {
        vec![]
    }

    fn finish(call: &mut Call, count: usize) -> i64 {
        count as i64 + i64::from(!call.rle)
    }
});

wrong!(a_last_byte_of_another_value, "pb 1 1 bgra 0 0 00*4 EE*4", {
    fn pad() -> Vec<u8> {
        vec![0xFF]
    }
});

wrong!(two_zero_bytes, "pb 1 1 bgra 0 0 00*4 EE*4", {
    fn pad() -> Vec<u8> {
        vec![0, 0]
    }

    fn raw_needed(call: &Call) -> usize {
        call.planes() * call.full() + 2
    }
});

wrong!(a_zero_byte_first, "pb 1 1 bgra 0 0 00000100 EE*4", {
    fn raw_body(call: &Call) -> Vec<u8> {
        let mut body = Right::raw_body(call);
        body.rotate_right(1);
        body
    }
});

wrong!(a_zero_byte_behind_each_raw_plane, "pb 1 1 bgra 0 0 00*4 EE*4", {
    fn raw_needed(call: &Call) -> usize {
        call.planes() * (call.full() + 1)
    }

    fn raw_body(call: &Call) -> Vec<u8> {
        Self::plane_order(call).into_iter().flat_map(|channel| [Self::plane(call, channel), vec![0]].concat()).collect()
    }
});

wrong!(a_zero_byte_only_at_odd_lengths, "pb 1 1 bgra 0 1 00*4 EE*5", {
    fn raw_body(call: &Call) -> Vec<u8> {
        let mut body = Right::raw_body(call);
        if body.len() % 2 == 1 {
            body.pop();
        }
        body
    }
});

wrong!(pixels_instead_of_planes, "pb 2 1 bgra 0 0 00*6,0100 EE*7", {
    fn raw_body(call: &Call) -> Vec<u8> {
        let order = Self::plane_order(call);
        let pixels = (0..call.full()).flat_map(|at| order.iter().map(move |&of| Self::sample(call, of, at)));
        pixels.chain([0]).collect()
    }
});

wrong!(refusal_12_one_byte_late, "pb 1 1 bgra 0 0 00*4 EEEEEE", {
    fn raw_needed(call: &Call) -> usize {
        call.planes() * call.full()
    }
});

wrong!(refusal_12_one_byte_late_without_the_zero_byte, "pb 1 1 bgra 0 0 00*4 EEEEEE", {
    fn raw_needed(call: &Call) -> usize {
        call.planes() * call.full()
    }

    fn raw_body(call: &Call) -> Vec<u8> {
        let mut body = Right::raw_body(call);
        body.truncate(call.dst.len);
        body
    }
});

wrong!(refusal_12_one_byte_early, "pb 1 1 bgra 0 0 00*4 EE*4", {
    fn raw_needed(call: &Call) -> usize {
        call.planes() * call.full() + 2
    }
});

wrong!(refusal_12_of_three_planes_as_of_four, "pb 1 1 bgra 0 0 00*4 EE*4", {
    fn raw_needed(call: &Call) -> usize {
        4 * call.full() + 1
    }
});

wrong!(refusal_12_of_four_planes_as_of_three, "pb 1 1 bgra 0 1 00*4 EE*4", {
    fn raw_needed(call: &Call) -> usize {
        3 * call.full() + 1
    }
});

wrong!(refusal_12_by_a_product_that_wraps, "pc 7282 3 0 00*21846 00*21846 00*21846 none EEEEEE", {
    fn raw_needed(call: &Call) -> usize {
        usize::from((call.planes() * call.full() + 1) as u16)
    }

    fn raw_body(call: &Call) -> Vec<u8> {
        let mut body = Right::raw_body(call);
        body.truncate(call.dst.len);
        body
    }
});

wrong!(a_raw_12_that_writes_what_fits, "pb 1 1 bgra 0 0 00*4 EE", {
    fn write_raw(call: &mut Call) -> Result<usize, i64> {
        let body = Self::raw_body(call);
        body.iter().take(call.dst.len).enumerate().for_each(|(at, &byte)| call.dst.write(at, byte));
        if call.dst.len < body.len() {
            Err(12)
        } else {
            Ok(body.len())
        }
    }
});

wrong!(a_raw_12_that_writes_the_planes_that_fit, "pb 1 1 bgra 0 0 00*4 EE", {
    fn write_raw(call: &mut Call) -> Result<usize, i64> {
        let (body, full) = (Self::raw_body(call), call.full());
        let fits = call.dst.len.min(body.len() - 1) / full * full;
        body.iter().take(fits).enumerate().for_each(|(at, &byte)| call.dst.write(at, byte));
        Right::write_raw(call)
    }
});

wrong!(a_raw_12_that_clears_the_first_byte, "pb 1 1 bgra 0 0 00*4 EE", {
    fn after_refusal(call: &mut Call, _number: i64) {
        if !call.rle && call.dst.len > 0 {
            call.dst.write(0, 0);
        }
    }
});

// Refusals before anything is written: their order.

wrong!(refusal_2_before_1, "pc 0 8193 0 - - - none -", {
    fn order() -> [usize; 3] {
        [1, 0, 2]
    }
});

wrong!(refusal_11_before_2, "pb 8193 1 bgra 0 0 - -", {
    fn order() -> [usize; 3] {
        [0, 2, 1]
    }
});

wrong!(refusal_12_of_a_raw_picture_before_11, "pc 1 1 0 - - - none -", {
    fn tests(call: &Call) -> [(bool, i64); 3] {
        let mut tests = Right::tests(call);
        let needed = call.full().saturating_mul(call.planes()).saturating_add(1);
        if !tests[0].0 && !tests[1].0 && !call.rle && call.dst.len < needed {
            tests[2] = (true, 12);
        }
        tests
    }
});

wrong!(refusal_12_of_an_empty_destination_before_11, "pb 1 1 bgra 1 0 - -", {
    fn tests(call: &Call) -> [(bool, i64); 3] {
        let mut tests = Right::tests(call);
        if call.rle && call.dst.len == 0 && tests[2].0 {
            tests[2].1 = 12;
        }
        tests
    }
});

wrong!(refusal_11_when_a_plane_comes_to_it, "pc 1 1 1 00 - - none -", {
    fn is_short(call: &Call) -> bool {
        !call.rle && Right::is_short(call)
    }

    fn write_plane(call: &mut Call, channel: Channel, at: usize) -> Result<usize, i64> {
        let short = match &call.given {
            Given::Channels(slices) => slices[channel as usize].len < call.full(),
            Given::Pixels(_) => Right::is_short(call),
        };
        if short {
            Err(11)
        } else {
            Right::write_plane(call, channel, at)
        }
    }
});

wrong!(refusal_11_that_clears_the_destination, "pc 1 1 0 - - - none EE", {
    fn encode(call: &mut Call) -> i64 {
        if Self::refused(call) == 11 {
            call.dst.bytes_mut().fill(0);
        }
        Right::encode(call)
    }
});

wrong!(the_decoders_number_for_a_short_source, "pc 1 1 0 - - - none -", {
    fn tests(call: &Call) -> [(bool, i64); 3] {
        let [zero, large, (short, _)] = Right::tests(call);
        [zero, large, (short, 10)]
    }
});

// Their limits.

wrong!(sides_of_8193_taken, "pc 1 8193 0 - - - none -", {
    fn max_side() -> usize {
        MAX_SIDE + 1
    }
});

wrong!(sides_of_8192_refused, "pc 1 8192 0 - - - none -", {
    fn max_side() -> usize {
        MAX_SIDE - 1
    }
});

wrong!(only_the_width_tested, "pb 1 0 bgra 0 0 - -", {
    fn tests(call: &Call) -> [(bool, i64); 3] {
        let [(_, one), (_, two), short] = Right::tests(call);
        [(call.width == 0, one), (call.width > MAX_SIDE, two), short]
    }
});

wrong!(a_height_of_0_packed_as_nothing, "pb 1 0 bgra 0 0 - -", {
    fn encode(call: &mut Call) -> i64 {
        if call.width > 0 && call.height == 0 {
            0
        } else {
            Right::encode(call)
        }
    }
});

wrong!(a_short_source_taken, "pc 1 1 0 - - - none -", {
    fn is_short(_call: &Call) -> bool {
        false
    }
});

wrong!(a_short_fourth_source_taken, "pc 1 1 0 00 00 00 - -", {
    fn counts(call: &Call) -> Vec<usize> {
        Right::counts(call).into_iter().take(3).collect()
    }
});

wrong!(a_short_third_source_taken, "pc 1 1 0 00 00 - none -", {
    fn counts(call: &Call) -> Vec<usize> {
        let mut counts = Right::counts(call);
        if counts.len() > 2 {
            counts.remove(2);
        }
        counts
    }
});

wrong!(only_the_first_source_counted, "pc 1 1 0 00 - - none -", {
    fn counts(call: &Call) -> Vec<usize> {
        Right::counts(call).into_iter().take(1).collect()
    }
});

wrong!(sources_counted_together, "pc 2 1 0 00 000000 0000 none -", {
    fn is_short(call: &Call) -> bool {
        let counts = Self::counts(call);
        counts.iter().sum::<usize>() < call.full().saturating_mul(counts.len())
    }
});

wrong!(the_longest_source_counted, "pc 1 1 0 - - 00 none -", {
    fn is_short(call: &Call) -> bool {
        Self::counts(call).into_iter().all(|count| count < call.full())
    }
});

wrong!(a_source_one_sample_short_taken, "pc 1 1 0 - - - none -", {
    fn needed_samples(call: &Call) -> usize {
        call.full().saturating_sub(1)
    }
});

wrong!(an_exact_source_refused, "pb 1 1 bgra 0 0 00*4 -", {
    fn needed_samples(call: &Call) -> usize {
        call.full().saturating_add(1)
    }
});

wrong!(a_longer_source_refused, "pc 1 1 0 00 00 0000 none -", {
    fn is_short(call: &Call) -> bool {
        Self::counts(call).into_iter().any(|count| count != call.full())
    }
});

wrong!(a_longer_source_of_a_raw_picture_refused, "pc 1 1 0 00 00 0000 none -", {
    fn is_short(call: &Call) -> bool {
        let longer = Self::counts(call).into_iter().any(|count| count > call.full());
        Right::is_short(call) || !call.rle && longer
    }
});

wrong!(half_a_pixel_counted, "pb 1 1 bgra 0 0 00 -", {
    fn complete_pixels(len: usize) -> usize {
        len.div_ceil(4)
    }
});

wrong!(a_pixel_without_its_alpha_counted, "pb 1 1 bgra 0 0 000000 -", {
    fn is_short(call: &Call) -> bool {
        match &call.given {
            Given::Pixels(pixels) if !call.alpha => (pixels.len + 1) / 4 < call.full(),
            _ => Right::is_short(call),
        }
    }
});

wrong!(pixels_of_three_bytes_counted, "pb 1 1 bgra 0 0 000000 -", {
    fn complete_pixels(len: usize) -> usize {
        len / 3
    }
});

wrong!(bytes_counted_for_pixels, "pb 1 1 bgra 0 0 00 -", {
    fn complete_pixels(len: usize) -> usize {
        len
    }
});

wrong!(a_part_of_a_pixel_refused, "pb 1 1 bgra 0 0 00*5 -", {
    fn is_short(call: &Call) -> bool {
        Right::is_short(call) || call.is_bitmap() && !call.slices()[0].len.is_multiple_of(4)
    }
});

// The answer.

wrong!(the_header_byte_counted, "pb 1 1 bgra 0 0 00*4 EE*4", {
    fn finish(_call: &mut Call, count: usize) -> i64 {
        count as i64 + 1
    }
});

wrong!(the_zero_byte_not_counted, "pb 1 1 bgra 0 0 00*4 EE*4", {
    fn finish(call: &mut Call, count: usize) -> i64 {
        count as i64 - i64::from(!call.rle)
    }
});

wrong!(the_last_plane_alone_counted, "pb 1 1 bgra 1 0 00*4 EE*6", {
    fn write_rle(call: &mut Call) -> Result<usize, i64> {
        let (mut at, mut last) = (0, 0);
        for channel in Self::plane_order(call) {
            last = Self::write_plane(call, channel, at)?;
            at += last;
        }
        Ok(last)
    }
});

wrong!(the_destinations_length_as_the_answer, "pb 1 1 bgra 0 0 00*4 EE*5", {
    fn finish(call: &mut Call, _count: usize) -> i64 {
        call.dst.len as i64
    }
});

wrong!(the_pixels_as_the_answer, "pb 1 1 bgra 0 0 00*4 EE*4", {
    fn finish(call: &mut Call, _count: usize) -> i64 {
        call.full() as i64
    }
});

// The slices.

wrong!(a_header_byte_in_front_of_the_planes, "pb 1 1 bgra 0 0 00*4 EE", {
    fn encode(call: &mut Call) -> i64 {
        let refused = Self::refused(call);
        if refused != 0 || call.dst.len == 0 {
            return Right::encode(call);
        }
        call.dst.write(0, if call.rle { 0x30 } else { 0x20 });
        // SAFETY: there is a byte.
        let behind = unsafe { call.dst.at.add(1) };
        let (at, len) = (std::mem::replace(&mut call.dst.at, behind), call.dst.len);
        call.dst.len -= 1;
        let answer = Right::encode(call);
        (call.dst.at, call.dst.len) = (at, len);
        answer
    }
});

wrong!(a_byte_behind_the_packing, "pb 1 1 bgra 0 0 00*4 EE*5", {
    fn finish(call: &mut Call, count: usize) -> i64 {
        call.dst.bytes_mut()[count..].iter_mut().take(1).for_each(|byte| *byte = 0);
        count as i64
    }
});

wrong!(the_rest_of_the_destination_cleared, "pb 1 1 bgra 0 0 00*4 EE*5", {
    fn finish(call: &mut Call, count: usize) -> i64 {
        call.dst.bytes_mut()[count..].fill(0);
        count as i64
    }
});

wrong!(a_byte_behind_the_destination, "pb 1 1 bgra 0 0 00*4 EE*4", {
    fn finish(call: &mut Call, count: usize) -> i64 {
        call.dst.write(call.dst.len, 0);
        count as i64
    }
});

wrong!(a_byte_before_the_destination, "pb 1 1 bgra 0 0 00*4 EE*4", {
    fn finish(call: &mut Call, count: usize) -> i64 {
        // SAFETY: a mistake made on purpose, into memory that the comparer watches.
        unsafe { call.dst.at.sub(1).write_volatile(0) };
        count as i64
    }
});

wrong!(the_first_source_written_to, "pb 1 1 bgra 0 0 00*4 EE*4", {
    fn finish(call: &mut Call, count: usize) -> i64 {
        let source = &call.slices()[0];
        source.write(0, !source.read(0));
        count as i64
    }
});

wrong!(the_last_source_written_to, "pb 1 1 bgra 0 0 00*4 EE*4", {
    fn finish(call: &mut Call, count: usize) -> i64 {
        if let [.., source] = call.slices() {
            source.write(call.full() - 1, !source.read(call.full() - 1));
        }
        count as i64
    }
});

wrong!(a_byte_read_behind_the_first_source, "pb 1 1 bgra 0 0 00*4 EE*4", {
    fn finish(call: &mut Call, count: usize) -> i64 {
        let source = &call.slices()[0];
        source.read(source.len);
        count as i64
    }
});

wrong!(a_byte_read_behind_the_alpha_samples, "pc 1 1 0 00 00 00 00 EE*5", {
    fn finish(call: &mut Call, count: usize) -> i64 {
        if let [_, _, _, alpha] = call.slices() {
            alpha.read(alpha.len);
        }
        count as i64
    }
});

wrong!(a_source_read_before_its_length_is_tested, "pc 0 0 0 - - - none -", {
    fn encode(call: &mut Call) -> i64 {
        call.slices().iter().for_each(|source| {
            if !source.at.is_null() {
                source.read(0);
            }
        });
        Right::encode(call)
    }
});

// What random cases can hardly find: the cases that are the same in every run must.

/// The same, and random cases need not find it.
macro_rules! wrong_in_fixed {
    ($name:ident, $smallest:literal, { $($steps:tt)* }) => {
        #[test]
        fn $name() {
            struct Wrong;
            impl Encoder for Wrong {
                $($steps)*
            }
            SEARCH.finds_in_fixed(with_encoder::<Wrong>(), $smallest);
        }
    };
}

wrong_in_fixed!(a_product_of_sides_that_wraps, "pc 8192 8 0 - - - none -", {
    fn needed_samples(call: &Call) -> usize {
        usize::from(call.width.wrapping_mul(call.height) as u16)
    }
});

// What only large pictures show: making them smaller takes long, so it is enough that they are found.

/// The same, without a smallest input, and and random cases need not find it.
macro_rules! wrong_in_large {
    ($name:ident, { $($steps:tt)* }) => {
        #[test]
        fn $name() {
            struct Wrong;
            impl Encoder for Wrong {
                $($steps)*
            }
            assert!(fixed::run(&mut Comparer::new(with_encoder::<Wrong>())).is_err(), "nothing is found");
        }
    };
}

wrong_in_large!(an_index_of_16_bits, {
    fn sample(call: &Call, channel: Channel, at: usize) -> u8 {
        Right::sample(call, channel, usize::from(at as u16))
    }
});

wrong_in_large!(columns_beyond_4096_as_those_before, {
    fn sample(call: &Call, channel: Channel, at: usize) -> u8 {
        let (row, column) = (at / call.width, at % call.width);
        Right::sample(call, channel, row * call.width + column % 4096)
    }
});
