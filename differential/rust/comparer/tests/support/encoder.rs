//! A picture encoder in small steps, written from docs/FORMAT.md. A wrong one does one of them differently. IronRDP packs the planes of
//! an RLE picture: tests/wrong_packers.rs has wrong packers of planes.

use super::decoder::Slice;
use comparer::case::MAX_SIDE;
use comparer::encoding::check::Encoders;
use comparer::encoding::Channel;

/// The samples to pack.
pub enum Given {
    /// R, G, B, and A if there is one.
    Channels(Vec<Slice>),
    Pixels(Slice),
}

/// What an encoder is called with.
pub struct Call {
    pub given: Given,
    /// The layout of pixels; 0 with channels.
    pub layout: u32,
    /// Whether A is to be packed too.
    pub alpha: bool,
    pub rle: bool,
    pub width: usize,
    pub height: usize,
    pub dst: Slice,
}

impl Call {
    /// The samples of a plane, or the largest number.
    pub fn full(&self) -> usize {
        self.width.saturating_mul(self.height)
    }

    /// How many planes are packed.
    pub fn planes(&self) -> usize {
        3 + usize::from(self.alpha)
    }

    pub fn is_bitmap(&self) -> bool {
        matches!(self.given, Given::Pixels(_))
    }

    /// The slices that samples are in.
    pub fn slices(&self) -> &[Slice] {
        match &self.given {
            Given::Channels(slices) => slices,
            Given::Pixels(pixels) => std::slice::from_ref(pixels),
        }
    }
}

pub use Channel::{A, B, G, R};

/// The steps, each as docs/FORMAT.md has it.
pub trait Encoder {
    fn encode(call: &mut Call) -> i64 {
        let refused = Self::refused(call);
        if refused != 0 {
            return -refused;
        }
        let written = if call.rle { Self::write_rle(call) } else { Self::write_raw(call) };
        match written {
            Ok(count) => Self::finish(call, count),
            Err(number) => {
                Self::after_refusal(call, number);
                -number
            }
        }
    }

    /// The refusal before anything is read, or 0.
    fn refused(call: &Call) -> i64 {
        let tests = Self::tests(call);
        let mut ordered = Self::order().map(|at| tests[at]).to_vec();
        ordered.insert(Self::layout_order(), (Self::layout_refused(call.layout), 3));
        ordered.into_iter().find(|test| test.0).map_or(0, |test| test.1)
    }

    fn layout_refused(layout: u32) -> bool {
        layout > 3
    }

    /// How many of the other tests come before that of the layout.
    fn layout_order() -> usize {
        2
    }

    /// The order of the other tests.
    fn order() -> [usize; 3] {
        [0, 1, 2]
    }

    fn tests(call: &Call) -> [(bool, i64); 3] {
        [
            (call.width == 0 || call.height == 0, 1),
            (call.width > Self::max_side() || call.height > Self::max_side(), 2),
            (Self::is_short(call), 11),
        ]
    }

    fn max_side() -> usize {
        MAX_SIDE
    }

    fn is_short(call: &Call) -> bool {
        Self::counts(call).into_iter().any(|count| count < Self::needed_samples(call))
    }

    fn needed_samples(call: &Call) -> usize {
        call.full()
    }

    /// How many samples each source has.
    fn counts(call: &Call) -> Vec<usize> {
        match &call.given {
            Given::Channels(slices) => slices.iter().map(|slice| slice.len).collect(),
            Given::Pixels(pixels) => vec![Self::complete_pixels(pixels.len)],
        }
    }

    fn complete_pixels(len: usize) -> usize {
        len / 4
    }

    /// The planes in the order in which they are packed.
    fn plane_order(call: &Call) -> Vec<Channel> {
        if call.alpha {
            vec![A, R, G, B]
        } else {
            vec![R, G, B]
        }
    }

    fn stride(_call: &Call) -> usize {
        4
    }

    /// Where a channel lies in a pixel of a layout.
    fn place_in(layout: u32, channel: Channel) -> usize {
        let places = match layout {
            0 => return Self::place(channel),
            1 => [0, 1, 2, 3],
            2 => [1, 2, 3, 0],
            _ => [3, 2, 1, 0],
        };
        places[channel as usize]
    }

    /// Where a channel lies in a pixel of B, G, R and A.
    fn place(channel: Channel) -> usize {
        match channel {
            R => 2,
            G => 1,
            B => 0,
            A => 3,
        }
    }

    /// How many samples of a plane are packed.
    fn used(call: &Call, _channel: Channel) -> usize {
        call.full()
    }

    /// A sample, or 0 where a planted mistake reads outside the source.
    fn sample(call: &Call, channel: Channel, at: usize) -> u8 {
        let (slice, at) = match &call.given {
            Given::Channels(slices) => (&slices[channel as usize], at),
            Given::Pixels(pixels) => (pixels, at * Self::stride(call) + Self::place_in(call.layout, channel)),
        };
        slice.bytes().get(at).copied().unwrap_or(0)
    }

    fn plane(call: &Call, channel: Channel) -> Vec<u8> {
        (0..Self::used(call, channel)).map(|at| Self::sample(call, channel, at)).collect()
    }

    /// The bytes written, or the refusal.
    fn write_rle(call: &mut Call) -> Result<usize, i64> {
        let mut at = 0;
        for channel in Self::plane_order(call) {
            at += Self::write_plane(call, channel, at)?;
            at = Self::next_plane(call, at);
        }
        Ok(at)
    }

    /// Packs a plane to this place of the destination. The answer is the bytes written.
    fn write_plane(call: &mut Call, channel: Channel, at: usize) -> Result<usize, i64> {
        let (plane, sides) = (Self::plane(call, channel), (call.width, call.height));
        packed(&plane, call.dst.bytes_mut().get_mut(at..).unwrap_or(&mut []), sides)
    }

    /// Where the next plane starts, once one is written up to here.
    fn next_plane(_call: &Call, at: usize) -> usize {
        at
    }

    fn raw_needed(call: &Call) -> usize {
        call.planes() * call.full() + 1
    }

    fn write_raw(call: &mut Call) -> Result<usize, i64> {
        if call.dst.len < Self::raw_needed(call) {
            return Err(12);
        }
        let body = Self::raw_body(call);
        body.iter().enumerate().for_each(|(at, &byte)| call.dst.write(at, byte));
        Ok(body.len())
    }

    fn raw_body(call: &Call) -> Vec<u8> {
        let planes = Self::plane_order(call).into_iter().flat_map(|channel| Self::plane(call, channel));
        planes.chain(Self::pad()).collect()
    }

    /// What a raw body ends in.
    fn pad() -> Vec<u8> {
        vec![0]
    }

    /// What follows a refusal by 12.
    fn after_refusal(_call: &mut Call, _number: i64) {}

    /// The answer of a picture that is not refused.
    fn finish(_call: &mut Call, count: usize) -> i64 {
        count as i64
    }
}

/// What IronRDP makes of a plane: the bytes written, or the number of the refusal. A panic, which a planted mistake may cause, is 99,
/// which is no refusal.
pub fn packed(plane: &[u8], dst: &mut [u8], (width, height): (usize, usize)) -> Result<usize, i64> {
    let answer = original::compress(plane, dst, width, height).number().unwrap_or(-99);
    usize::try_from(answer).map_err(|_| -answer)
}

pub struct Right;

impl Encoder for Right {}

fn slice(at: *const u8, len: usize) -> Slice {
    Slice { at: at.cast_mut(), len }
}

#[allow(clippy::too_many_arguments)]
unsafe extern "C" fn channels<E: Encoder>(
    r: *const u8,
    r_len: usize,
    g: *const u8,
    g_len: usize,
    b: *const u8,
    b_len: usize,
    dst: *mut u8,
    dst_len: usize,
    rle: bool,
    width: usize,
    height: usize,
) -> i64 {
    let given = Given::Channels(vec![slice(r, r_len), slice(g, g_len), slice(b, b_len)]);
    E::encode(&mut Call { given, layout: 0, alpha: false, rle, width, height, dst: slice(dst, dst_len) })
}

#[allow(clippy::too_many_arguments)]
unsafe extern "C" fn channels_alpha<E: Encoder>(
    r: *const u8,
    r_len: usize,
    g: *const u8,
    g_len: usize,
    b: *const u8,
    b_len: usize,
    a: *const u8,
    a_len: usize,
    dst: *mut u8,
    dst_len: usize,
    rle: bool,
    width: usize,
    height: usize,
) -> i64 {
    let given = Given::Channels(vec![slice(r, r_len), slice(g, g_len), slice(b, b_len), slice(a, a_len)]);
    E::encode(&mut Call { given, layout: 0, alpha: true, rle, width, height, dst: slice(dst, dst_len) })
}

#[allow(clippy::too_many_arguments)]
unsafe extern "C" fn bitmap<E: Encoder, const ALPHA: bool>(
    layout: u32,
    src: *const u8,
    src_len: usize,
    dst: *mut u8,
    dst_len: usize,
    rle: bool,
    width: usize,
    height: usize,
) -> i64 {
    let given = Given::Pixels(slice(src, src_len));
    E::encode(&mut Call { given, layout, alpha: ALPHA, rle, width, height, dst: slice(dst, dst_len) })
}

/// The functions of an encoder as C declares them.
pub const fn encoders<E: Encoder>() -> Encoders {
    Encoders {
        channels: channels::<E>,
        channels_alpha: channels_alpha::<E>,
        bitmap: bitmap::<E, false>,
        bitmap_alpha: bitmap::<E, true>,
    }
}
