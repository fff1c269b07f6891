//! The picture encoder. It writes whole streams: its destination begins with the header byte, which only those functions of the library
//! write that write whole streams too.

use crate::rdp6::bitmap_stream::encoder::{
    ABgrChannels, ARgbChannels, AlphaChannel, BgrAChannels, BitmapEncodeError, BitmapStreamEncoder, ColorChannels,
    RgbAChannels,
};
use crate::{panics, Answer, Header};

/// The layouts of four-byte pixels that IronRDP has a type for: its names have the channels in the order of the bytes.
#[derive(Clone, Copy, Debug, PartialEq, Eq)]
pub enum Layout {
    BgrA,
    RgbA,
    ARgb,
    ABgr,
}

impl Layout {
    /// The places of R, G, B and A in a pixel, as IronRDP's types have them.
    pub fn places(self) -> [usize; 4] {
        fn of<L: ColorChannels + AlphaChannel>() -> [usize; 4] {
            [L::R, L::G, L::B, L::A]
        }
        match self {
            Layout::BgrA => of::<BgrAChannels>(),
            Layout::RgbA => of::<RgbAChannels>(),
            Layout::ARgb => of::<ARgbChannels>(),
            Layout::ABgr => of::<ABgrChannels>(),
        }
    }
}

/// What IronRDP does with a picture that it is to pack.
#[derive(Clone, Debug, PartialEq, Eq)]
pub struct Encoded {
    /// The bytes written, the header byte among them, or why not all were.
    pub answer: Answer,
    /// The header as it was passed to its writer, before any sample was read; none if there was no room for its byte.
    pub header: Option<Header>,
}

impl Encoded {
    /// The bytes written behind the header byte, or why not all were.
    pub fn body_answer(self) -> Answer {
        match self.answer {
            Answer::Done(count) => Answer::Done(count - 1),
            other => other,
        }
    }
}

/// Packs, and returns the answer and the header. The destination's first byte is not read before the call.
fn encoded(dst: &mut [u8], encode: impl FnOnce(&mut [u8]) -> Result<usize, BitmapEncodeError>) -> Encoded {
    // No value of a header byte: so it is seen whether one is written.
    if let Some(first) = dst.first_mut() {
        *first = 0xEE;
    }
    let answer = match panics::caught(|| encode(dst)) {
        Ok(Ok(count)) => Answer::Done(count),
        Ok(Err(BitmapEncodeError::Rle(error))) => Answer::of_packing(error),
        Ok(Err(BitmapEncodeError::Encode(_))) => Answer::Refused(12),
        Err(place) => Answer::Panic(place),
    };
    Encoded { answer, header: dst.first().copied().and_then(Header::of_byte) }
}

/// `encode_channels_stream` of R, G and B, or with alpha `encode_channels_stream_alpha`. The destination may have been written to
/// after an error or a panic too.
pub fn encode_channels(
    colours: [&[u8]; 3],
    alpha: Option<&[u8]>,
    dst: &mut [u8],
    rle: bool,
    width: usize,
    height: usize,
) -> Encoded {
    let mut encoder = BitmapStreamEncoder::new(width, height);
    let [r, g, b] = colours.map(|samples| samples.iter().copied());
    encoded(dst, |dst| match alpha {
        None => encoder.encode_channels_stream((r, g, b), dst, rle),
        Some(a) => encoder.encode_channels_stream_alpha((r, g, b, a.iter().copied()), dst, rle),
    })
}

/// `encode_bitmap` of pixels of this layout, or with alpha `encode_bitmap_alpha`. The destination may have been written to after an error
/// or a panic too.
pub fn encode_bitmap(
    layout: Layout,
    pixels: &[u8],
    alpha: bool,
    dst: &mut [u8],
    rle: bool,
    width: usize,
    height: usize,
) -> Encoded {
    let encode = match layout {
        Layout::BgrA => encode_bitmap_of::<BgrAChannels>,
        Layout::RgbA => encode_bitmap_of::<RgbAChannels>,
        Layout::ARgb => encode_bitmap_of::<ARgbChannels>,
        Layout::ABgr => encode_bitmap_of::<ABgrChannels>,
    };
    encode(pixels, alpha, dst, rle, width, height)
}

fn encode_bitmap_of<L: ColorChannels + AlphaChannel>(
    pixels: &[u8],
    alpha: bool,
    dst: &mut [u8],
    rle: bool,
    width: usize,
    height: usize,
) -> Encoded {
    let mut encoder = BitmapStreamEncoder::new(width, height);
    encoded(dst, |dst| match alpha {
        false => encoder.encode_bitmap::<L>(pixels, dst, rle),
        true => encoder.encode_bitmap_alpha::<L>(pixels, dst, rle),
    })
}

#[cfg(test)]
mod tests {
    use super::{encode_bitmap, encode_channels, Encoded, Layout};
    use crate::{Answer, Definition, Header};

    fn header(rle: bool) -> Option<Header> {
        Some(Header { rle, alpha: false, definition: Definition::Argb })
    }

    #[test]
    fn a_pixel_raw_and_rle_with_alpha_and_without() {
        let mut dst = [0; 10];
        let packed = |count, rle| Encoded { answer: Answer::Done(count), header: header(rle) };
        assert_eq!(encode_bitmap(Layout::BgrA, &[1, 2, 3, 4], false, &mut dst, false, 1, 1), packed(5, false));
        assert_eq!(dst[..5], [0x20, 3, 2, 1, 0]);
        assert_eq!(encode_bitmap(Layout::BgrA, &[1, 2, 3, 4], true, &mut dst, true, 1, 1), packed(9, true));
        assert_eq!(dst[..9], [0x30, 0x10, 4, 0x10, 3, 0x10, 2, 0x10, 1]);
        assert_eq!(encode_channels([&[3], &[2], &[1]], None, &mut dst, true, 1, 1), packed(7, true));
        assert_eq!(dst[1..7], [0x10, 3, 0x10, 2, 0x10, 1]);
        assert_eq!(encode_channels([&[3], &[2], &[1]], Some(&[4]), &mut dst, false, 1, 1), packed(6, false));
        assert_eq!(dst[..6], [0x20, 4, 3, 2, 1, 0]);
    }

    #[test]
    fn a_pixel_of_each_layout() {
        for (layout, pixel) in [
            (Layout::BgrA, [1, 2, 3, 4]),
            (Layout::RgbA, [3, 2, 1, 4]),
            (Layout::ARgb, [4, 3, 2, 1]),
            (Layout::ABgr, [4, 1, 2, 3]),
        ] {
            let mut dst = [0; 6];
            assert_eq!(encode_bitmap(layout, &pixel, true, &mut dst, false, 1, 1).answer, Answer::Done(6));
            assert_eq!(dst, [0x20, 4, 3, 2, 1, 0]);
            assert_eq!(layout.places().map(|at| pixel[at]), [3, 2, 1, 4]);
        }
    }

    #[test]
    fn a_body_is_one_byte_shorter() {
        let encoded = |answer| Encoded { answer, header: header(true) };
        assert_eq!(encoded(Answer::Done(7)).body_answer(), Answer::Done(6));
        assert_eq!(encoded(Answer::Refused(12)).body_answer(), Answer::Refused(12));
    }

    #[test]
    fn errors_and_a_panic_are_answers_with_the_header_written() {
        let pack = |colours: [&[u8]; 3], dst: &mut [u8], rle| encode_channels(colours, None, dst, rle, 1, 1);
        let refused = |number, rle| Encoded { answer: Answer::Refused(number), header: header(rle) };
        assert_eq!(pack([&[3], &[2], &[1]], &mut [0; 4], false), refused(12, false));
        assert_eq!(pack([&[3], &[2], &[1]], &mut [0; 4], true), refused(12, true));
        assert_eq!(pack([&[3], &[], &[1]], &mut [0; 9], true), refused(11, true));
        let panicked = pack([&[3, 3], &[2], &[1]], &mut [0; 5], false);
        assert!(matches!(panicked.answer, Answer::Panic(place) if place.starts_with("encoder.rs:")));
        assert_eq!(panicked.header, header(false));
        let without_room = Encoded { answer: Answer::Refused(12), header: None };
        assert_eq!(pack([&[3], &[2], &[1]], &mut [], true), without_room);
    }
}
