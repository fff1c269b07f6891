//! Stream functions in small steps, written from docs/FORMAT.md. A wrong one does one of them differently. Bodies are unpacked and packed by
//! the right functions of decoder.rs and encoder.rs.

use super::decoder::{self, Decoder as _, Slice};
use super::encoder::{self, encoders, Encoder};
use comparer::case::MAX_SIDE;
use comparer::picture::case::{ARGB, AYCOCG};
use comparer::picture::Form;
use comparer::stream::check::Streams;
use comparer::{Format, Layout};
use std::marker::PhantomData;

/// What a stream decoder is called with.
pub struct StreamCall {
    pub width: usize,
    pub height: usize,
    pub format: Format,
    pub stream: Slice,
    pub work: Slice,
    pub image: Slice,
}

/// The steps of unpacking, each as docs/FORMAT.md has it.
pub trait StreamDecoder {
    fn decode(call: &mut StreamCall) -> i64 {
        let refused = Self::refused(call);
        if refused != 0 {
            return -refused;
        }
        let form = Self::form(Self::header(call));
        let StreamCall { width, height, format, stream, work, image } = *call;
        let from = Self::body_start();
        let body = Slice { at: stream.at.wrapping_add(from), len: Self::body_len(stream.len, form) };
        Self::decode_body(&mut decoder::Call { form, format, width, height, body, work, image })
    }

    fn decode_body(call: &mut decoder::Call) -> i64 {
        decoder::Right::decode(call)
    }

    /// The refusals of a stream that lacks a part, or 0.
    fn refused(call: &StreamCall) -> i64 {
        if call.stream.len == 0 {
            13
        } else if Self::lacks_pad(call.stream.len, Self::form(Self::header(call))) {
            14
        } else {
            0
        }
    }

    fn lacks_pad(len: usize, form: Form) -> bool {
        !form.rle && len == 1
    }

    fn header(call: &StreamCall) -> u8 {
        call.stream.read(0)
    }

    fn form(byte: u8) -> Form {
        let level = Self::level(byte);
        let definition = if level == 0 { ARGB } else { AYCOCG };
        let subsampled = Self::subsampled(byte);
        Form { rle: Self::rle(byte), alpha: Self::alpha(byte), definition, level, subsampled }
    }

    fn level(byte: u8) -> u32 {
        u32::from(byte & 0x07)
    }

    fn subsampled(byte: u8) -> bool {
        byte & 0x08 != 0
    }

    fn rle(byte: u8) -> bool {
        byte & 0x10 != 0
    }

    fn alpha(byte: u8) -> bool {
        byte & 0x20 == 0
    }

    fn body_start() -> usize {
        1
    }

    /// The length of the body of a stream that has so many bytes.
    fn body_len(len: usize, form: Form) -> usize {
        len - 1 - usize::from(!form.rle)
    }

    fn work_size(stream: Slice, width: usize, height: usize) -> usize {
        if stream.len == 0 {
            return 0;
        }
        Self::work_size_of(Self::form(stream.read(0)), width, height)
    }

    fn work_size_of(form: Form, width: usize, height: usize) -> usize {
        let sides = 1..=MAX_SIDE;
        if sides.contains(&width) && sides.contains(&height) {
            form.work_len(Format::Rgb24, width, height)
        } else {
            0
        }
    }

    fn pixels_work_size(stream: Slice, width: usize, height: usize) -> usize {
        if stream.len == 0 {
            return 0;
        }
        Self::pixels_work_size_of(Self::form(stream.read(0)), width, height)
    }

    fn pixels_work_size_of(form: Form, width: usize, height: usize) -> usize {
        match Self::work_size_of(form, width, height) {
            0 => 0,
            colours => colours + usize::from(form.alpha) * width * height,
        }
    }
}

/// The steps of packing, each as docs/FORMAT.md has it.
pub trait StreamEncoder {
    fn encode(call: &mut encoder::Call) -> i64 {
        let refused = encoder::Right::refused(call);
        if refused != 0 {
            return -refused;
        }
        if call.dst.len == 0 {
            return Self::without_room(call);
        }
        let answer = Self::encode_body(call);
        if answer < 0 {
            Self::after_refusal(call);
            return answer;
        }
        call.dst.write(0, Self::header(call));
        Self::count(answer)
    }

    /// The answer to a destination that has no room for the header byte.
    fn without_room(_call: &encoder::Call) -> i64 {
        -12
    }

    fn encode_body(call: &mut encoder::Call) -> i64 {
        let from = Self::body_start();
        behind(call, from, encoder::Right::encode)
    }

    fn body_start() -> usize {
        1
    }

    /// What follows a refusal by 12.
    fn after_refusal(_call: &mut encoder::Call) {}

    fn header(call: &encoder::Call) -> u8 {
        if call.rle {
            0x30
        } else {
            0x20
        }
    }

    /// The answer for a body of so many bytes.
    fn count(body: i64) -> i64 {
        body + 1
    }
}

/// A call with what the destination has from this place on.
pub fn behind(call: &mut encoder::Call, from: usize, encode: impl FnOnce(&mut encoder::Call) -> i64) -> i64 {
    let dst = call.dst;
    call.dst = Slice { at: dst.at.wrapping_add(from), len: dst.len.saturating_sub(from) };
    let answer = encode(call);
    call.dst = dst;
    answer
}

pub struct RightDecoder;

impl StreamDecoder for RightDecoder {}

pub struct RightEncoder;

impl StreamEncoder for RightEncoder {}

/// An encoder of streams where one of bodies is expected.
pub struct Whole<E>(PhantomData<E>);

impl<E: StreamEncoder> Encoder for Whole<E> {
    fn encode(call: &mut encoder::Call) -> i64 {
        E::encode(call)
    }
}

#[allow(clippy::too_many_arguments)]
unsafe extern "C" fn decode<D: StreamDecoder>(
    stream: *const u8,
    stream_len: usize,
    work: *mut u8,
    work_len: usize,
    image: *mut u8,
    image_len: usize,
    width: usize,
    height: usize,
) -> i64 {
    D::decode(&mut StreamCall {
        width,
        height,
        format: Format::Rgb24,
        stream: Slice { at: stream.cast_mut(), len: stream_len },
        work: Slice { at: work, len: work_len },
        image: Slice { at: image, len: image_len },
    })
}

#[allow(clippy::too_many_arguments)]
unsafe extern "C" fn decode_pixels<D: StreamDecoder>(
    layout: u32,
    stream: *const u8,
    stream_len: usize,
    work: *mut u8,
    work_len: usize,
    image: *mut u8,
    image_len: usize,
    width: usize,
    height: usize,
) -> i64 {
    D::decode(&mut StreamCall {
        width,
        height,
        format: Format::Pixels(Layout(layout)),
        stream: Slice { at: stream.cast_mut(), len: stream_len },
        work: Slice { at: work, len: work_len },
        image: Slice { at: image, len: image_len },
    })
}

unsafe extern "C" fn pixels_work_size<D: StreamDecoder>(
    stream: *const u8,
    stream_len: usize,
    width: usize,
    height: usize,
) -> usize {
    D::pixels_work_size(Slice { at: stream.cast_mut(), len: stream_len }, width, height)
}

unsafe extern "C" fn work_size<D: StreamDecoder>(
    stream: *const u8,
    stream_len: usize,
    width: usize,
    height: usize,
) -> usize {
    D::work_size(Slice { at: stream.cast_mut(), len: stream_len }, width, height)
}

/// The functions of a decoder and of an encoder as C declares them.
pub const fn streams<D: StreamDecoder, E: StreamEncoder>() -> Streams {
    Streams {
        decode: decode::<D>,
        work_size: work_size::<D>,
        decode_pixels: decode_pixels::<D>,
        pixels_work_size: pixels_work_size::<D>,
        encoders: encoders::<Whole<E>>(),
    }
}
