//! IronRDP, unchanged, behind functions that always return: its errors as the refusals of FORMAT 8,
//! its panics caught.

include!(concat!(env!("OUT_DIR"), "/modules.rs"));

mod color_conversion;
mod encoder;
mod panics;
mod picture;

pub use encoder::{encode_bitmap, encode_channels, Encoded, Layout};
pub use picture::{decode, stream_decode, Definition, Header};

use ironrdp_core::WriteCursor;
use rdp6::rle::{compress_8bpp_plane, decompress_8bpp_plane, RleDecodeError, RleEncodeError};
use std::fmt;

/// What IronRDP answers to a plane or a picture that it is to unpack or to pack.
#[derive(Clone, Debug, PartialEq, Eq)]
pub enum Answer {
    /// So many bytes were read by unpacking a plane, or written by packing one or a picture; or so many bytes of image were
    /// made.
    Done(usize),
    /// By the number of FORMAT 8: 7, 8 or 9 from unpacking, also 4 from a picture, 13 or 14 from a stream; 11 or 12 from packing.
    Refused(u8),
    /// The destination ended inside the first row. This has no number: the library refuses by 10 before.
    WriteError,
    /// A panic, and its place as file:line.
    Panic(String),
}

impl Answer {
    fn of(error: RleDecodeError) -> Answer {
        match error {
            RleDecodeError::ReadCompressedData(_) => Answer::Refused(7),
            RleDecodeError::InvalidSegmentHeader => Answer::Refused(8),
            RleDecodeError::SegmentDoNotFitScanline => Answer::Refused(9),
            RleDecodeError::WriteDecompressedData(_) => Answer::WriteError,
        }
    }

    fn of_packing(error: RleEncodeError) -> Answer {
        match error {
            RleEncodeError::NotEnoughBytes => Answer::Refused(11),
            RleEncodeError::BufferTooSmall => Answer::Refused(12),
        }
    }

    /// The answer in one number, as the library gives it: bytes read or written, or minus the refusal's number.
    pub fn number(&self) -> Option<i64> {
        match self {
            Answer::Done(count) => i64::try_from(*count).ok(),
            Answer::Refused(number) => Some(-i64::from(*number)),
            Answer::WriteError | Answer::Panic(_) => None,
        }
    }
}

impl fmt::Display for Answer {
    fn fmt(&self, f: &mut fmt::Formatter<'_>) -> fmt::Result {
        match self {
            Answer::Done(count) => write!(f, "{count} bytes"),
            Answer::Refused(number) => write!(f, "refusal {number}"),
            Answer::WriteError => write!(f, "WriteDecompressedData"),
            Answer::Panic(place) => write!(f, "panic at {place}"),
        }
    }
}

/// `decompress_8bpp_plane`. The destination may have been written to after a panic too.
pub fn unpack(src: &[u8], dst: &mut [u8], width: usize, height: usize) -> Answer {
    match panics::caught(|| decompress_8bpp_plane(src, dst, width, height)) {
        Ok(Ok(count)) => Answer::Done(count),
        Ok(Err(error)) => Answer::of(error),
        Err(place) => Answer::Panic(place),
    }
}

/// `compress_8bpp_plane` of the samples, which may be more or fewer than the plane has. The destination may have been
/// written to after an error or a panic too.
pub fn compress(samples: &[u8], dst: &mut [u8], width: usize, height: usize) -> Answer {
    let mut cursor = WriteCursor::new(dst);
    match panics::caught(|| compress_8bpp_plane(samples.iter().copied(), &mut cursor, width, height)) {
        Ok(Ok(count)) => Answer::Done(count),
        Ok(Err(error)) => Answer::of_packing(error),
        Err(place) => Answer::Panic(place),
    }
}

/// The packing of width times height samples, with room enough. `None` is an error that there should not be.
pub fn pack(samples: &[u8], width: usize, height: usize) -> Option<Vec<u8>> {
    // At worst every 15 raw bytes have a control byte.
    let mut packed = vec![0; height * (width + width.div_ceil(15))];
    let mut cursor = WriteCursor::new(&mut packed);
    let count = compress_8bpp_plane(samples.iter().copied(), &mut cursor, width, height).ok()?;
    packed.truncate(count);
    Some(packed)
}

#[cfg(test)]
mod tests {
    use super::{compress, pack, unpack, Answer};

    #[test]
    fn example_14_complete_and_truncated() {
        let samples: Vec<u8> = [[9; 17], [10; 17]].concat();
        let packed = pack(&samples, 17, 2).unwrap();
        assert_eq!(packed, [0x1F, 9, 0x10, 9, 0x1F, 2, 0x10, 2]);
        let mut plane = vec![0xEE; 34];
        assert_eq!(unpack(&packed, &mut plane, 17, 2), Answer::Done(8));
        assert_eq!(plane, samples);
        let mut plane = vec![0xEE; 34];
        assert_eq!(unpack(&packed[..6], &mut plane, 17, 2), Answer::Refused(7));
        assert_eq!(plane, [&[9; 17][..], &[2; 16], &[0xEE]].concat());
    }

    #[test]
    fn packing_with_room_without_and_with_too_few_samples() {
        let mut dst = vec![0xEE; 5];
        assert_eq!(compress(&[9; 18], &mut dst, 17, 1), Answer::Done(4));
        assert_eq!(dst, [0x1F, 9, 0x10, 9, 0xEE]);
        let mut short = vec![0xEE; 3];
        assert_eq!(compress(&[9; 17], &mut short, 17, 1), Answer::Refused(12));
        assert_eq!(short, [0x1F, 9, 0xEE]);
        assert_eq!(compress(&[9; 17], &mut dst, 17, 2), Answer::Refused(11));
    }

    #[test]
    fn a_panic_is_an_answer() {
        let mut plane = vec![0xEE; 2];
        let answer = unpack(&[0x20, 1, 2, 0x20, 2], &mut plane, 2, 2);
        assert!(matches!(answer, Answer::Panic(place) if place.starts_with("rle.rs:")));
        assert_eq!(plane, [1, 2]);
    }
}
