//! The picture decoder: with whole streams, whose parser is ours (`ironrdp_pdu`), and from behind the parser with bodies.

use crate::rdp6::bitmap_stream::decoder::{init_and_decode, BitmapDecodeError, BitmapStreamDecoder};
use crate::{panics, Answer};
use ironrdp_core::DecodeError;
use ironrdp_pdu::bitmap::rdp6::{BitmapStream, BitmapStreamHeader, ColorPlaneDefinition};

/// What the colour planes are.
#[derive(Clone, Copy, Debug, PartialEq, Eq)]
pub enum Definition {
    Argb,
    AYCoCg { loss_level: u8, subsampled: bool },
}

/// What the header contains.
#[derive(Clone, Copy, Debug, PartialEq, Eq)]
pub struct Header {
    pub rle: bool,
    pub alpha: bool,
    pub definition: Definition,
}

impl Header {
    /// What the stand-in for the header's encoder wrote as this byte, if it did.
    pub(crate) fn of_byte(byte: u8) -> Option<Header> {
        let header = BitmapStreamHeader::of_byte(byte)?;
        let definition = match header.color_plane_definition {
            ColorPlaneDefinition::Argb => Definition::Argb,
            ColorPlaneDefinition::AYCoCg { color_loss_level, use_chroma_subsampling } => {
                Definition::AYCoCg { loss_level: color_loss_level, subsampled: use_chroma_subsampling }
            }
        };
        Some(Header { rle: header.enable_rle_compression, alpha: header.use_alpha, definition })
    }

    fn parsed(self) -> BitmapStreamHeader {
        let color_plane_definition = match self.definition {
            Definition::Argb => ColorPlaneDefinition::Argb,
            Definition::AYCoCg { loss_level, subsampled } => {
                ColorPlaneDefinition::AYCoCg { color_loss_level: loss_level, use_chroma_subsampling: subsampled }
            }
        };
        BitmapStreamHeader { enable_rle_compression: self.rle, use_alpha: self.alpha, color_plane_definition }
    }
}

/// `BitmapStreamDecoderImpl::init` and then `decode`. The image is appended to what `image` holds; an RLE picture makes `work`
/// as long as its colour planes, whatever its length was. Both may have been written to after an error or a panic too.
pub fn decode(
    header: Header,
    body: &[u8],
    work: &mut Vec<u8>,
    image: &mut Vec<u8>,
    width: usize,
    height: usize,
) -> Answer {
    let earlier = image.len();
    let bitmap = BitmapStream::new(header.parsed(), body);
    let outcome = panics::caught(|| init_and_decode(bitmap, width, height, image, work));
    answer(outcome, image.len() - earlier)
}

/// `BitmapStreamDecoder::decode_bitmap_stream_to_rgb24`. The two buffers are as with `decode`.
pub fn stream_decode(stream: &[u8], work: &mut Vec<u8>, image: &mut Vec<u8>, width: usize, height: usize) -> Answer {
    let earlier = image.len();
    let mut decoder = BitmapStreamDecoder::with_planes(std::mem::take(work));
    let outcome = panics::caught(|| decoder.decode_bitmap_stream_to_rgb24(stream, image, width, height));
    *work = decoder.into_planes();
    answer(outcome, image.len() - earlier)
}

/// What a decoder answers that has appended so many bytes.
fn answer(outcome: Result<Result<(), BitmapDecodeError>, String>, made: usize) -> Answer {
    match outcome {
        Ok(Ok(())) => Answer::Done(made),
        Ok(Err(BitmapDecodeError::InvalidUncompressedDataSize)) => Answer::Refused(4),
        Ok(Err(BitmapDecodeError::Rle(error))) => Answer::of(error),
        Ok(Err(BitmapDecodeError::Decode(DecodeError::NoHeader))) => Answer::Refused(13),
        Ok(Err(BitmapDecodeError::Decode(DecodeError::NoPad))) => Answer::Refused(14),
        Err(place) => Answer::Panic(place),
    }
}

#[cfg(test)]
mod tests {
    use super::{decode, stream_decode, Definition, Header};
    use crate::Answer;

    const ARGB: Definition = Definition::Argb;

    #[test]
    fn the_image_is_appended_and_the_work_area_cut_to_the_planes() {
        let header = Header { rle: true, alpha: false, definition: ARGB };
        let (mut work, mut image) = (vec![0xEE; 5], vec![0xDD]);
        let answer = decode(header, &[0x10, 1, 0x10, 2, 0x10, 3], &mut work, &mut image, 1, 1);
        assert_eq!(answer, Answer::Done(3));
        assert_eq!((work, image), (vec![1, 2, 3], vec![0xDD, 1, 2, 3]));
    }

    #[test]
    fn a_refused_plane_leaves_those_before_it() {
        let header = Header { rle: true, alpha: true, definition: ARGB };
        let (mut work, mut image) = (vec![0xEE; 6], vec![]);
        let answer = decode(header, &[0x20, 1, 2, 0x10, 3, 0, 0, 0], &mut work, &mut image, 2, 1);
        assert_eq!(answer, Answer::Refused(8));
        assert_eq!((work, image), (vec![3, 2, 0xEE, 0xEE, 0xEE, 0xEE], vec![]));
    }

    #[test]
    fn a_raw_picture_leaves_the_work_area_alone() {
        let definition = Definition::AYCoCg { loss_level: 2, subsampled: false };
        let header = Header { rle: false, alpha: true, definition };
        let (mut work, mut image) = (vec![0xEE; 5], vec![]);
        assert_eq!(decode(header, &[0xFF, 100, 0x40, 0], &mut work, &mut image, 1, 1), Answer::Done(3));
        assert_eq!((work, image), (vec![0xEE; 5], vec![0, 100, 228]));
    }

    #[test]
    fn streams_and_what_the_parser_refuses() {
        let (mut work, mut image) = (vec![0xEE; 5], vec![0xDD]);
        let mut answer = |stream: &[u8]| stream_decode(stream, &mut work, &mut image, 1, 1);
        assert_eq!(answer(&[]), Answer::Refused(13));
        assert_eq!(answer(&[0x20]), Answer::Refused(14));
        assert_eq!(answer(&[0x20, 1, 2, 3]), Answer::Refused(4));
        assert_eq!(answer(&[0x20, 1, 2, 3, 9]), Answer::Done(3));
        assert_eq!(answer(&[0x30, 0x10, 4, 0x10, 5, 0x10, 6]), Answer::Done(3));
        assert_eq!(answer(&[0x30, 0x10, 7, 0x10]), Answer::Refused(7));
        assert_eq!((work, image), (vec![7, 5, 6], vec![0xDD, 1, 2, 3, 4, 5, 6]));
    }
}
