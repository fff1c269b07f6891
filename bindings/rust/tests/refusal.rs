//! The refusals: the numbers of FORMAT 8.1, their texts, IronRDP's names.

use std::collections::HashSet;
use std::error::Error;

use rdp6::{Refusal, UnknownNumber};

/// FORMAT 8.1.
const TABLE: [(u8, Refusal); 14] = [
    (1, Refusal::ZeroSize),
    (2, Refusal::TooLarge),
    (3, Refusal::LossLevel),
    (4, Refusal::InvalidUncompressedDataSize),
    (5, Refusal::ShortWork),
    (6, Refusal::ShortImage),
    (7, Refusal::ReadCompressedData),
    (8, Refusal::InvalidSegmentHeader),
    (9, Refusal::SegmentDoNotFitScanline),
    (10, Refusal::ShortPlane),
    (11, Refusal::NotEnoughBytes),
    (12, Refusal::BufferTooSmall),
    (13, Refusal::EmptyStream),
    (14, Refusal::MissingPad),
];

#[test]
fn numbers_are_those_of_the_table() {
    for (number, refusal) in TABLE {
        assert_eq!(refusal.number(), number);
        assert_eq!(refusal as u8, number);
        assert_eq!(u8::from(refusal), number);
    }
}

#[test]
fn every_number_of_the_table_and_no_other_is_a_refusal() {
    for number in 0..=255 {
        let known = TABLE.iter().find(|(known, _)| *known == number);
        let expected = known.map(|(_, refusal)| *refusal).ok_or(UnknownNumber(number));
        assert_eq!(Refusal::try_from(number), expected);
    }
    assert_eq!(UnknownNumber(15).to_string(), "unknown refusal number 15");
}

#[test]
fn texts_begin_with_the_number_and_differ() {
    let reasons: HashSet<String> = TABLE
        .iter()
        .map(|(number, refusal)| {
            let text = refusal.to_string();
            let reason = text.strip_prefix(&format!("refusal {number}: ")).expect("the number comes first");
            assert!(reason.len() > 10, "{text}");
            reason.to_string()
        })
        .collect();
    assert_eq!(reasons.len(), TABLE.len());
}

#[test]
fn a_refusal_is_an_error_that_can_be_sent_to_another_thread() {
    let error: Box<dyn Error + Send + Sync + 'static> = Box::new(Refusal::ShortPlane);
    assert_eq!(error.downcast_ref::<Refusal>(), Some(&Refusal::ShortPlane));
    assert!(error.source().is_none());
}

/// A service that uses the names of IronRDP's errors, with IronRDP's paths.
mod service {
    use rdp6::bitmap_stream::decoder::BitmapDecodeError;
    use rdp6::bitmap_stream::encoder::BitmapEncodeError;
    use rdp6::rle::{decompress_8bpp_plane, RleDecodeError, RleEncodeError};

    pub fn plane(body: &[u8], plane: &mut [u8]) -> Result<usize, RleDecodeError> {
        decompress_8bpp_plane(body, plane, 1, 1)
    }

    pub fn picture(body: &[u8]) -> Result<usize, BitmapDecodeError> {
        let first = plane(body, &mut [0])?;
        Ok(first + plane(&body[first..], &mut [0])?)
    }

    pub fn is_bad_control(error: RleDecodeError) -> bool {
        matches!(error, RleDecodeError::InvalidSegmentHeader)
    }

    pub fn no_room() -> (RleEncodeError, BitmapEncodeError) {
        (RleEncodeError::BufferTooSmall, BitmapEncodeError::BufferTooSmall)
    }
}

#[test]
fn the_names_of_ironrdp_can_be_used() {
    assert_eq!(service::plane(&[0x10, 5], &mut [0]), Ok(2));
    assert_eq!(service::picture(&[0]).map_err(service::is_bad_control), Err(true));
    assert_eq!(service::no_room(), (Refusal::BufferTooSmall, Refusal::BufferTooSmall));
}
