//! The stored cases of crates/*_vectors/data, called through the functions of this crate. Most of the expected answers are IronRDP's, the rest
//! is written from docs/FORMAT.md. docs/TESTS.md describes the cases and the form of a line.

mod support;

use std::fmt::Debug;
use std::fs;
use std::path::Path;

use rdp6::{
    compress_8bpp_plane, decode, decode_pixels, decompress_8bpp_plane, stream_decode, stream_decode_pixels,
    stream_pixels_work_size, stream_work_size, ABgrChannels, ARgbChannels, BgrAChannels, BitmapStreamDecoder,
    BitmapStreamEncoder, Encoded, Refusal, RgbAChannels,
};
use support::{argb, aycocg, hex, Guarded};

/// The cases of a file, as fields. The file is one of those that a program of the repository replays.
fn for_each_case(program: &str, file: &str, mut check: impl FnMut(&[&str])) {
    let path = Path::new(env!("CARGO_MANIFEST_DIR")).join("../../crates").join(program).join("data").join(file);
    let text = fs::read_to_string(&path).unwrap_or_else(|why| {
        panic!("{} cannot be read: {why}. This test needs the complete repository.", path.display())
    });
    let cases = text.lines().filter(|line| !line.starts_with('#') && !line.is_empty());
    let mut count = 0;
    for case in cases {
        check(&case.split(' ').collect::<Vec<_>>());
        count += 1;
    }
    assert!(count > 0, "{file} has no cases");
}

fn number(field: &str) -> usize {
    field.parse().expect("a number")
}

fn flag(field: &str) -> bool {
    field == "1"
}

/// A number of bytes, or the negated number of a refusal.
fn answer(field: &str) -> Result<usize, Refusal> {
    match field.strip_prefix('-') {
        None => Ok(number(field)),
        Some(refusal) => Err(Refusal::try_from(number(refusal) as u8).expect("a refusal")),
    }
}

/// A call with the type of a layout, by the number of the field.
macro_rules! with_layout {
    ($field:expr, $layout:ident => $call:expr) => {
        match $field {
            "0" => {
                type $layout = BgrAChannels;
                $call
            }
            "1" => {
                type $layout = RgbAChannels;
                $call
            }
            "2" => {
                type $layout = ARgbChannels;
                $call
            }
            "3" => {
                type $layout = ABgrChannels;
                $call
            }
            other => panic!("no layout: {other}"),
        }
    };
}

type Plane = fn(&[u8], &mut [u8], usize, usize) -> Result<usize, Refusal>;

/// WIDTH HEIGHT ROOM ANSWER SOURCE AFTER
fn check_plane(function: Plane, case: &[&str]) {
    let mut dst = Guarded::filled(0xEE, number(case[2]));
    let result = function(&hex(case[4]), dst.slice(), number(case[0]), number(case[1]));
    assert_eq!(result, answer(case[3]), "{case:?}");
    assert_eq!(dst.after(), hex(case[5]), "{case:?}");
}

#[test]
fn planes_unpacked() {
    for file in ["plane-unpack.txt", "plane-unpack-boundaries.txt", "examples.txt", "refusals.txt"] {
        for_each_case("plane_vectors", file, |case| check_plane(decompress_8bpp_plane, case));
    }
}

#[test]
fn planes_packed() {
    for file in ["plane-pack.txt", "plane-pack-boundaries.txt", "examples-pack.txt", "refusals-pack.txt"] {
        for_each_case("plane_vectors", file, |case| check_plane(compress_8bpp_plane, case));
    }
}

/// WIDTH HEIGHT END ROOM ANSWER SAMPLES AFTER: the samples are packed into a slice of 20,000 bytes `C7`, and its first END bytes are unpacked.
#[test]
fn prefixes_unpacked() {
    for_each_case("plane_vectors", "prefixes.txt", |case| {
        if case[4] == "-0" {
            return; // an END over 20,000: there is no such slice
        }
        let (width, height, end) = (number(case[0]), number(case[1]), number(case[2]));
        let mut packed = vec![0xC7; 20_000];
        let mut dst = Guarded::filled(0xEE, number(case[3]));
        let result = compress_8bpp_plane(&hex(case[5]), &mut packed, width, height)
            .and_then(|_| decompress_8bpp_plane(&packed[..end], dst.slice(), width, height));
        assert_eq!(result, answer(case[4]), "{case:?}");
        assert_eq!(dst.after(), hex(case[6]), "{case:?}");
    });
}

/// WIDTH HEIGHT RLE ALPHA DEFINITION LEVEL SUBSAMPLED WORKROOM IMAGEROOM ANSWER BODY WORK-AFTER IMAGE-AFTER
fn check_picture(decoder: &mut BitmapStreamDecoder, case: &[&str]) {
    let (width, height, rle, alpha) = (number(case[0]), number(case[1]), flag(case[2]), flag(case[3]));
    let header = match (case[4], u8::try_from(number(case[5]))) {
        ("0", _) => argb(rle, alpha),
        ("1", Ok(level)) => aycocg(rle, alpha, level, flag(case[6])),
        _ => return, // an unknown definition, or a level over 255: only C can pass them
    };
    let (expected, body) = (answer(case[9]), hex(case[10]));
    let (mut work, mut image) = (Guarded::filled(0xEE, number(case[7])), Guarded::filled(0xEE, number(case[8])));
    assert_eq!(decode(header, &body, work.slice(), image.slice(), width, height), expected, "{case:?}");
    assert_eq!(work.after(), hex(case[11]), "{case:?}");
    assert_eq!(image.after(), hex(case[12]), "{case:?}");
    check_decoder(case, expected, case[12], |dst| decoder.decode_body_to_rgb24(header, &body, dst, width, height));
}

/// Checks a method of the decoder, which appends the image to `dst`. It allocates both buffers, so that it never returns 5 or 6.
fn check_decoder(
    case: &[&str],
    expected: Result<usize, Refusal>,
    image_after: &str,
    decode: impl FnOnce(&mut Vec<u8>) -> Result<(), Refusal>,
) {
    if !matches!(expected, Err(Refusal::ShortWork | Refusal::ShortImage)) {
        let mut dst = vec![0x77];
        assert_eq!(decode(&mut dst), expected.map(|_| ()), "{case:?}");
        assert_eq!(dst[1..], hex(image_after)[..expected.unwrap_or(0)], "{case:?}");
    }
}

#[test]
fn pictures_unpacked() {
    let mut decoder = BitmapStreamDecoder::default();
    for file in ["picture-unpack.txt", "examples-picture.txt", "refusals-picture.txt"] {
        for_each_case("picture_vectors", file, |case| check_picture(&mut decoder, case));
    }
}

/// WIDTH HEIGHT RLE ALPHA DEFINITION LEVEL SUBSAMPLED LAYOUT WORKROOM IMAGEROOM ANSWER BODY WORK-AFTER IMAGE-AFTER
#[test]
fn pictures_unpacked_to_pixels() {
    for file in ["pixels-unpack.txt", "examples-pixels.txt", "refusals-pixels.txt"] {
        for_each_case("picture_vectors", file, |case| {
            let (width, height, rle, alpha) = (number(case[0]), number(case[1]), flag(case[2]), flag(case[3]));
            let header = match (case[4], u8::try_from(number(case[5]))) {
                ("0", _) => argb(rle, alpha),
                ("1", Ok(level)) => aycocg(rle, alpha, level, flag(case[6])),
                _ => return, // an unknown definition, or a level over 255: only C can pass them
            };
            let body = hex(case[11]);
            let (mut work, mut image) =
                (Guarded::filled(0xEE, number(case[8])), Guarded::filled(0xEE, number(case[9])));
            let result = with_layout!(case[7], L => {
                decode_pixels::<L>(header, &body, work.slice(), image.slice(), width, height)
            });
            assert_eq!(result, answer(case[10]), "{case:?}");
            assert_eq!(work.after(), hex(case[12]), "{case:?}");
            assert_eq!(image.after(), hex(case[13]), "{case:?}");
        });
    }
}

/// WIDTH HEIGHT LAYOUT WORKROOM IMAGEROOM WORKSIZE ANSWER STREAM WORK-AFTER IMAGE-AFTER
#[test]
fn streams_unpacked_to_pixels() {
    for file in ["stream-pixels-unpack.txt", "examples-stream-pixels.txt", "refusals-stream-pixels.txt"] {
        for_each_case("picture_vectors", file, |case| {
            let (width, height, stream) = (number(case[0]), number(case[1]), hex(case[7]));
            let (mut work, mut image) =
                (Guarded::filled(0xEE, number(case[3])), Guarded::filled(0xEE, number(case[4])));
            assert_eq!(stream_pixels_work_size(&stream, width, height), number(case[5]), "{case:?}");
            let result = with_layout!(case[2], L => {
                stream_decode_pixels::<L>(&stream, work.slice(), image.slice(), width, height)
            });
            assert_eq!(result, answer(case[6]), "{case:?}");
            assert_eq!(work.after(), hex(case[8]), "{case:?}");
            assert_eq!(image.after(), hex(case[9]), "{case:?}");
        });
    }
}

/// WIDTH HEIGHT WORKROOM IMAGEROOM WORKSIZE ANSWER STREAM WORK-AFTER IMAGE-AFTER
fn check_stream(decoder: &mut BitmapStreamDecoder, case: &[&str]) {
    let (width, height, expected, stream) = (number(case[0]), number(case[1]), answer(case[5]), hex(case[6]));
    let (mut work, mut image) = (Guarded::filled(0xEE, number(case[2])), Guarded::filled(0xEE, number(case[3])));
    assert_eq!(stream_work_size(&stream, width, height), number(case[4]), "{case:?}");
    assert_eq!(stream_decode(&stream, work.slice(), image.slice(), width, height), expected, "{case:?}");
    assert_eq!(work.after(), hex(case[7]), "{case:?}");
    assert_eq!(image.after(), hex(case[8]), "{case:?}");
    check_decoder(case, expected, case[8], |dst| decoder.decode_bitmap_stream_to_rgb24(&stream, dst, width, height));
}

#[test]
fn streams_unpacked() {
    let mut decoder = BitmapStreamDecoder::default();
    for file in ["stream-unpack.txt", "examples-stream.txt", "refusals-stream.txt"] {
        for_each_case("picture_vectors", file, |case| check_stream(&mut decoder, case));
    }
}

/// The expected answer of packing a body: ANSWER SENTRLE SENTALPHA SENTDEFINITION.
fn encoded(fields: &[&str]) -> Result<Encoded, Refusal> {
    assert_eq!(fields[3], "0", "the definition to send is ARGB");
    answer(fields[0]).map(|bytes| Encoded { bytes, header: argb(flag(fields[1]), flag(fields[2])) })
}

/// The fields R G B A.
fn channels(fields: &[&str]) -> [Vec<u8>; 4] {
    [0, 1, 2, 3].map(|i| hex(fields[i]))
}

/// `sides` are WIDTH and HEIGHT, `form` is RLE ALPHA ROOM: `pack` gets an encoder, the destination, RLE and ALPHA.
fn check_packed<T: Debug + PartialEq>(
    (case, sides, form): (&[&str], &[&str], &[&str]),
    expected: Result<T, Refusal>,
    after: &str,
    pack: impl FnOnce(&mut BitmapStreamEncoder, &mut [u8], bool, bool) -> Result<T, Refusal>,
) {
    let mut encoder = BitmapStreamEncoder::new(number(sides[0]), number(sides[1]));
    let mut dst = Guarded::filled(0xEE, number(form[2]));
    assert_eq!(pack(&mut encoder, dst.slice(), flag(form[0]), flag(form[1])), expected, "{case:?}");
    assert_eq!(dst.after(), hex(after), "{case:?}");
}

/// WIDTH HEIGHT RLE ALPHA ROOM ANSWER SENTRLE SENTALPHA SENTDEFINITION R G B A AFTER
#[test]
fn channels_packed() {
    for file in ["channels-pack.txt", "examples-channels.txt", "refusals-channels.txt"] {
        for_each_case("encode_vectors", file, |case| {
            let [r, g, b, a] = channels(&case[9..13]);
            let fields = (case, &case[..2], &case[2..5]);
            check_packed(fields, encoded(&case[5..9]), case[13], |encoder, dst, rle, alpha| match alpha {
                true => encoder.encode_channels_body_alpha((r, g, b, a), dst, rle),
                false => encoder.encode_channels_body((r, g, b), dst, rle),
            });
        });
    }
}

/// WIDTH HEIGHT RLE ALPHA ROOM ANSWER R G B A AFTER
#[test]
fn channels_packed_to_streams() {
    for file in ["stream-channels-pack.txt", "examples-stream-channels.txt", "refusals-stream-channels.txt"] {
        for_each_case("encode_vectors", file, |case| {
            let [r, g, b, a] = channels(&case[6..10]);
            let fields = (case, &case[..2], &case[2..5]);
            check_packed(fields, answer(case[5]), case[10], |encoder, dst, rle, alpha| match alpha {
                true => encoder.encode_channels_stream_alpha((r, g, b, a), dst, rle),
                false => encoder.encode_channels_stream((r, g, b), dst, rle),
            });
        });
    }
}

/// WIDTH HEIGHT LAYOUT RLE ALPHA ROOM ANSWER SENTRLE SENTALPHA SENTDEFINITION PIXELS AFTER
#[test]
fn pixels_packed() {
    for file in ["bitmap-pack.txt", "examples-bitmap.txt", "refusals-bitmap.txt"] {
        for_each_case("encode_vectors", file, |case| {
            let (pixels, fields) = (hex(case[10]), (case, &case[..2], &case[3..6]));
            check_packed(fields, encoded(&case[6..10]), case[11], |encoder, dst, rle, alpha| {
                with_layout!(case[2], L => match alpha {
                    true => encoder.encode_bitmap_body_alpha::<L>(&pixels, dst, rle),
                    false => encoder.encode_bitmap_body::<L>(&pixels, dst, rle),
                })
            });
        });
    }
}

/// WIDTH HEIGHT LAYOUT RLE ALPHA ROOM ANSWER PIXELS AFTER
#[test]
fn pixels_packed_to_streams() {
    for file in ["stream-bitmap-pack.txt", "examples-stream-bitmap.txt", "refusals-stream-bitmap.txt"] {
        for_each_case("encode_vectors", file, |case| {
            let (pixels, fields) = (hex(case[7]), (case, &case[..2], &case[3..6]));
            check_packed(fields, answer(case[6]), case[8], |encoder, dst, rle, alpha| {
                with_layout!(case[2], L => match alpha {
                    true => encoder.encode_bitmap_alpha::<L>(&pixels, dst, rle),
                    false => encoder.encode_bitmap::<L>(&pixels, dst, rle),
                })
            });
        });
    }
}
