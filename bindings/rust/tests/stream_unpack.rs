//! Unpacking a picture from its stream into slices of the caller. The expected results are written from docs/FORMAT.md, or are those of
//! `decode` with the header record and the body that the stream has by FORMAT 1.

mod support;

use rdp6::{decode, image_size, stream_decode, stream_work_size, work_size, Refusal};
use support::{argb, aycocg, first, header_of, hex, random_stream, split, Guarded, Noise, REFUSED_SIDES};

/// The answer, and the work area and the image after the call. Before it all their bytes are `EE`.
type Outcome = (Result<usize, Refusal>, Vec<u8>, Vec<u8>);

/// The stream is a part of a larger slice, in which more segments follow.
fn unpack(stream: &[u8], rooms: (usize, usize), sides: (usize, usize)) -> Outcome {
    let larger = [&hex("30 10 05")[..], stream, &hex("10 05 10 05 10 05 10 05")].concat();
    let stream = &larger[3..3 + stream.len()];
    let (mut work, mut image) = (Guarded::filled(0xEE, rooms.0), Guarded::filled(0xEE, rooms.1));
    let answer = stream_decode(stream, work.slice(), image.slice(), sides.0, sides.1);
    (answer, work.after().to_vec(), image.after().to_vec())
}

/// What `decode` does with the header record and the body of the stream.
fn unpack_split(stream: &[u8], rooms: (usize, usize), sides: (usize, usize)) -> Outcome {
    let (mut work, mut image) = (Guarded::filled(0xEE, rooms.0), Guarded::filled(0xEE, rooms.1));
    let answer =
        split(stream).and_then(|(header, body)| decode(header, body, work.slice(), image.slice(), sides.0, sides.1));
    (answer, work.after().to_vec(), image.after().to_vec())
}

fn outcome(answer: Result<usize, Refusal>, work: &str, image: &str) -> Outcome {
    (answer, hex(work), hex(image))
}

fn unchanged(refusal: Refusal, rooms: (usize, usize)) -> Outcome {
    (Err(refusal), vec![0xEE; rooms.0], vec![0xEE; rooms.1])
}

/// A stream, the sides of its picture, and the work area and the image after unpacking it.
type Example = (&'static str, (usize, usize), &'static str, &'static str);

/// Examples 15 and 16 of FORMAT 10 are among them.
const EXAMPLES: [Example; 13] = [
    ("20 01 02 03 00", (1, 1), "-", "01 02 03"),
    ("30 10 01 10 02 10 03", (1, 1), "01 02 03", "01 02 03"),
    ("00 FF 01 02 03 00", (1, 1), "-", "01 02 03"),
    ("10 10 FF 10 01 10 02 10 03", (1, 1), "01 02 03", "01 02 03"),
    ("20 01 02 03 04 05 06 00", (2, 1), "-", "01 03 05 02 04 06"),
    ("30 20 01 02 20 03 04 20 05 06", (2, 1), "01 02 03 04 05 06", "01 03 05 02 04 06"),
    // Bits 6 and 7, and bit 3 of ARGB, have no meaning.
    ("E8 01 02 03 00", (1, 1), "-", "01 02 03"),
    ("F8 20 01 02 20 03 04 20 05 06", (2, 1), "01 02 03 04 05 06", "01 03 05 02 04 06"),
    // AYCoCg with alpha, and without.
    ("01 FF 64 0A 14 00", (1, 1), "-", "5A 78 46"),
    ("21 64 0A 14 00", (1, 1), "-", "46 78 5A"),
    ("12 10 FF 10 64 10 40 10 00", (1, 1), "64 40 00", "00 64 E4"),
    // Subsampled: one chroma sample for four pixels.
    ("09 FF*4 64*4 01 00 00", (2, 2), "-", "65 64 63 65 64 63 65 64 63 65 64 63"),
    ("39 30 64 64 C8 20 0A 00 20 14 00", (3, 1), "64 64 C8 0A 00 14 00", "46 78 5A 46 78 5A C8 C8 C8"),
];

#[test]
fn examples() {
    for (stream, sides, work, image) in EXAMPLES {
        let unpacked = unpack(&hex(stream), (hex(work).len(), hex(image).len()), sides);
        assert_eq!(unpacked, outcome(Ok(hex(image).len()), work, image), "{stream}");
    }
}

/// One byte more of each slice, in a raw stream before the pad byte: it is neither used nor changed.
#[test]
fn slices_may_be_longer() {
    for (stream, sides, work, image) in EXAMPLES {
        let mut longer = hex(stream);
        longer.push(0x10);
        let unpacked = unpack(&longer, (hex(work).len() + 1, hex(image).len() + 1), sides);
        let expected = outcome(Ok(hex(image).len()), &format!("{work} EE"), &format!("{image} EE"));
        assert_eq!(unpacked, expected, "{stream}");
    }
}

/// Each slice exact, one byte too short, and empty, in all combinations: the refusal is the first in the order of FORMAT 8.2.
#[test]
fn short_slices_are_refused() {
    for (text, sides, work, image) in EXAMPLES {
        let (stream, work, image) = (hex(text), hex(work).len(), hex(image).len());
        let (rle, lengths) = (stream[0] & 0x10 != 0, [stream.len(), stream.len() - 1, 1, 0]);
        for (i, length) in (0..4 * 3 * 3).map(|i| (i, lengths[i % 4])) {
            let room = |size: usize, i: usize| [size, size.saturating_sub(1), 0][i % 3];
            let rooms = (room(work, i / 4), room(image, i / 12));
            let expected = first([
                (length == 0, Refusal::EmptyStream),
                (length == 1 && !rle, Refusal::MissingPad),
                (length == 1 || length < stream.len() && !rle, Refusal::InvalidUncompressedDataSize),
                (rooms.0 < work, Refusal::ShortWork),
                (rooms.1 < image, Refusal::ShortImage),
                // These bodies are longer than their minimum size, and their last byte is a raw byte.
                (length < stream.len(), Refusal::ReadCompressedData),
            ]);
            let unpacked = unpack(&stream[..length], rooms, sides);
            assert_eq!(unpacked.0.err(), expected, "{text}, {length} bytes, {rooms:?}");
            assert_eq!(unpacked, unpack_split(&stream[..length], rooms, sides), "{text}, {length} bytes, {rooms:?}");
            if !matches!(expected, None | Some(Refusal::ReadCompressedData)) {
                assert_eq!((unpacked.1, unpacked.2), (vec![0xEE; rooms.0], vec![0xEE; rooms.1]), "{text}");
            }
        }
    }
}

/// 13 and 14 come before all others, 4 behind 1 and 2. A raw stream of two bytes has an empty body.
#[test]
fn streams_without_a_body_are_refused() {
    let valid = [(1, 1), (3, 2), (8192, 8192)].map(|(width, height)| (width, height, None));
    let refused = REFUSED_SIDES.map(|(width, height, refusal)| (width, height, Some(refusal)));
    for (width, height, refused_sides) in valid.into_iter().chain(refused) {
        let behind = refused_sides.unwrap_or(Refusal::InvalidUncompressedDataSize);
        for rooms in [(0, 0), (3, 3), (18, 18)] {
            let check = |stream: &[u8], refusal| {
                let unpacked = unpack(stream, rooms, (width, height));
                assert_eq!(unpacked, unchanged(refusal, rooms), "{stream:02X?}, {width} x {height}");
            };
            check(&[], Refusal::EmptyStream);
            for byte in 0..=255 {
                let rle = byte & 0x10 != 0;
                check(&[byte], if rle { behind } else { Refusal::MissingPad });
                check(&[byte, 0x10], behind);
            }
        }
    }
}

#[test]
fn sides_are_checked_before_the_body() {
    for (width, height, refusal) in REFUSED_SIDES {
        for (stream, _, work, image) in EXAMPLES {
            for rooms in [(0, 0), (hex(work).len(), hex(image).len())] {
                let unpacked = unpack(&hex(stream), rooms, (width, height));
                assert_eq!(unpacked, unchanged(refusal, rooms), "{stream}, {width} x {height}");
            }
        }
    }
}

/// All header bytes, each with a complete stream, with all its prefixes, and with one byte changed: what `decode` does with the header record
/// and the body. Refusal 3 never occurs.
#[test]
fn every_header_byte() {
    let mut noise = Noise(0x9E37_79B9_7F4A_7C15);
    for (byte, sides) in (0..=255).flat_map(|byte| [(1, 1), (3, 3), (18, 2)].map(|sides| (byte, sides))) {
        let rooms = (stream_work_size(&[byte], sides.0, sides.1), image_size(sides.0, sides.1));
        let stream = random_stream(byte, sides, &mut noise);
        assert_eq!(unpack(&stream, rooms, sides).0, Ok(rooms.1), "{stream:02X?}");
        let mut changed = stream.clone();
        let place = 1 + noise.below(stream.len() as u64 - 1) as usize;
        changed[place] = noise.below(256) as u8;
        for stream in (0..=stream.len()).map(|length| &stream[..length]).chain([&changed[..]]) {
            let unpacked = unpack(stream, rooms, sides);
            assert_ne!(unpacked.0, Err(Refusal::LossLevel));
            assert_eq!(unpacked, unpack_split(stream, rooms, sides), "{stream:02X?}");
        }
    }
}

#[test]
fn the_pad_byte_has_no_effect() {
    for pad in 0..=255 {
        let stream = [0x20, 1, 2, 3, pad];
        assert_eq!(unpack(&stream, (2, 3), (1, 1)), outcome(Ok(3), "EE*2", "01 02 03"));
        // Without it the last sample is taken for it.
        let short = unpack(&[0x20, 1, 2, pad], (2, 3), (1, 1));
        assert_eq!(short, unchanged(Refusal::InvalidUncompressedDataSize, (2, 3)));
    }
}

/// After 7, 8 and 9 the planes before are complete, the refused one has its earlier segments, and the image is unchanged.
#[test]
fn refused_planes_leave_what_is_before_them() {
    for (stream, refusal, work) in [
        ("30 10 01 00", Refusal::InvalidSegmentHeader, "01 EE*5"),
        ("30 20 01 02 10 03", Refusal::ReadCompressedData, "01 02 03 EE*3"),
        ("30 20 01 02 20 03 04 03", Refusal::SegmentDoNotFitScanline, "01 02 03 04 EE*2"),
        // The first colour plane over alpha.
        ("10 20 01 02 10 03 00", Refusal::InvalidSegmentHeader, "03 02 EE*4"),
        ("10 20 01 02 20 03 04 20 05 06 20", Refusal::ReadCompressedData, "03 04 05 06 EE*2"),
        // Chroma planes of one sample.
        ("3F 20 01 02 10 03 20 04 05", Refusal::SegmentDoNotFitScanline, "01 02 03 EE*3"),
    ] {
        assert_eq!(unpack(&hex(stream), (6, 6), (2, 1)), outcome(Err(refusal), work, "EE*6"), "{stream}");
    }
}

/// Only the first byte is read: the others may be missing, and may be anything.
#[test]
fn work_sizes() {
    for (width, height) in [(1, 1), (2, 2), (3, 2), (5, 3), (8192, 2), (8191, 8192)] {
        let (full, chroma) = (width * height, ((width + 1) / 2) * ((height + 1) / 2));
        for byte in 0..=255 {
            let size = match (byte & 0x10 != 0, byte & 0x07 != 0 && byte & 0x08 != 0) {
                (false, _) => 0,
                (true, false) => 3 * full,
                (true, true) => full + 2 * chroma,
            };
            for stream in [&[byte][..], &[byte, 0], &[byte, !byte, 0xFF, 0x10]] {
                assert_eq!(stream_work_size(stream, width, height), size, "{stream:02X?}, {width} x {height}");
            }
            assert_eq!(work_size(header_of(byte), width, height), size, "{byte:02X}, {width} x {height}");
        }
        assert_eq!(stream_work_size(&[], width, height), 0);
    }
    for (width, height, _) in REFUSED_SIDES {
        for stream in [&[][..], &[0x30], &[0x19], &[0x20], &[0x30, 1, 2]] {
            assert_eq!(stream_work_size(stream, width, height), 0);
        }
    }
}

/// The header records that the comparisons with `decode` use.
#[test]
fn headers_and_bodies() {
    assert_eq!(split(&hex("20 01 02")), Ok((argb(false, false), &[1][..])));
    assert_eq!(split(&hex("10 01 02")), Ok((argb(true, true), &[1, 2][..])));
    assert_eq!(split(&hex("FF")), Ok((aycocg(true, false, 7, true), &[][..])));
    assert_eq!(split(&hex("01 02")), Ok((aycocg(false, true, 1, false), &[][..])));
    assert_eq!(split(&hex("C8 00")), Ok((argb(false, true), &[][..])));
    assert_eq!(split(&hex("E0")), Err(Refusal::MissingPad));
    assert_eq!(split(&[]), Err(Refusal::EmptyStream));
}

#[test]
fn threads_do_not_affect_each_other() {
    std::thread::scope(|scope| {
        for (stream, sides, work, image) in EXAMPLES {
            scope.spawn(move || {
                let (stream, rooms) = (hex(stream), (hex(work).len(), hex(image).len()));
                for _ in 0..200 {
                    assert_eq!(unpack(&stream, rooms, sides), outcome(Ok(rooms.1), work, image));
                }
            });
        }
    });
}
