//! Unpacking a picture to pixels of four bytes, from its stream and from its body, into slices of the caller. The expected results are written
//! by hand, or are those of a model: R, G and B are those of `decode`, alpha and the work area those of `decompress_8bpp_plane`, plane by plane.

#[macro_use]
mod support;

use rdp6::{
    decode, decode_pixels, decompress_8bpp_plane, image_size, pixels_image_size, pixels_work_size, stream_decode,
    stream_decode_pixels, stream_pixels_work_size, work_size, BitmapStreamEncoder, BitmapStreamHeader,
    ColorPlaneDefinition, Refusal,
};
use support::{
    argb, aycocg, first, header_of, hex, random_stream, split, Guarded, Layout, Noise, LAYOUTS, REFUSED_SIDES,
};

/// The answer, and the work area and the image after the call. Before it all their bytes are `EE`.
type Outcome = (Result<usize, Refusal>, Vec<u8>, Vec<u8>);

/// The stream is a part of a larger slice, in which more segments follow.
fn unpack_stream(layout: Layout, stream: &[u8], rooms: (usize, usize), sides: (usize, usize)) -> Outcome {
    let larger = [&hex("30 10 05")[..], stream, &hex("10 05 10 05 10 05 10 05")].concat();
    let stream = &larger[3..3 + stream.len()];
    let (mut work, mut image) = (Guarded::filled(0xEE, rooms.0), Guarded::filled(0xEE, rooms.1));
    let answer =
        with_layout!(layout, F, stream_decode_pixels::<F>(stream, work.slice(), image.slice(), sides.0, sides.1));
    (answer, work.after().to_vec(), image.after().to_vec())
}

fn unpack_body(
    layout: Layout,
    header: BitmapStreamHeader,
    body: &[u8],
    rooms: (usize, usize),
    sides: (usize, usize),
) -> Outcome {
    let larger = [&hex("10 05")[..], body, &hex("10 05 10 05 10 05 10 05")].concat();
    let body = &larger[2..2 + body.len()];
    let (mut work, mut image) = (Guarded::filled(0xEE, rooms.0), Guarded::filled(0xEE, rooms.1));
    let answer =
        with_layout!(layout, F, decode_pixels::<F>(header, body, work.slice(), image.slice(), sides.0, sides.1));
    (answer, work.after().to_vec(), image.after().to_vec())
}

/// Unpacks a stream. From its header record and its body, if it has them, the same is unpacked.
fn unpack(layout: Layout, stream: &[u8], rooms: (usize, usize), sides: (usize, usize)) -> Outcome {
    let outcome = unpack_stream(layout, stream, rooms, sides);
    let of_body = match split(stream) {
        Ok((header, body)) => unpack_body(layout, header, body, rooms, sides),
        Err(refusal) => unchanged(refusal, rooms),
    };
    assert_eq!(outcome, of_body, "{layout:?}, {stream:02X?}, {rooms:?}, {sides:?}");
    outcome
}

fn unchanged(refusal: Refusal, rooms: (usize, usize)) -> Outcome {
    (Err(refusal), vec![0xEE; rooms.0], vec![0xEE; rooms.1])
}

/// The number of samples of a full plane and of a chroma plane, and the sides of a chroma plane.
fn plane_sizes(header: BitmapStreamHeader, (width, height): (usize, usize)) -> (usize, usize, (usize, usize)) {
    let chroma = match header.color_plane_definition {
        ColorPlaneDefinition::AYCoCg { use_chroma_subsampling: true, .. } => ((width + 1) / 2, (height + 1) / 2),
        _ => (width, height),
    };
    (width * height, chroma.0 * chroma.1, chroma)
}

/// One full plane more than for three bytes a pixel, if there is alpha in RLE.
fn model_work_size(header: BitmapStreamHeader, sides: (usize, usize)) -> usize {
    let (full, chroma, _) = plane_sizes(header, sides);
    match (header.enable_rle_compression, header.use_alpha) {
        (false, _) => 0,
        (true, false) => full + 2 * chroma,
        (true, true) => full + 2 * chroma + full,
    }
}

/// Refusals 1 to 4 and the colours are those of `decode`. An RLE picture is unpacked plane by plane: alpha behind the colour planes.
fn model(
    layout: Layout,
    header: BitmapStreamHeader,
    body: &[u8],
    rooms: (usize, usize),
    sides: (usize, usize),
) -> Outcome {
    let mut rgb = vec![0; image_size(sides.0, sides.1)];
    let three = decode(header, body, &mut vec![0; work_size(header, sides.0, sides.1)], &mut rgb, sides.0, sides.1);
    if let Err(refusal @ (Refusal::ZeroSize | Refusal::TooLarge | Refusal::LossLevel)) = three {
        return unchanged(refusal, rooms);
    }
    let (full, chroma, chroma_sides) = plane_sizes(header, sides);
    if let Some(refusal) = first([
        (three == Err(Refusal::InvalidUncompressedDataSize), Refusal::InvalidUncompressedDataSize),
        (rooms.0 < model_work_size(header, sides), Refusal::ShortWork),
        (rooms.1 < 4 * full, Refusal::ShortImage),
    ]) {
        return unchanged(refusal, rooms);
    }
    let (mut work, mut image) = (vec![0xEE; rooms.0], vec![0xEE; rooms.1]);
    let mut alpha = vec![255; full];
    if header.enable_rle_compression {
        let alpha_place = full + 2 * chroma;
        let planes = [(alpha_place, sides), (0, sides), (full, chroma_sides), (full + chroma, chroma_sides)];
        let mut rest = body;
        for (place, (width, height)) in planes.into_iter().skip(usize::from(!header.use_alpha)) {
            match decompress_8bpp_plane(rest, &mut work[place..], width, height) {
                Ok(count) => rest = &rest[count..],
                Err(refusal) => return (Err(refusal), work, image),
            }
        }
        if header.use_alpha {
            alpha.copy_from_slice(&work[alpha_place..alpha_place + full]);
        }
    } else if header.use_alpha {
        alpha.copy_from_slice(&body[..full]);
    }
    for (i, pixel) in image.chunks_exact_mut(4).take(full).enumerate() {
        pixel.copy_from_slice(&layout.pixel([rgb[3 * i], rgb[3 * i + 1], rgb[3 * i + 2], alpha[i]]));
    }
    (Ok(4 * full), work, image)
}

/// A stream, the sides of its picture, the work area after unpacking it, and R, G, B and A of each pixel.
type Example = (&'static str, (usize, usize), &'static str, &'static str);

/// The colours of examples 15 and 16 of FORMAT 10 are among them.
const EXAMPLES: [Example; 16] = [
    // Without alpha A is FF.
    ("20 01 02 03 00", (1, 1), "-", "01 02 03 FF"),
    ("30 10 01 10 02 10 03", (1, 1), "01 02 03", "01 02 03 FF"),
    ("20 01 02 03 04 05 06 00", (2, 1), "-", "01 03 05 FF 02 04 06 FF"),
    ("30 20 01 02 20 03 04 20 05 06", (2, 1), "01 02 03 04 05 06", "01 03 05 FF 02 04 06 FF"),
    // With alpha, 00 too.
    ("00 04 01 02 03 00", (1, 1), "-", "01 02 03 04"),
    ("10 10 00 10 01 10 02 10 03", (1, 1), "01 02 03 00", "01 02 03 00"),
    ("00 07 08 01 02 03 04 05 06 00", (2, 1), "-", "01 03 05 07 02 04 06 08"),
    ("10 20 07 08 20 01 02 20 03 04 20 05 06", (2, 1), "01 02 03 04 05 06 07 08", "01 03 05 07 02 04 06 08"),
    // Two rows: the second row of alpha is one more than the first.
    (
        "10 20 07 08 20 02 02 20 01 02 20 00 00 20 03 04 20 00 00 20 05 06 20 00 00",
        (2, 2),
        "01 02 01 02 03 04 03 04 05 06 05 06 07 08 08 09",
        "01 03 05 07 02 04 06 08 01 03 05 08 02 04 06 09",
    ),
    // Bits 6 and 7, and bit 3 of ARGB, have no meaning.
    ("C8 04 01 02 03 00", (1, 1), "-", "01 02 03 04"),
    // AYCoCg with alpha, and without, where the first colour is blue.
    ("01 80 64 0A 14 00", (1, 1), "-", "5A 78 46 80"),
    ("21 64 0A 14 00", (1, 1), "-", "46 78 5A FF"),
    ("12 10 80 10 64 10 40 10 00", (1, 1), "64 40 00 80", "00 64 E4 80"),
    // Subsampled: one chroma sample for four pixels, and alpha behind the smaller planes.
    ("09 01 02 03 04 64*4 01 00 00", (2, 2), "-", "65 64 63 01 65 64 63 02 65 64 63 03 65 64 63 04"),
    (
        "19 30 01 02 03 30 64 64 C8 20 0A 00 20 14 00",
        (3, 1),
        "64 64 C8 0A 00 14 00 01 02 03",
        "5A 78 46 01 5A 78 46 02 C8 C8 C8 03",
    ),
    ("39 30 64 64 C8 20 0A 00 20 14 00", (3, 1), "64 64 C8 0A 00 14 00", "46 78 5A FF 46 78 5A FF C8 C8 C8 FF"),
];

#[test]
fn examples() {
    for (stream, sides, work, rgba) in EXAMPLES {
        for layout in LAYOUTS {
            let (work, image) = (hex(work), layout.pixels(&hex(rgba)));
            let unpacked = unpack(layout, &hex(stream), (work.len(), image.len()), sides);
            assert_eq!(unpacked, (Ok(image.len()), work, image), "{layout:?}, {stream}");
        }
    }
}

/// One picture written out in each layout.
#[test]
fn layouts_written_out() {
    let (raw, rle) = ("00 A1 A2 01 02 03 04 05 06 00", "10 20 A1 A2 20 01 02 20 03 04 20 05 06");
    for (layout, image) in [
        (Layout::BgrA, "05 03 01 A1 06 04 02 A2"),
        (Layout::RgbA, "01 03 05 A1 02 04 06 A2"),
        (Layout::ARgb, "A1 01 03 05 A2 02 04 06"),
        (Layout::ABgr, "A1 05 03 01 A2 06 04 02"),
    ] {
        assert_eq!(unpack(layout, &hex(raw), (0, 8), (2, 1)), (Ok(8), vec![], hex(image)), "{layout:?}");
        let work = hex("01 02 03 04 05 06 A1 A2");
        assert_eq!(unpack(layout, &hex(rle), (8, 8), (2, 1)), (Ok(8), work, hex(image)), "{layout:?}");
    }
}

/// The model is right on the examples.
#[test]
fn the_model_on_the_examples() {
    for (stream, sides, work, rgba) in EXAMPLES {
        let (stream, work, image) = (hex(stream), hex(work), Layout::ABgr.pixels(&hex(rgba)));
        let (header, body) = split(&stream).unwrap();
        let outcome = model(Layout::ABgr, header, body, (work.len(), image.len()), sides);
        assert_eq!(outcome, (Ok(image.len()), work, image), "{stream:02X?}");
    }
}

/// Some bytes more of each slice, in a raw stream before the pad byte: they are neither used nor changed. A raw picture does not change the
/// work area.
#[test]
fn slices_may_be_longer() {
    for (stream, sides, work, rgba) in EXAMPLES {
        for (layout, more) in LAYOUTS.into_iter().flat_map(|layout| [1, 2, 3, 5].map(|more| (layout, more))) {
            let image = layout.pixels(&hex(rgba));
            let (stream, rest) = (hex(stream), vec![0xEE; more]);
            let longer = [&stream[..], &vec![0x10; more]].concat();
            let unpacked = unpack(layout, &longer, (hex(work).len() + more, image.len() + more), sides);
            let expected = (Ok(image.len()), [hex(work), rest.clone()].concat(), [image, rest].concat());
            assert_eq!(unpacked, expected, "{layout:?}, {stream:02X?}");
        }
    }
}

/// Every length of the work area and of the image up to the minimum, with the complete stream and with one that is too short.
#[test]
fn short_slices_are_refused() {
    for (text, sides, work, rgba) in EXAMPLES {
        let (stream, work, image) = (hex(text), hex(work).len(), hex(rgba).len());
        let rle = stream[0] & 0x10 != 0;
        for layout in LAYOUTS {
            for (length, work_room, image_room) in [stream.len(), stream.len() - 1, 1, 0]
                .into_iter()
                .flat_map(|n| (0..=work).flat_map(move |w| (0..=image).map(move |i| (n, w, i))))
            {
                let rooms = (work_room, image_room);
                let expected = first([
                    (length == 0, Refusal::EmptyStream),
                    (length == 1 && !rle, Refusal::MissingPad),
                    (length == 1 || length < stream.len() && !rle, Refusal::InvalidUncompressedDataSize),
                    (rooms.0 < work, Refusal::ShortWork),
                    (rooms.1 < image, Refusal::ShortImage),
                    // These bodies are longer than their minimum size, and their last byte is a raw byte.
                    (length < stream.len(), Refusal::ReadCompressedData),
                ]);
                let unpacked = unpack(layout, &stream[..length], rooms, sides);
                assert_eq!(unpacked.0.err(), expected, "{layout:?}, {text}, {length} bytes, {rooms:?}");
                match expected {
                    None => assert_eq!(unpacked.0, Ok(image)),
                    Some(Refusal::ReadCompressedData) => assert_eq!(unpacked.2, vec![0xEE; rooms.1]),
                    Some(refusal) => assert_eq!(unpacked, unchanged(refusal, rooms), "{layout:?}, {text}"),
                }
            }
        }
    }
}

/// The work area and the image that three bytes a pixel need are too short here: 5 asks for one plane more if there is alpha, 6 for one byte
/// more a pixel.
#[test]
fn the_sizes_of_three_bytes_are_too_short() {
    let (with_alpha, without) = (hex("10 20 A1 A2 20 01 02 20 03 04 20 05 06"), hex("30 20 01 02 20 03 04 20 05 06"));
    for layout in LAYOUTS {
        for room in 6..8 {
            assert_eq!(unpack(layout, &with_alpha, (room, 8), (2, 1)), unchanged(Refusal::ShortWork, (room, 8)));
            assert_eq!(unpack(layout, &with_alpha, (8, room), (2, 1)), unchanged(Refusal::ShortImage, (8, room)));
            assert_eq!(unpack(layout, &without, (6, room), (2, 1)), unchanged(Refusal::ShortImage, (6, room)));
        }
        assert_eq!(unpack(layout, &with_alpha, (8, 8), (2, 1)).0, Ok(8));
        assert_eq!(unpack(layout, &without, (6, 8), (2, 1)).0, Ok(8));
    }
}

#[test]
fn sizes() {
    for (width, height) in [(1, 1), (2, 2), (3, 2), (5, 3), (8192, 2), (8191, 8192), (8192, 8192)] {
        let (full, chroma) = (width * height, ((width + 1) / 2) * ((height + 1) / 2));
        assert_eq!(pixels_image_size(width, height), 4 * full);
        for byte in 0..=255 {
            let (rle, subsampled) = (byte & 0x10 != 0, byte & 0x07 != 0 && byte & 0x08 != 0);
            let alpha = if byte & 0x20 == 0 { full } else { 0 };
            let size = match (rle, subsampled) {
                (false, _) => 0,
                (true, false) => 3 * full + alpha,
                (true, true) => full + 2 * chroma + alpha,
            };
            // Only the first byte is read: the others may be missing, and may be anything.
            for stream in [&[byte][..], &[byte, 0], &[byte, !byte, 0xFF, 0x10]] {
                assert_eq!(stream_pixels_work_size(stream, width, height), size, "{stream:02X?}, {width} x {height}");
            }
            assert_eq!(pixels_work_size(header_of(byte), width, height), size, "{byte:02X}, {width} x {height}");
            assert_eq!(model_work_size(header_of(byte), (width, height)), size, "{byte:02X}, {width} x {height}");
        }
        assert_eq!(stream_pixels_work_size(&[], width, height), 0);
    }
    for (width, height, _) in REFUSED_SIDES {
        assert_eq!(pixels_image_size(width, height), 0);
        assert_eq!(pixels_work_size(argb(true, true), width, height), 0);
        assert_eq!(pixels_work_size(aycocg(true, true, 1, true), width, height), 0);
        for stream in [&[][..], &[0x10], &[0x19], &[0x00], &[0x10, 1, 2]] {
            assert_eq!(stream_pixels_work_size(stream, width, height), 0);
        }
    }
    // The level is not checked.
    assert_eq!(pixels_work_size(aycocg(true, true, 0, true), 2, 2), 10);
    assert_eq!(pixels_work_size(aycocg(true, true, 255, false), 2, 2), 16);
}

/// All combinations of wrong arguments of a body: the refusal is the first in the order of FORMAT 8.2, and refusals 1 to 6 change nothing.
#[test]
fn checks_come_in_order() {
    let complete = hex("10 80 10 64 10 0A 10 14");
    let damaged = hex("10 80 00 64 10 0A 10 14");
    for (i, level) in (0..5 * 2 * 2 * 2 * 2).map(|i| (i, [1, 7, 0, 8, 255][i % 5])) {
        let bit = |n: usize| (i / 5) >> n & 1 == 1;
        let (short_body, short_work, short_image, bad) = (bit(0), bit(1), bit(2), bit(3));
        let body = if bad { &damaged } else { &complete };
        let body = if short_body { &body[..3] } else { &body[..] };
        let rooms = (4 - usize::from(short_work), 4 - usize::from(short_image));
        let expected = first([
            (!(1..=7).contains(&level), Refusal::LossLevel),
            (short_body, Refusal::InvalidUncompressedDataSize),
            (short_work, Refusal::ShortWork),
            (short_image, Refusal::ShortImage),
            (bad, Refusal::InvalidSegmentHeader),
        ]);
        for layout in LAYOUTS {
            let (answer, work, image) = unpack_body(layout, aycocg(true, true, level, false), body, rooms, (1, 1));
            assert_eq!(answer.err(), expected);
            assert_eq!(answer.ok(), if expected.is_none() { Some(4) } else { None });
            if let Some(refusal) = expected {
                assert_eq!(image, vec![0xEE; rooms.1]);
                // Alpha is in its place by then.
                let refused = refusal == Refusal::InvalidSegmentHeader;
                assert_eq!(work, if refused { hex("EE*3 80") } else { vec![0xEE; rooms.0] });
            }
        }
    }
}

/// 13 and 14 come before 1 and 2, and these before all others.
#[test]
fn sides_are_checked_first() {
    for (width, height, refusal) in REFUSED_SIDES {
        for layout in LAYOUTS {
            for rooms in [(0, 0), (3, 3), (8, 8)] {
                let check = |stream: &str, refusal| {
                    let unpacked = unpack(layout, &hex(stream), rooms, (width, height));
                    assert_eq!(unpacked, unchanged(refusal, rooms), "{stream}, {width} x {height}");
                };
                check("-", Refusal::EmptyStream);
                check("00", Refusal::MissingPad);
                check("2F", Refusal::MissingPad);
                for stream in ["10", "00 00", "20 01 02 03 00", "10 10 04 10 01 10 02 10 03"] {
                    check(stream, refusal);
                }
                let header = aycocg(true, true, 0, true);
                let refused = unpack_body(layout, header, &hex("10 04 10 01 10 02 10 03"), rooms, (width, height));
                assert_eq!(refused, unchanged(refusal, rooms));
            }
        }
    }
}

/// After 7, 8 and 9 the planes before are complete, the refused one has its earlier segments, the rest of the work area and the image are
/// unchanged. Alpha, behind the colour planes, stays whole.
#[test]
fn refused_planes_leave_what_is_before_them() {
    let missing = Refusal::ReadCompressedData;
    let zero = Refusal::InvalidSegmentHeader;
    let wide = Refusal::SegmentDoNotFitScanline;
    for (stream, refusal, work) in [
        // Alpha itself: the colour planes' part is unchanged.
        ("10 10 A1 00 00", zero, "EE*6 A1 EE"),
        ("10 30 A1 A2 A3", wide, "EE*6 EE EE"),
        ("10 10 A1 20 02", missing, "EE*6 A1 EE"),
        ("10 10 A1 02 02", wide, "EE*6 A1 EE"),
        // The first colour plane.
        ("10 20 A1 A2 00", zero, "EE*6 A1 A2"),
        ("10 20 A1 A2 10 03 00", zero, "03 EE*5 A1 A2"),
        ("10 20 A1 A2 10 03", missing, "03 EE*5 A1 A2"),
        ("10 20 A1 A2 10 03 02", wide, "03 EE*5 A1 A2"),
        // The second and the third.
        ("10 20 A1 A2 20 01 02 00", zero, "01 02 EE*4 A1 A2"),
        ("10 20 A1 A2 20 01 02 10 03", missing, "01 02 03 EE*3 A1 A2"),
        ("10 20 A1 A2 20 01 02 20 03 04 20 05", missing, "01 02 03 04 EE*2 A1 A2"),
        ("10 20 A1 A2 20 01 02 20 03 04 10 05 00", zero, "01 02 03 04 05 EE A1 A2"),
        ("10 20 A1 A2 20 01 02 20 03 04 03", wide, "01 02 03 04 EE*2 A1 A2"),
        // Without alpha.
        ("30 20 01 02 10 03", missing, "01 02 03 EE*5"),
        ("30 20 01 02 20 03 04 10 05 00", zero, "01 02 03 04 05 EE*3"),
        // Chroma planes of one sample: alpha is behind four colour samples.
        ("1F 20 A1 A2 20 01 02 10 03 20 04 05", wide, "01 02 03 EE A1 A2 EE*2"),
        ("1F 10 A1 00 00 00", zero, "EE*4 A1 EE*3"),
    ] {
        for layout in LAYOUTS {
            let refused = unpack(layout, &hex(stream), (8, 8), (2, 1));
            assert_eq!(refused, (Err(refusal), hex(work), hex("EE*8")), "{layout:?}, {stream}");
        }
    }
}

/// Two rows: the refused row has codes, the one above its samples.
#[test]
fn refused_rows_of_a_plane_are_coded_values() {
    for layout in LAYOUTS {
        // Of alpha, with one code of its second row.
        let alpha = unpack(layout, &hex("10 20 A1 A2 10 02 00 00 00"), (16, 16), (2, 2));
        assert_eq!(alpha, (Err(Refusal::InvalidSegmentHeader), hex("EE*12 A1 A2 02 EE"), hex("EE*16")));
        // Of the first colour plane, behind a complete alpha plane.
        let color = unpack(layout, &hex("10 20 A1 A2 20 02 02 20 0A 0A 10 02 00"), (16, 16), (2, 2));
        let work = hex("0A 0A 02 EE*9 A1 A2 A2 A3");
        assert_eq!(color, (Err(Refusal::InvalidSegmentHeader), work, hex("EE*16")));
    }
}

/// All header bytes, each with a complete stream, with all its prefixes, and with one byte changed, in all layouts: what the model gives. The
/// refusals are those of `stream_decode`, so that refusal 3 never occurs.
#[test]
fn every_header_byte() {
    let mut noise = Noise(0xD1B5_4A32_D192_ED03);
    for (byte, sides) in (0..=255).flat_map(|byte| [(1, 1), (3, 3), (18, 2)].map(|sides| (byte, sides))) {
        let size = model_work_size(header_of(byte), sides);
        let rooms = (size + noise.below(3) as usize, 4 * sides.0 * sides.1 + noise.below(3) as usize);
        let stream = random_stream(byte, sides, &mut noise);
        let mut changed = stream.clone();
        let place = 1 + noise.below(stream.len() as u64 - 1) as usize;
        changed[place] = noise.below(256) as u8;
        let streams = (0..=stream.len()).map(|length| &stream[..length]).chain([&changed[..]]);
        for (stream, layout) in streams.zip(LAYOUTS.into_iter().cycle().skip(usize::from(byte))) {
            let unpacked = unpack(layout, stream, rooms, sides);
            let expected = match split(stream) {
                Ok((header, body)) => model(layout, header, body, rooms, sides),
                Err(refusal) => unchanged(refusal, rooms),
            };
            assert_eq!(unpacked, expected, "{layout:?}, {stream:02X?}");
            let mut image = vec![0; image_size(sides.0, sides.1)];
            let three = stream_decode(stream, &mut vec![0; size], &mut image, sides.0, sides.1);
            assert_eq!(unpacked.0.err(), three.err(), "{stream:02X?}");
        }
        for layout in LAYOUTS {
            assert_eq!(unpack(layout, &stream, rooms, sides).0, Ok(4 * sides.0 * sides.1), "{stream:02X?}");
        }
    }
}

/// Packed from one layout and unpacked to another, with alpha and without.
#[test]
fn there_and_back() {
    let mut noise = Noise(0x8EBC_6AF0_9C88_C6E3);
    for i in 0..120 {
        let (width, height) = (1 + noise.below(70) as usize, 1 + noise.below(6) as usize);
        let channels = [(); 4].map(|_| noise.samples(width * height));
        let rgba: Vec<u8> = (0..width * height).flat_map(|i| [0, 1, 2, 3].map(|k: usize| channels[k][i])).collect();
        let (alpha, rle) = (i & 1 != 0, i & 2 != 0);
        for (from, to) in LAYOUTS.into_iter().flat_map(|from| LAYOUTS.map(|to| (from, to))) {
            let mut encoder = BitmapStreamEncoder::new(width, height);
            let (pixels, mut stream) = (from.pixels(&rgba), vec![0; 8 * width * height + 2]);
            let count = match alpha {
                true => with_layout!(from, F, encoder.encode_bitmap_alpha::<F>(&pixels, &mut stream, rle)),
                false => with_layout!(from, F, encoder.encode_bitmap::<F>(&pixels, &mut stream, rle)),
            };
            stream.truncate(count.unwrap());
            let mut expected = rgba.clone();
            if alpha {
                stream[0] &= !0x20;
            } else {
                expected.chunks_exact_mut(4).for_each(|pixel| pixel[3] = 255);
            }
            let rooms = (stream_pixels_work_size(&stream, width, height), pixels_image_size(width, height));
            let (answer, _, image) = unpack(to, &stream, rooms, (width, height));
            assert_eq!(answer, Ok(rooms.1), "{from:?} to {to:?}");
            assert_eq!(image, to.pixels(&expected), "{from:?} to {to:?}");
        }
    }
}

#[test]
fn threads_do_not_affect_each_other() {
    std::thread::scope(|scope| {
        for ((stream, sides, work, rgba), layout) in EXAMPLES.into_iter().zip(LAYOUTS.into_iter().cycle()) {
            scope.spawn(move || {
                let (stream, work, image) = (hex(stream), hex(work), layout.pixels(&hex(rgba)));
                for _ in 0..200 {
                    let unpacked = unpack(layout, &stream, (work.len(), image.len()), sides);
                    assert_eq!(unpacked, (Ok(image.len()), work.clone(), image.clone()));
                }
            });
        }
    });
}
