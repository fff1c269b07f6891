//! `BitmapStreamDecoder`: what it appends, what it does not change, what it allocates. The expected results are written from docs/FORMAT.md.

#[macro_use]
mod support;

use rdp6::{BgrAChannels, BitmapStreamDecoder, BitmapStreamHeader, Refusal, RgbAChannels};
use support::{argb, aycocg, first, hex, split, Layout, Noise, LAYOUTS, REFUSED_SIDES};

/// Unpacks a picture from its stream and appends it to two bytes. From its header record and its body, if it has them, the same is unpacked.
fn unpack_stream(
    decoder: &mut BitmapStreamDecoder,
    stream: &str,
    sides: (usize, usize),
) -> (Result<(), Refusal>, Vec<u8>) {
    let (stream, mut dst, mut dst_of_body) = (hex(stream), hex("AA BB"), hex("AA BB"));
    let answer = decoder.decode_bitmap_stream_to_rgb24(&stream, &mut dst, sides.0, sides.1);
    let answer_of_body = split(&stream)
        .and_then(|(header, body)| decoder.decode_body_to_rgb24(header, body, &mut dst_of_body, sides.0, sides.1));
    assert_eq!((answer, &dst), (answer_of_body, &dst_of_body), "{stream:02X?}");
    (answer, dst)
}

/// Unpacks a picture to pixels and appends them to two bytes, from its stream, and with the same result from its header record and its body.
fn unpack_pixels(
    decoder: &mut BitmapStreamDecoder,
    layout: Layout,
    stream: &str,
    (width, height): (usize, usize),
) -> (Result<(), Refusal>, Vec<u8>) {
    let (stream, mut dst, mut dst_of_body) = (hex(stream), hex("AA BB"), hex("AA BB"));
    let answer = with_layout!(layout, F, decoder.decode_bitmap_stream_to_pixels::<F>(&stream, &mut dst, width, height));
    let answer_of_body = split(&stream).and_then(|(header, body)| {
        with_layout!(layout, F, decoder.decode_body_to_pixels::<F>(header, body, &mut dst_of_body, width, height))
    });
    assert_eq!((answer, &dst), (answer_of_body, &dst_of_body), "{stream:02X?}");
    (answer, dst)
}

/// Unpacks a picture from its body and appends it to two bytes.
fn unpack(
    decoder: &mut BitmapStreamDecoder,
    header: BitmapStreamHeader,
    body: &str,
    sides: (usize, usize),
) -> (Result<(), Refusal>, Vec<u8>) {
    let mut dst = hex("AA BB");
    let answer = decoder.decode_body_to_rgb24(header, &hex(body), &mut dst, sides.0, sides.1);
    (answer, dst)
}

#[test]
fn images_are_appended() {
    let mut decoder = BitmapStreamDecoder::default();
    let mut dst = hex("AA");
    decoder.decode_body_to_rgb24(argb(false, false), &[1, 2, 3], &mut dst, 1, 1).unwrap();
    decoder.decode_body_to_rgb24(argb(true, false), &hex("10 04 10 05 10 06"), &mut dst, 1, 1).unwrap();
    assert_eq!(dst, hex("AA 01 02 03 04 05 06"));
    decoder.decode_bitmap_stream_to_rgb24(&hex("20 07 08 09 00"), &mut dst, 1, 1).unwrap();
    decoder.decode_bitmap_stream_to_rgb24(&hex("30 10 0A 10 0B 10 0C"), &mut dst, 1, 1).unwrap();
    assert_eq!(dst, hex("AA 01 02 03 04 05 06 07 08 09 0A 0B 0C"));
}

/// Three bytes and four, in turn, with one decoder.
#[test]
fn pixels_are_appended() {
    let mut decoder = BitmapStreamDecoder::default();
    let mut dst = hex("AA");
    decoder.decode_bitmap_stream_to_pixels::<BgrAChannels>(&hex("00 04 01 02 03 00"), &mut dst, 1, 1).unwrap();
    decoder.decode_bitmap_stream_to_rgb24(&hex("10 10 08 10 05 10 06 10 07"), &mut dst, 1, 1).unwrap();
    decoder.decode_bitmap_stream_to_pixels::<RgbAChannels>(&hex("10 10 08 10 05 10 06 10 07"), &mut dst, 1, 1).unwrap();
    decoder
        .decode_body_to_pixels::<RgbAChannels>(argb(true, false), &hex("10 09 10 0A 10 0B"), &mut dst, 1, 1)
        .unwrap();
    assert_eq!(dst, hex("AA 03 02 01 04 05 06 07 05 06 07 08 09 0A 0B FF"));
}

/// The colours of `colours`, with alpha, in every layout.
#[test]
fn colours_of_pixels() {
    let mut decoder = BitmapStreamDecoder::default();
    for (stream, sides, rgba) in [
        ("01 80 64 0A 14 00", (1, 1), "5A 78 46 80"),
        ("19 10 00 10 64 10 0A 10 14", (1, 1), "5A 78 46 00"),
        ("31 10 64 10 0A 10 14", (1, 1), "46 78 5A FF"),
        ("02 01 64 40 00 00", (1, 1), "00 64 E4 01"),
        ("09 01 02 03 04 64*4 01 00 00", (2, 2), "65 64 63 01 65 64 63 02 65 64 63 03 65 64 63 04"),
    ] {
        for layout in LAYOUTS {
            let pixels = [hex("AA BB"), layout.pixels(&hex(rgba))].concat();
            assert_eq!(unpack_pixels(&mut decoder, layout, stream, sides), (Ok(()), pixels), "{layout:?}, {stream}");
        }
    }
}

/// The same refusals as for three bytes a pixel; the destination is unchanged.
#[test]
fn refused_pixels() {
    let mut decoder = BitmapStreamDecoder::default();
    let refused = |refusal| (Err(refusal), hex("AA BB"));
    for layout in LAYOUTS {
        for (stream, refusal) in [
            ("-", Refusal::EmptyStream),
            ("00", Refusal::MissingPad),
            ("00 00", Refusal::InvalidUncompressedDataSize),
            ("10", Refusal::InvalidUncompressedDataSize),
            ("00 04 01 02 03", Refusal::InvalidUncompressedDataSize),
            ("10 10 80 00 00", Refusal::InvalidSegmentHeader),
            ("10 20 80 80 00", Refusal::SegmentDoNotFitScanline),
            ("10 10 80 10 64 10 0A 10", Refusal::ReadCompressedData),
        ] {
            assert_eq!(unpack_pixels(&mut decoder, layout, stream, (1, 1)), refused(refusal), "{layout:?}, {stream}");
        }
        for (width, height, refusal) in REFUSED_SIDES {
            for stream in ["10", "00 00", "00 04 01 02 03 00", "10 10 04 10 01 10 02 10 03"] {
                let unpacked = unpack_pixels(&mut decoder, layout, stream, (width, height));
                assert_eq!(unpacked, refused(refusal), "{layout:?}, {stream}");
            }
        }
        let (header, body, mut dst) = (aycocg(true, true, 8, false), hex("10 80 10 64 10 0A 10 14"), hex("AA BB"));
        let answer = with_layout!(layout, F, decoder.decode_body_to_pixels::<F>(header, &body, &mut dst, 1, 1));
        assert_eq!((answer, dst), refused(Refusal::LossLevel));
    }
}

/// The refusals before 5 allocate nothing. The work area has one plane more for an alpha plane in RLE, and a raw picture has none.
#[test]
fn refused_pixels_allocate_nothing() {
    let mut decoder = BitmapStreamDecoder::default();
    let mut dst = Vec::new();
    let long = |byte: u8| [&[byte][..], &[0xF2; 9000]].concat();
    for (stream, sides, refusal) in [
        (vec![], (8192, 8192), Refusal::EmptyStream),
        (vec![0x00], (8192, 8192), Refusal::MissingPad),
        (long(0x10), (0, 1), Refusal::ZeroSize),
        (long(0x10), (8193, 8192), Refusal::TooLarge),
        (long(0x10), (8192, 8192), Refusal::InvalidUncompressedDataSize),
        (long(0x00), (8192, 8192), Refusal::InvalidUncompressedDataSize),
    ] {
        let answer = decoder.decode_bitmap_stream_to_pixels::<BgrAChannels>(&stream, &mut dst, sides.0, sides.1);
        assert_eq!((answer, dst.capacity()), (Err(refusal), 0));
        assert_eq!(format!("{decoder:?}"), "BitmapStreamDecoder { planes_buffer: 0 bytes }");
    }
    decoder.decode_bitmap_stream_to_pixels::<BgrAChannels>(&hex("00 04 01 02 03 00"), &mut dst, 1, 1).unwrap();
    assert_eq!(format!("{decoder:?}"), "BitmapStreamDecoder { planes_buffer: 0 bytes }");
    // 15 x 1, subsampled: 15 + 2 * 8, and 15 for alpha.
    decoder.decode_bitmap_stream_to_pixels::<BgrAChannels>(&hex("39 0F 04 04"), &mut dst, 15, 1).unwrap_err();
    assert_eq!(format!("{decoder:?}"), "BitmapStreamDecoder { planes_buffer: 31 bytes }");
    decoder.decode_bitmap_stream_to_pixels::<BgrAChannels>(&hex("19 0F 0F 04 04"), &mut dst, 15, 1).unwrap_err();
    assert_eq!(format!("{decoder:?}"), "BitmapStreamDecoder { planes_buffer: 46 bytes }");
    assert_eq!(dst, [3, 2, 1, 4]);
}

/// The same pictures as in `colours`, as streams.
#[test]
fn colours_of_streams() {
    let mut decoder = BitmapStreamDecoder::default();
    for (stream, sides, image) in [
        ("01 FF 64 0A 14 00", (1, 1), "5A 78 46"),
        ("19 10 FF 10 64 10 0A 10 14", (1, 1), "5A 78 46"),
        ("31 10 64 10 0A 10 14", (1, 1), "46 78 5A"),
        ("02 FF 64 40 00 00", (1, 1), "00 64 E4"),
        ("09 FF*4 64*4 01 00 00", (2, 2), "65 64 63 65 64 63 65 64 63 65 64 63"),
    ] {
        let unpacked = unpack_stream(&mut decoder, stream, sides);
        assert_eq!(unpacked, (Ok(()), hex(&format!("AA BB {image}"))), "{stream}");
    }
}

/// Examples 15 and 16 of FORMAT 10, and a subsampled picture with its pad byte.
#[test]
fn colours() {
    let mut decoder = BitmapStreamDecoder::default();
    let mut check = |header, body: &str, sides, image: &str| {
        assert_eq!(unpack(&mut decoder, header, body, sides), (Ok(()), hex(&format!("AA BB {image}"))), "{body}");
    };
    check(aycocg(false, true, 1, false), "FF 64 0A 14", (1, 1), "5A 78 46");
    check(aycocg(true, true, 1, true), "10 FF 10 64 10 0A 10 14", (1, 1), "5A 78 46");
    check(aycocg(true, false, 1, false), "10 64 10 0A 10 14", (1, 1), "46 78 5A");
    check(aycocg(false, true, 2, false), "FF 64 40 00 00", (1, 1), "00 64 E4");
    check(aycocg(false, true, 1, true), "FF*4 64*4 01 00 00", (2, 2), "65 64 63 65 64 63 65 64 63 65 64 63");
}

/// A picture gives the same image after a larger one, a smaller one and a refused one.
#[test]
fn the_work_area_is_kept() {
    let mut decoder = BitmapStreamDecoder::default();
    let mut noise = Noise(0x2545_F491_4F6C_DD1D);
    for _ in 0..100 {
        let (width, height) = (1 + noise.below(60) as usize, 1 + noise.below(5) as usize);
        let planes = [(); 3].map(|_| noise.samples(width * height));
        let mut body = Vec::new();
        for plane in &planes {
            let mut packed = vec![0; 2 * width * height];
            let n = rdp6::compress_8bpp_plane(plane, &mut packed, width, height).unwrap();
            body.extend(&packed[..n]);
        }
        let mut dst = Vec::new();
        let truncated = &body[..body.len() - 1];
        let answer = decoder.decode_body_to_rgb24(argb(true, false), truncated, &mut dst, width, height);
        assert!(matches!(answer, Err(Refusal::ReadCompressedData | Refusal::InvalidUncompressedDataSize)));
        assert!(dst.is_empty());
        decoder.decode_body_to_rgb24(argb(true, false), &body, &mut dst, width, height).unwrap();
        let rgb: Vec<u8> = (0..width * height).flat_map(|i| [planes[0][i], planes[1][i], planes[2][i]]).collect();
        assert_eq!(dst, rgb);
        // With the first plane as alpha too, before the three.
        let first = rdp6::decompress_8bpp_plane(&body, &mut vec![0; width * height], width, height).unwrap();
        let body = [&body[..first], &body].concat();
        dst.clear();
        decoder.decode_body_to_pixels::<RgbAChannels>(argb(true, true), &body, &mut dst, width, height).unwrap();
        assert_eq!(dst, rgb.chunks_exact(3).flat_map(|p| [p[0], p[1], p[2], p[0]]).collect::<Vec<u8>>());
    }
}

#[test]
fn sides_are_checked_first() {
    let mut decoder = BitmapStreamDecoder::default();
    for (width, height, refusal) in REFUSED_SIDES {
        for header in [argb(true, false), argb(false, true), aycocg(true, false, 0, true)] {
            for body in ["-", "00*9", "10 01 10 01 10 01"] {
                assert_eq!(unpack(&mut decoder, header, body, (width, height)), (Err(refusal), hex("AA BB")));
            }
        }
    }
}

/// 13 and 14 before all others, then the sides, then the body; the destination is unchanged.
#[test]
fn refused_streams_in_order() {
    let mut decoder = BitmapStreamDecoder::default();
    for (stream, refusal) in [("-", Refusal::EmptyStream), ("20", Refusal::MissingPad), ("0F", Refusal::MissingPad)] {
        for (width, height) in [(1, 1), (0, 1), (8192, 8192), (8193, 8193), (usize::MAX, usize::MAX)] {
            assert_eq!(unpack_stream(&mut decoder, stream, (width, height)), (Err(refusal), hex("AA BB")), "{stream}");
        }
    }
    for (width, height, refusal) in REFUSED_SIDES {
        for stream in ["30", "20 00", "20 01 02 03 00", "30 10 01 10 02 10 03"] {
            assert_eq!(unpack_stream(&mut decoder, stream, (width, height)), (Err(refusal), hex("AA BB")), "{stream}");
        }
    }
    for (stream, refusal) in [
        ("20 00", Refusal::InvalidUncompressedDataSize),
        ("30", Refusal::InvalidUncompressedDataSize),
        ("20 01 02 03", Refusal::InvalidUncompressedDataSize),
        ("30 10 01", Refusal::InvalidUncompressedDataSize),
        ("30 10 64 10 0A 10", Refusal::ReadCompressedData),
        ("30 10 64 00", Refusal::InvalidSegmentHeader),
        ("30 10 64 20 0A 0A", Refusal::SegmentDoNotFitScanline),
    ] {
        assert_eq!(unpack_stream(&mut decoder, stream, (1, 1)), (Err(refusal), hex("AA BB")), "{stream}");
    }
}

/// If the level, the body's length and its bytes are all wrong, the first of them is the refusal; the destination is unchanged.
#[test]
fn checks_come_in_order() {
    let mut decoder = BitmapStreamDecoder::default();
    for level in [1, 7, 0, 8, 255] {
        for (body, short, damage) in [
            ("10 64 10 0A 10 14", false, None),
            ("10 64", true, None),
            ("00 00", true, None),
            ("10 64 00", false, Some(Refusal::InvalidSegmentHeader)),
            ("10 64 10 0A 10", false, Some(Refusal::ReadCompressedData)),
            ("10 64 20 0A 0A", false, Some(Refusal::SegmentDoNotFitScanline)),
        ] {
            let expected = first([
                (!(1..=7).contains(&level), Refusal::LossLevel),
                (short, Refusal::InvalidUncompressedDataSize),
                (damage.is_some(), damage.unwrap_or(Refusal::ZeroSize)),
            ]);
            let (answer, dst) = unpack(&mut decoder, aycocg(true, false, level, false), body, (1, 1));
            assert_eq!(answer.err(), expected, "level {level}, {body}");
            assert_eq!(dst[..2], hex("AA BB"));
            assert_eq!(dst.len(), if expected.is_some() { 2 } else { 5 });
        }
    }
}

/// Refusals 1 to 4 allocate nothing: sides from an untrusted stream cost no memory.
#[test]
fn refused_pictures_allocate_nothing() {
    let mut decoder = BitmapStreamDecoder::default();
    let mut dst = Vec::new();
    for (header, body, sides, refusal) in [
        (argb(true, true), &[][..], (0, 1), Refusal::ZeroSize),
        (argb(true, true), &[1; 9][..], (8193, 8192), Refusal::TooLarge),
        (aycocg(true, false, 8, false), &[0xF2; 9000][..], (47, 3000), Refusal::LossLevel),
        (argb(true, false), &[0xF2; 9000][..], (8192, 8192), Refusal::InvalidUncompressedDataSize),
        (argb(false, false), &[0; 9000][..], (8192, 8192), Refusal::InvalidUncompressedDataSize),
    ] {
        assert_eq!(decoder.decode_body_to_rgb24(header, body, &mut dst, sides.0, sides.1), Err(refusal));
        assert_eq!(dst.capacity(), 0);
        assert_eq!(format!("{decoder:?}"), "BitmapStreamDecoder { planes_buffer: 0 bytes }");
    }
    // A raw picture has no work area either.
    decoder.decode_body_to_rgb24(argb(false, false), &[1, 2, 3], &mut dst, 1, 1).unwrap();
    assert_eq!(format!("{decoder:?}"), "BitmapStreamDecoder { planes_buffer: 0 bytes }");
    decoder.decode_body_to_rgb24(aycocg(true, false, 1, true), &hex("0F 04 04"), &mut dst, 15, 1).unwrap_err();
    assert_eq!(format!("{decoder:?}"), "BitmapStreamDecoder { planes_buffer: 31 bytes }");
}

/// Refusals 13, 14, 1, 2 and 4 of a stream allocate nothing either, also with a destination that has no room.
#[test]
fn refused_streams_allocate_nothing() {
    let mut decoder = BitmapStreamDecoder::default();
    let mut dst = Vec::new();
    let long = |byte: u8| [&[byte][..], &[0xF2; 9000]].concat();
    for (stream, sides, refusal) in [
        (vec![], (8192, 8192), Refusal::EmptyStream),
        (vec![0x20], (8192, 8192), Refusal::MissingPad),
        (long(0x30), (0, 1), Refusal::ZeroSize),
        (long(0x30), (8193, 8192), Refusal::TooLarge),
        (vec![0x30], (8192, 8192), Refusal::InvalidUncompressedDataSize),
        (vec![0x20, 0], (8192, 8192), Refusal::InvalidUncompressedDataSize),
        (long(0x30), (8192, 8192), Refusal::InvalidUncompressedDataSize),
        (long(0x20), (8192, 8192), Refusal::InvalidUncompressedDataSize),
    ] {
        assert_eq!(decoder.decode_bitmap_stream_to_rgb24(&stream, &mut dst, sides.0, sides.1), Err(refusal));
        assert_eq!(dst.capacity(), 0);
        assert_eq!(format!("{decoder:?}"), "BitmapStreamDecoder { planes_buffer: 0 bytes }");
    }
    decoder.decode_bitmap_stream_to_rgb24(&hex("20 01 02 03 00"), &mut dst, 1, 1).unwrap();
    assert_eq!(format!("{decoder:?}"), "BitmapStreamDecoder { planes_buffer: 0 bytes }");
    decoder.decode_bitmap_stream_to_rgb24(&hex("39 0F 04 04"), &mut dst, 15, 1).unwrap_err();
    assert_eq!(format!("{decoder:?}"), "BitmapStreamDecoder { planes_buffer: 31 bytes }");
    assert_eq!(dst, [1, 2, 3]);
}

/// A clone unpacks the same, with a work area of its own that is empty at first.
#[test]
fn decoders_can_be_cloned() {
    let mut decoder = BitmapStreamDecoder::default();
    let (header, body) = (argb(true, false), "10 01 10 02 10 03");
    let unpacked = unpack(&mut decoder, header, body, (1, 1));
    let mut clone = decoder.clone();
    assert_eq!(format!("{clone:?}"), "BitmapStreamDecoder { planes_buffer: 0 bytes }");
    assert_eq!(unpack(&mut clone, header, body, (1, 1)), unpacked);
    assert_eq!(unpack(&mut decoder, header, body, (1, 1)), unpacked);
    assert_eq!(unpacked, (Ok(()), hex("AA BB 01 02 03")));
}

/// A decoder may be moved to another thread.
#[test]
fn decoders_can_be_sent() {
    let mut decoder = BitmapStreamDecoder::default();
    let image = std::thread::spawn(move || unpack(&mut decoder, argb(false, false), "01 02 03", (1, 1)).1);
    assert_eq!(image.join().unwrap(), hex("AA BB 01 02 03"));
}
