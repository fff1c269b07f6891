//! Unpacking a picture into slices of the caller. The expected results are written from docs/FORMAT.md.

mod support;

use rdp6::{decode, image_size, work_size, BitmapStreamHeader, Refusal};
use support::{argb, aycocg, first, hex, Guarded, REFUSED_SIDES};

/// The answer, and the work area and the image after the call. Before it all their bytes are `EE`.
type Outcome = (Result<usize, Refusal>, Vec<u8>, Vec<u8>);

fn unpack(header: BitmapStreamHeader, body: &[u8], rooms: (usize, usize), sides: (usize, usize)) -> Outcome {
    let (mut work, mut image) = (Guarded::filled(0xEE, rooms.0), Guarded::filled(0xEE, rooms.1));
    let answer = decode(header, body, work.slice(), image.slice(), sides.0, sides.1);
    (answer, work.after().to_vec(), image.after().to_vec())
}

fn outcome(answer: Result<usize, Refusal>, work: &str, image: &str) -> Outcome {
    (answer, hex(work), hex(image))
}

/// Examples 15 and 16 of FORMAT 10: the header's level and alpha, Y, Co, Cg, and the pixel.
const COLOURS: [(u8, bool, [u8; 3], [u8; 3]); 3] = [
    (1, true, [100, 10, 20], [90, 120, 70]),
    (1, false, [100, 10, 20], [70, 120, 90]),
    (2, true, [100, 0x40, 0], [0, 100, 228]),
];

#[test]
fn examples_of_colour() {
    for (level, alpha, planes, pixel) in COLOURS {
        for subsampled in [false, true] {
            let mut raw = planes.to_vec();
            let mut rle: Vec<u8> = planes.iter().flat_map(|sample| [0x10, *sample]).collect();
            if alpha {
                raw.insert(0, 255);
                rle.splice(0..0, [0x10, 255]);
            }
            let outcome = unpack(aycocg(false, alpha, level, subsampled), &raw, (0, 3), (1, 1));
            assert_eq!(outcome, (Ok(3), vec![], pixel.to_vec()));
            let outcome = unpack(aycocg(true, alpha, level, subsampled), &rle, (3, 3), (1, 1));
            assert_eq!(outcome, (Ok(3), planes.to_vec(), pixel.to_vec()));
        }
    }
}

/// Example 17 of FORMAT 10: the minimum size of a body of one row in RLE ARGB.
#[test]
fn examples_of_the_minimum_size() {
    for (width, minimum) in [(47, 3), (48, 6)] {
        let answer = |length: usize| unpack(argb(true, false), &vec![0; length], (0, 0), (width, 1)).0;
        assert_eq!(answer(minimum - 1), Err(Refusal::InvalidUncompressedDataSize));
        assert_eq!(answer(minimum), Err(Refusal::ShortWork));
    }
    assert_eq!(unpack(argb(true, false), &hex("F2*3"), (141, 141), (47, 1)), outcome(Ok(141), "00*141", "00*141"));
}

/// FORMAT 2.2 to 2.6.
#[test]
fn minimum_sizes() {
    for (width, height) in [(1, 1), (2, 2), (3, 2), (5, 3), (48, 1), (95, 7), (8192, 2), (8191, 8192)] {
        let (full, chroma) = (width * height, ((width + 1) / 2) * ((height + 1) / 2));
        let rle_minimum = |w: usize, h: usize| h * ((w + 46) / 47);
        let (full_minimum, chroma_minimum) =
            (rle_minimum(width, height), rle_minimum((width + 1) / 2, (height + 1) / 2));
        assert_eq!(image_size(width, height), 3 * full);
        for alpha in [false, true] {
            let a = usize::from(alpha);
            for (header, work, minimum) in [
                (argb(true, alpha), 3 * full, (3 + a) * full_minimum),
                (argb(false, alpha), 0, (3 + a) * full),
                (aycocg(true, alpha, 1, false), 3 * full, (3 + a) * full_minimum),
                (aycocg(false, alpha, 7, false), 0, (3 + a) * full),
                (aycocg(true, alpha, 7, true), full + 2 * chroma, (1 + a) * full_minimum + 2 * chroma_minimum),
                (aycocg(false, alpha, 1, true), 0, (1 + a) * full + 2 * chroma),
            ] {
                assert_eq!(work_size(header, width, height), work);
                let answer = |length| decode(header, &vec![0; length], &mut [], &mut [], width, height);
                assert_eq!(answer(minimum - 1), Err(Refusal::InvalidUncompressedDataSize), "{header:?}");
                let next = if work > 0 { Refusal::ShortWork } else { Refusal::ShortImage };
                assert_eq!(answer(minimum), Err(next), "{header:?}");
            }
        }
    }
}

#[test]
fn refused_sides_have_no_sizes() {
    for (width, height, _) in REFUSED_SIDES {
        assert_eq!(image_size(width, height), 0);
        assert_eq!(work_size(argb(true, true), width, height), 0);
        assert_eq!(work_size(aycocg(true, false, 1, true), width, height), 0);
    }
    // The level is not checked.
    assert_eq!(work_size(aycocg(true, false, 0, true), 2, 2), 6);
    assert_eq!(work_size(aycocg(true, false, 255, false), 2, 2), 12);
}

/// FORMAT 6.3: the chroma samples of a subsampled picture.
#[test]
fn chroma_planes_are_halved() {
    // Every Y is 100; Co is 1, 2 and 3, 4, Cg 0: red is Y + Co with alpha.
    let body = [hex("FF*9,64*9"), hex("01 02 03 04"), hex("00*4")].concat();
    let pixel = |co: u8| [100 + co, 100, 100 - co];
    let expected = [1, 1, 2, 1, 1, 2, 3, 3, 4].map(pixel).concat();
    assert_eq!(unpack(aycocg(false, true, 1, true), &body, (0, 27), (3, 3)), (Ok(27), vec![], expected));
}

/// A further byte of each slice is neither read nor written; a raw picture does not change the work area.
#[test]
fn slices_may_be_longer() {
    let (raw, rle) = (hex("01 02 03 04 05 06"), hex("20 01 02 20 03 04 20 05 06"));
    let padded = |body: &[u8]| [body, &[0]].concat();
    let image = "01 03 05 02 04 06";
    assert_eq!(unpack(argb(false, false), &raw, (5, 6), (2, 1)), outcome(Ok(6), "EE*5", image));
    assert_eq!(unpack(argb(false, false), &padded(&raw), (0, 7), (2, 1)), outcome(Ok(6), "-", &format!("{image} EE")));
    let planes = "01 02 03 04 05 06";
    assert_eq!(unpack(argb(true, false), &rle, (6, 6), (2, 1)), outcome(Ok(6), planes, image));
    let longer = outcome(Ok(6), &format!("{planes} EE"), &format!("{image} EE"));
    assert_eq!(unpack(argb(true, false), &padded(&rle), (7, 7), (2, 1)), longer);
}

/// All combinations of wrong arguments: the refusal is the first in the order of FORMAT 8.2, and refusals 1 to 6 change nothing.
#[test]
fn checks_come_in_order() {
    let complete = hex("10 FF 10 64 10 0A 10 14");
    let damaged = hex("10 FF 00 64 10 0A 10 14");
    for (i, level) in (0..5 * 2 * 2 * 2 * 2).map(|i| (i, [1, 7, 0, 8, 255][i % 5])) {
        let bit = |n: usize| (i / 5) >> n & 1 == 1;
        let (short_body, short_work, short_image, bad) = (bit(0), bit(1), bit(2), bit(3));
        let body = if bad { &damaged } else { &complete };
        let body = if short_body { &body[..3] } else { &body[..] };
        let rooms = (3 - usize::from(short_work), 3 - usize::from(short_image));
        let (answer, work, image) = unpack(aycocg(true, true, level, false), body, rooms, (1, 1));
        let expected = first([
            (!(1..=7).contains(&level), Refusal::LossLevel),
            (short_body, Refusal::InvalidUncompressedDataSize),
            (short_work, Refusal::ShortWork),
            (short_image, Refusal::ShortImage),
            (bad, Refusal::InvalidSegmentHeader),
        ]);
        assert_eq!(answer.err(), expected);
        assert_eq!(answer.ok(), if expected.is_none() { Some(3) } else { None });
        if let Some(refusal) = expected {
            assert_eq!(image, vec![0xEE; rooms.1]);
            // Alpha is in the work area by then.
            let left = if refusal == Refusal::InvalidSegmentHeader { hex("FF EE EE") } else { vec![0xEE; rooms.0] };
            assert_eq!(work, left);
        }
    }
}

#[test]
fn sides_are_checked_first() {
    for (width, height, refusal) in REFUSED_SIDES {
        for header in
            [argb(false, false), argb(true, true), aycocg(true, false, 1, true), aycocg(false, true, 0, false)]
        {
            for (body, rooms) in [("-", (0, 0)), ("00*8", (0, 0)), ("10 01 10 01 10 01 10 01", (3, 3))] {
                let expected = (Err(refusal), vec![0xEE; rooms.0], vec![0xEE; rooms.1]);
                assert_eq!(unpack(header, &hex(body), rooms, (width, height)), expected);
            }
        }
    }
}

/// ARGB has no level, and a raw picture has no work area and no segments.
#[test]
fn unused_arguments_are_not_checked() {
    assert_eq!(unpack(argb(false, true), &hex("00*4"), (0, 3), (1, 1)), outcome(Ok(3), "-", "00*3"));
    assert_eq!(unpack(argb(false, false), &hex("00*2"), (0, 3), (1, 1)).0, Err(Refusal::InvalidUncompressedDataSize));
    assert_eq!(unpack(argb(false, false), &hex("00*3"), (0, 2), (1, 1)).0, Err(Refusal::ShortImage));
    for level in [0, 8, 255] {
        let refused = unpack(aycocg(false, false, level, true), &hex("00*3"), (0, 3), (1, 1));
        assert_eq!(refused, outcome(Err(Refusal::LossLevel), "-", "EE*3"));
    }
}

/// After 7, 8 and 9 the planes before are complete, the refused one has its earlier segments, and the image is unchanged.
#[test]
fn refused_planes_leave_what_is_before_them() {
    let missing = Refusal::ReadCompressedData;
    let zero = Refusal::InvalidSegmentHeader;
    let wide = Refusal::SegmentDoNotFitScanline;
    for (alpha, body, refusal, work) in [
        // The first colour plane.
        (false, "10 01 00", zero, "01 EE*5"),
        (false, "10 01 04", wide, "01 EE*5"),
        (false, "10 01 20", missing, "01 EE*5"),
        // The second.
        (false, "20 01 02 10 03", missing, "01 02 03 EE*3"),
        (false, "20 01 02 10 03 00", zero, "01 02 03 EE*3"),
        (false, "20 01 02 10 03 20 05 06", wide, "01 02 03 EE*3"),
        // The third.
        (false, "20 01 02 20 03 04", missing, "01 02 03 04 EE*2"),
        (false, "20 01 02 20 03 04 10 05 00", zero, "01 02 03 04 05 EE"),
        (false, "20 01 02 20 03 04 03", wide, "01 02 03 04 EE*2"),
        // Alpha itself.
        (true, "10 01 00 00", zero, "01 EE*5"),
        (true, "30 01 02 03", wide, "EE*6"),
        (true, "10 01 20 02", missing, "01 EE*5"),
        // The first colour plane over alpha: the part that it did not write still has alpha.
        (true, "20 01 02 00", zero, "01 02 EE*4"),
        (true, "20 01 02 10 03 00", zero, "03 02 EE*4"),
        (true, "20 01 02 10 03", missing, "03 02 EE*4"),
        (true, "20 01 02 10 03 02", wide, "03 02 EE*4"),
        // The second, with alpha: the first overwrote it.
        (true, "20 01 02 20 03 04 00", zero, "03 04 EE*4"),
    ] {
        let refused = unpack(argb(true, alpha), &hex(body), (6, 6), (2, 1));
        assert_eq!(refused, outcome(Err(refusal), work, "EE*6"), "{body}");
    }
}

/// Two rows: the refused row has codes, the one above its samples.
#[test]
fn refused_rows_of_a_plane_are_coded_values() {
    // The first colour plane has rows 10, 10 and one code of the second row, over the alpha of all four.
    let body = hex("20 01 02 20 02 02 20 0A 0A 10 02 00");
    let refused = unpack(argb(true, true), &body, (12, 12), (2, 2));
    assert_eq!(refused, outcome(Err(Refusal::InvalidSegmentHeader), "0A 0A 02 03 EE*8", "EE*12"));
}

#[test]
fn threads_do_not_affect_each_other() {
    std::thread::scope(|scope| {
        for seed in 1..=4_u8 {
            scope.spawn(move || {
                let body: Vec<u8> =
                    [seed, seed + 10, seed + 20].iter().flat_map(|v| [[0x1F, *v], [0x1F, 0]].concat()).collect();
                for _ in 0..500 {
                    let (answer, _, image) = unpack(argb(true, false), &body, (96, 96), (16, 2));
                    assert_eq!(answer, Ok(96));
                    assert_eq!(image, [[seed, seed + 10, seed + 20]; 32].concat());
                }
            });
        }
    });
}
