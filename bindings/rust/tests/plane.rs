//! Packing and unpacking planes. The expected results are written from docs/FORMAT.md.

mod support;

use rdp6::{compress_8bpp_plane, decompress_8bpp_plane, Refusal};
use support::{hex, Guarded, Noise, REFUSED_SIDES};

/// Unpacks into a destination of `EE`: the answer, and the destination after the call.
fn unpack(body: &[u8], room: usize, width: usize, height: usize) -> (Result<usize, Refusal>, Vec<u8>) {
    let mut dst = Guarded::filled(0xEE, room);
    let answer = decompress_8bpp_plane(body, dst.slice(), width, height);
    (answer, dst.after().to_vec())
}

/// The same for packing.
fn pack(samples: &[u8], room: usize, width: usize, height: usize) -> (Result<usize, Refusal>, Vec<u8>) {
    let mut dst = Guarded::filled(0xEE, room);
    let answer = compress_8bpp_plane(samples, dst.slice(), width, height);
    (answer, dst.after().to_vec())
}

/// Examples 1 to 11 and 14 of FORMAT 10, for packing and for unpacking: width, height, samples, packing.
const EXAMPLES: [(usize, usize, &str, &str); 12] = [
    (1, 1, "05", "10 05"),
    (4, 1, "07*4", "13 07"),
    (3, 1, "07*3", "30 07 07 07"),
    (16, 1, "09*16", "1F 09"),
    (17, 1, "09*17", "1F 09 10 09"),
    (20, 1, "09*20", "1F 09 13 09"),
    (32, 1, "09*32", "1F 09 01"),
    (63, 1, "09*63", "1F 09 F2"),
    (64, 1, "09*64", "1F 09 F2 10 09"),
    (1, 2, "0A 09", "10 0A 10 01"),
    (1, 2, "0A 8A", "10 0A 10 FF"),
    (17, 2, "09*17,0A*17", "1F 09 10 09 1F 02 10 02"),
];

#[test]
fn examples_are_unpacked() {
    for (width, height, samples, packed) in EXAMPLES {
        let (samples, packed) = (hex(samples), hex(packed));
        assert_eq!(unpack(&packed, samples.len(), width, height), (Ok(packed.len()), samples));
    }
}

#[test]
fn examples_are_packed() {
    for (width, height, samples, packed) in EXAMPLES {
        let (samples, packed) = (hex(samples), hex(packed));
        assert_eq!(pack(&samples, packed.len(), width, height), (Ok(packed.len()), packed));
    }
}

/// A further byte of each slice is neither read nor written.
#[test]
fn slices_may_be_longer() {
    for (width, height, samples, packed) in EXAMPLES {
        let (samples, packed) = (hex(samples), hex(packed));
        let followed = |bytes: &[u8], byte: u8| [bytes, &[byte]].concat();
        let plane = followed(&samples, 0xEE);
        assert_eq!(unpack(&followed(&packed, 0), plane.len(), width, height), (Ok(packed.len()), plane));
        // One more of the last value would lengthen its run.
        let longer = followed(&samples, samples[samples.len() - 1]);
        assert_eq!(pack(&longer, packed.len() + 1, width, height), (Ok(packed.len()), followed(&packed, 0xEE)));
    }
}

/// Examples 12 and 13 of FORMAT 10.
#[test]
fn examples_of_unpacking() {
    assert_eq!(unpack(&hex("03"), 3, 3, 1), (Ok(1), hex("00*3")));
    assert_eq!(unpack(&hex("04"), 3, 3, 1), (Err(Refusal::SegmentDoNotFitScanline), hex("EE*3")));
    assert_eq!(unpack(&hex("00"), 3, 3, 1), (Err(Refusal::InvalidSegmentHeader), hex("EE*3")));
    assert_eq!(unpack(&[], 3, 3, 1), (Err(Refusal::ReadCompressedData), hex("EE*3")));
    assert_eq!(unpack(&hex("50 01"), 3, 3, 1), (Err(Refusal::ReadCompressedData), hex("EE*3")));
    assert_eq!(unpack(&hex("21"), 18, 18, 1), (Ok(1), hex("00*18")));
}

/// After 7, 8 or 9: complete rows, the refused row's earlier segments as coded values, the rest unchanged.
#[test]
fn refused_segments_leave_what_is_before_them() {
    let refused = |body: &str, refusal, after: &str| {
        assert_eq!(unpack(&hex(body), 10, 3, 3), (Err(refusal), hex(after)), "{body}");
    };
    // A row of 1, 2, 3, and two codes of the second row, whose samples are one larger.
    let (begun, left) = ("30 01 02 03 20 02 02", "01 02 03 02 02 EE*5");
    // The same with the second row complete.
    let (complete, rows) = ("30 01 02 03 30 02 02 02", "01 02 03 02 03 04 EE*4");
    for (end, refusal) in [
        ("", Refusal::ReadCompressedData),
        ("00", Refusal::InvalidSegmentHeader),
        ("00 10 05", Refusal::InvalidSegmentHeader),
        ("20 05", Refusal::ReadCompressedData),
        ("50 05 05", Refusal::ReadCompressedData),
        ("04", Refusal::SegmentDoNotFitScanline),
        ("01", Refusal::SegmentDoNotFitScanline),
        ("02", Refusal::SegmentDoNotFitScanline),
        ("13 05", Refusal::SegmentDoNotFitScanline),
    ] {
        refused(&format!("{begun} {end}"), refusal, left);
        refused(&format!("{complete} {end}"), refusal, rows);
    }
    refused(&format!("{begun} 20 05 05"), Refusal::SegmentDoNotFitScanline, left);
    refused(&format!("{complete} 20 05 05"), Refusal::ReadCompressedData, "01 02 03 02 03 04 05 05 EE*2");
}

#[test]
fn unpacking_checks_in_order() {
    let bodies = ["-", "00", "50 01", "04", "30 01 02 03"].map(hex);
    for body in &bodies {
        for (width, height, refusal) in REFUSED_SIDES {
            for room in [0, 1, 3] {
                assert_eq!(unpack(body, room, width, height), (Err(refusal), vec![0xEE; room]), "{width} x {height}");
            }
        }
        for room in 0..3 {
            assert_eq!(unpack(body, room, 3, 1), (Err(Refusal::ShortPlane), vec![0xEE; room]));
        }
    }
    assert_eq!(unpack(&bodies[4], 3, 3, 1), (Ok(4), hex("01 02 03")));
}

#[test]
fn packing_checks_in_order() {
    for source in [0, 1, 3] {
        for (width, height, refusal) in REFUSED_SIDES {
            for room in [0, 1, 3] {
                assert_eq!(pack(&vec![5; source], room, width, height), (Err(refusal), vec![0xEE; room]));
            }
        }
    }
    // 11 comes before 12, and no row of a short source is written.
    for source in 0..6 {
        for room in [0, 1, 7, 8, 20] {
            assert_eq!(pack(&vec![5; source], room, 3, 2), (Err(Refusal::NotEnoughBytes), vec![0xEE; room]));
        }
    }
    assert_eq!(pack(&[5; 6], 7, 3, 2), (Err(Refusal::BufferTooSmall), hex("30 05 05 05 EE*3")));
    assert_eq!(pack(&[5; 6], 8, 3, 2), (Ok(8), hex("30 05 05 05 30 00 00 00")));
}

/// Sides of 8,192 are allowed, with slices of the minimum sizes.
#[test]
fn the_largest_sides() {
    for (width, height) in [(8192, 1), (1, 8192)] {
        let (answer, packed) = pack(&[0; 8192], 2 * 8192, width, height);
        let n = answer.unwrap();
        assert_eq!(unpack(&packed[..n], 8192, width, height), (Ok(n), vec![0; 8192]));
        assert_eq!(unpack(&packed[..n], 8191, width, height).0, Err(Refusal::ShortPlane));
        assert_eq!(pack(&[0; 8191], 2 * 8192, width, height).0, Err(Refusal::NotEnoughBytes));
    }
    assert_eq!(pack(&[0; 8192], 2 * 8192, 1, 8192).0, Ok(2 * 8192));
}

/// A plane whose packing was derived by the rules of FORMAT 5: for each row its samples, and its segments with the coded values that they
/// stand for.
struct Worked {
    width: usize,
    rows: &'static [(&'static str, &'static [(&'static str, &'static str)])],
}

const WORKED: [Worked; 3] = [
    // Example 14 of FORMAT 10.
    Worked {
        width: 17,
        rows: &[("09*17", &[("1F 09", "09*16"), ("10 09", "09")]), ("0A*17", &[("1F 02", "02*16"), ("10 02", "02")])],
    },
    // Sixteen different values, the last five times; all one more; ten of them one less.
    Worked {
        width: 20,
        rows: &[
            (
                "01 02 03 04 05 06 07 08 09 0A 0B 0C 0D 0E 0F 10*5",
                &[
                    ("F0 01 02 03 04 05 06 07 08 09 0A 0B 0C 0D 0E 0F", "01 02 03 04 05 06 07 08 09 0A 0B 0C 0D 0E 0F"),
                    ("14 10", "10*5"),
                ],
            ),
            ("02 03 04 05 06 07 08 09 0A 0B 0C 0D 0E 0F 10 11*5", &[("1F 02", "02*16"), ("13 02", "02*4")]),
            ("01 02 03 04 05 06 07 08 09 0A 0C 0D 0E 0F 10 11*5", &[("19 01", "01*10"), ("19 00", "00*10")]),
        ],
    },
    // Long runs: 1 + 15 + 47 + 16, and 1 + 15 + 31 with a run of two between.
    Worked {
        width: 79,
        rows: &[
            ("09*79", &[("1F 09", "09*16"), ("F2", "09*47"), ("01", "09*16")]),
            (
                "09*47,0A*2,09*30",
                &[("1F 00", "00*16"), ("F1", "00*31"), ("3F 02 02 00", "02 02 00*16"), ("1D 00", "00*14")],
            ),
        ],
    },
];

impl Worked {
    fn samples(&self) -> Vec<u8> {
        self.rows.iter().flat_map(|(samples, _)| hex(samples)).collect()
    }

    fn packing(&self) -> Vec<u8> {
        self.rows.iter().flat_map(|(_, segments)| segments.iter().flat_map(|(bytes, _)| hex(bytes))).collect()
    }

    /// The destination after unpacking the first `m` bytes: the complete rows, then the complete segments of the next row.
    fn after(&self, m: usize, before: &[u8]) -> Vec<u8> {
        let mut left = m;
        let mut written = Vec::new();
        for (samples, segments) in self.rows {
            let lengths = segments.iter().map(|(bytes, _)| hex(bytes).len());
            if lengths.clone().sum::<usize>() <= left {
                left -= lengths.sum::<usize>();
                written.extend(hex(samples));
                continue;
            }
            for (length, (_, values)) in lengths.zip(*segments) {
                if length > left {
                    break;
                }
                left -= length;
                written.extend(hex(values));
            }
            break;
        }
        let unchanged = &before[written.len()..];
        [&written, unchanged].concat()
    }
}

#[test]
fn worked_planes_are_packed_with_every_room() {
    for plane in &WORKED {
        let (samples, packing) = (plane.samples(), plane.packing());
        let height = plane.rows.len();
        let ends = plane.rows.iter().flat_map(|(_, segments)| *segments).scan(0, |end, (bytes, _)| {
            *end += hex(bytes).len();
            Some(*end)
        });
        let ends: Vec<usize> = ends.collect();
        assert_eq!(samples.len(), plane.width * height);
        for room in 0..packing.len() + 2 {
            let written = ends.iter().copied().filter(|end| *end <= room).max().unwrap_or(0);
            let answer = if written == packing.len() { Ok(written) } else { Err(Refusal::BufferTooSmall) };
            let expected = [&packing[..written], &vec![0xEE; room - written]].concat();
            assert_eq!(pack(&samples, room, plane.width, height), (answer, expected), "room {room}");
        }
    }
}

/// The prefix theorem (FORMAT 9) for every prefix, with destinations of the minimum size and longer ones, filled with several values.
#[test]
fn every_prefix_of_worked_planes_is_unpacked() {
    for plane in &WORKED {
        let packing = plane.packing();
        let (area, height) = (plane.samples().len(), plane.rows.len());
        for m in 0..=packing.len() {
            for (fill, room) in [(0xEE, area), (0x00, area), (0x11, area + 1), (0xEE, area + 50)] {
                let mut dst = Guarded::filled(fill, room);
                let answer = decompress_8bpp_plane(&packing[..m], dst.slice(), plane.width, height);
                let expected = if m == packing.len() { Ok(m) } else { Err(Refusal::ReadCompressedData) };
                assert_eq!(answer, expected, "{m} bytes");
                assert_eq!(dst.after(), plane.after(m, &vec![fill; room]), "{m} bytes");
            }
        }
        for following in ["00", "10 05", "FF*60"] {
            let body = [packing.clone(), hex(following)].concat();
            assert_eq!(unpack(&body, area, plane.width, height), (Ok(packing.len()), plane.samples()));
        }
    }
}

/// Unpacking returns the samples that were packed and the packing's length, whatever follows it. Two bytes a sample are enough.
#[test]
fn round_trips() {
    let mut noise = Noise(0x9E37_79B9_7F4A_7C15);
    for case in 0..600 {
        let (width, height) = (1 + noise.below(130) as usize, 1 + noise.below(9) as usize);
        let samples = noise.samples(width * height);
        let (answer, mut packed) = pack(&samples, 2 * width * height, width, height);
        let n = answer.unwrap_or_else(|refusal| panic!("case {case}: {refusal}"));
        packed.truncate(n);
        packed.extend(noise.samples(3));
        assert_eq!(unpack(&packed, samples.len(), width, height), (Ok(n), samples), "case {case}");
    }
}

/// A part of the prefix theorem, for random planes: every shorter prefix is refusal 7, its complete rows are unpacked, and what follows the next
/// row is unchanged.
#[test]
fn every_prefix_of_random_planes_is_unpacked() {
    let mut noise = Noise(0xD1B5_4A32_D192_ED03);
    for _ in 0..60 {
        let (width, height) = (1 + noise.below(40) as usize, 1 + noise.below(5) as usize);
        let samples = noise.samples(width * height);
        let (answer, packed) = pack(&samples, 2 * width * height, width, height);
        let n = answer.unwrap();
        for m in 0..n {
            let (answer, dst) = unpack(&packed[..m], width * height, width, height);
            assert_eq!(answer, Err(Refusal::ReadCompressedData));
            // The packing of the first rows is a prefix of the packing of the plane.
            let complete =
                (1..height).filter(|rows| pack(&samples, 2 * width * height, width, *rows).0.unwrap() <= m).count();
            assert_eq!(dst[..complete * width], samples[..complete * width]);
            let behind = ((complete + 1) * width).min(dst.len());
            assert!(dst[behind..].iter().all(|byte| *byte == 0xEE));
        }
    }
}

#[test]
fn threads_do_not_affect_each_other() {
    std::thread::scope(|scope| {
        for seed in 1..=4 {
            scope.spawn(move || {
                let mut noise = Noise(seed * 0x1234_5678_9ABC_DEF1);
                for _ in 0..200 {
                    let samples = noise.samples(64 * 16);
                    let (answer, packed) = pack(&samples, 2 * samples.len(), 64, 16);
                    assert_eq!(unpack(&packed, samples.len(), 64, 16), (answer, samples));
                }
            });
        }
    });
}
