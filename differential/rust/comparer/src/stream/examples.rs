//! Small streams with their answers by FORMAT 1 and 8.

use crate::check::{Comparer, Outcome};
use crate::stream::OwnedStream;
use crate::tally::Kind;

/// A case, its answer as a library gives it, and its image after the call.
pub type Example = (&'static str, i64, &'static str);

#[rustfmt::skip]
pub const EXAMPLES: [Example; 36] = [
    // The header byte: raw and RLE, without alpha and with it.
    ("su 1 1 2001020300 - EEEEEE", 3, "010203"),
    ("su 1 1 000401020300 - EEEEEE", 3, "010203"),
    ("su 1 1 30100110021003 EEEEEE EEEEEE", 3, "010203"),
    ("su 1 1 101004100110021003 EEEEEE EEEEEE", 3, "010203"),
    // AYCoCg of loss level 1: Y 100, Co 10, Cg 20; without alpha B, G, R. Loss level 2: Y 100, Co 40, Cg 0.
    ("su 1 1 01FF640A1400 - EEEEEE", 3, "5A7846"),
    ("su 1 1 21640A1400 - EEEEEE", 3, "46785A"),
    ("su 1 1 29640A1400 - EEEEEE", 3, "46785A"),
    ("su 1 1 311064100A1014 EEEEEE EEEEEE", 3, "46785A"),
    ("su 1 1 02FF64400000 - EEEEEE", 3, "0064E4"),
    // Subsampled: the planes have 4, 1 and 1 samples.
    ("su 2 2 392001022002041003100A EE*6 EE*12", 12, "000B00000C00000C00000E00"),
    ("su 2 2 392001022002041003100A EE*5 EE*12", -5, "EE*12"),
    // Bits 6 and 7 are ignored, and so is bit 3 of ARGB.
    ("su 1 1 E001020300 - EEEEEE", 3, "010203"),
    ("su 1 1 F0100110021003 EEEEEE EEEEEE", 3, "010203"),
    ("su 2 2 2800*4,01*4,02*4,00 - EE*12", 12, "000102000102000102000102"),
    // Whatever the pad byte is, it is not part of the body. An RLE stream has none.
    ("su 1 1 20010203FF - EEEEEE", 3, "010203"),
    ("su 1 1 20010203 - EEEEEE", -4, "EEEEEE"),
    ("su 1 1 200102030400 - EEEEEE", 3, "010203"),
    ("su 1 1 3010011002100300 EEEEEE EEEEEE", 3, "010203"),
    ("su 1 1 301001100210 EEEEEE EEEEEE", -7, "EEEEEE"),
    ("su 47 1 30F2F2F2 EE*141 EE*141", 141, "00*141"),
    ("su 47 1 30F2F2 EE*141 EE*141", -4, "EE*141"),
    // An empty stream is 13, a raw one of one byte 14, both before all others. Of two bytes the body is empty.
    ("su 1 1 - - -", -13, "-"),
    ("su 0 9000 - EE EE", -13, "EE"),
    ("su 1 1 20 - -", -14, "-"),
    ("su 9000 0 00 EE EE", -14, "EE"),
    ("su 1 1 30 - -", -4, "-"),
    ("su 0 1 30 - -", -1, "-"),
    ("su 1 1 2000 - EEEEEE", -4, "EEEEEE"),
    ("su 0 9000 2000 - -", -1, "-"),
    ("su 1 9000 2000 - -", -2, "-"),
    // The rest of the order.
    ("su 1 1 3000000000 - -", -5, "-"),
    ("su 1 1 3000000000 EEEEEE -", -6, "-"),
    ("su 1 1 3000000000 EEEEEE EEEEEE", -8, "EEEEEE"),
    ("su 1 1 300000 - -", -4, "-"),
    ("su 1 1 2001020300 - EEEE", -6, "EEEE"),
    ("su 2 2 3103*6 EE*12 EE*12", -9, "EE*12"),
];

/// The same of four-byte pixels.
#[rustfmt::skip]
pub const PIXELS_EXAMPLES: [Example; 30] = [
    // Raw and RLE, without alpha and with it, in each layout.
    ("xs 1 1 bgra 2001020300 - EE*4", 4, "030201FF"),
    ("xs 1 1 rgba 2001020300 - EE*4", 4, "010203FF"),
    ("xs 1 1 argb 000401020300 - EE*4", 4, "04010203"),
    ("xs 1 1 abgr 000401020300 - EE*4", 4, "04030201"),
    ("xs 1 1 bgra 30100110021003 EEEEEE EE*4", 4, "030201FF"),
    ("xs 1 1 bgra 101004100110021003 EE*4 EE*4", 4, "03020104"),
    ("xs 1 1 argb 101004100110021003 EE*4 EE*4", 4, "04010203"),
    // AYCoCg; without alpha red and blue are exchanged, as in three bytes.
    ("xs 1 1 rgba 01FF640A1400 - EE*4", 4, "5A7846FF"),
    ("xs 1 1 rgba 21640A1400 - EE*4", 4, "46785AFF"),
    ("xs 1 1 abgr 0280644000EE - EE*4", 4, "80E46400"),
    ("xs 2 2 rgba 392001022002041003100A EE*6 EE*16", 16, "000B00FF000C00FF000C00FF000E00FF"),
    // Bits 6 and 7 are ignored, and so is bit 3 of ARGB.
    ("xs 1 1 bgra E001020300 - EE*4", 4, "030201FF"),
    ("xs 2 1 rgba 28010203040506EE - EE*8", 8, "010305FF020406FF"),
    // The work area has room for alpha, if that is flagged; the image four bytes a pixel.
    ("xs 1 1 bgra 101004100110021003 EEEEEE EE*4", -5, "EE*4"),
    ("xs 1 1 bgra 30100110021003 EEEE EE*4", -5, "EE*4"),
    ("xs 1 1 bgra 2001020300 - EEEEEE", -6, "EEEEEE"),
    // 13 and 14 before 1 and 2, those before 3, 3 before all others.
    ("xs 0 9000 4 - EE EE", -13, "EE"),
    ("xs 9000 0 4 00 EE EE", -14, "EE"),
    ("xs 0 1 4 30 - -", -1, "-"),
    ("xs 1 9000 4 2000 - -", -2, "-"),
    ("xs 1 1 4 2000 - -", -3, "-"),
    ("xs 1 1 256 2001020300 - EE*4", -3, "EE*4"),
    ("xs 1 1 257 30100110021003 EE*4 EE*4", -3, "EE*4"),
    ("xs 1 1 4294967295 3000000000 - -", -3, "-"),
    ("xs 1 1 bgra 2000 - EE*4", -4, "EE*4"),
    ("xs 1 1 bgra 10000000 - -", -4, "-"),
    ("xs 1 1 bgra 1000000000 - -", -5, "-"),
    ("xs 1 1 bgra 1000000000 EE*4 -", -6, "-"),
    ("xs 1 1 bgra 1000000000 EE*4 EE*4", -8, "EE*4"),
    ("xs 2 2 bgra 3103*6 EE*12 EE*16", -9, "EE*16"),
];

/// Those cases.
pub fn run_pixels(comparer: &mut Comparer) -> Outcome {
    run_table(comparer, &PIXELS_EXAMPLES)
}

pub fn run(comparer: &mut Comparer) -> Outcome {
    run_table(comparer, &EXAMPLES)
}

fn run_table(comparer: &mut Comparer, examples: &[Example]) -> Outcome {
    for (text, _, _) in examples {
        let case = OwnedStream::parse(text).expect("the table's own text");
        comparer.compare_stream(Kind::StreamExamples, case.view())?;
    }
    Ok(())
}

#[cfg(test)]
mod tests {
    use super::{EXAMPLES, PIXELS_EXAMPLES};
    use crate::bytes;
    use crate::stream::OwnedStream;

    /// IronRDP inside the domain, and the order of FORMAT 8 outside, give the answers of the table.
    #[test]
    fn examples_have_these_answers() {
        for (text, answer, image) in EXAMPLES.into_iter().chain(PIXELS_EXAMPLES) {
            let case = OwnedStream::parse(text).unwrap();
            let mut made = Vec::new();
            let expected = match case.view().refused_outside() {
                Some(number) => -i64::from(number),
                None => case.view().by_ironrdp(&mut case.work.clone(), &mut made).number().unwrap(),
            };
            made.extend_from_slice(&case.image[made.len()..]);
            assert_eq!((expected, bytes::text(&made)), (answer, image.to_owned()), "{text}");
        }
    }
}
