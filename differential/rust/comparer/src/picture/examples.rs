//! The pictures of FORMAT 10, and other small inputs of unpacking with their answers by FORMAT 8.

use crate::check::{Comparer, Outcome};
use crate::picture::OwnedPicture;
use crate::tally::Kind;

/// A case, its answer as a library gives it, and its image after the call.
type Example = (&'static str, i64, &'static str);

/// With the numbers of FORMAT 10, where there is one. The pictures of 15 and 16 have one pixel here, in every form.
#[rustfmt::skip]
pub const EXAMPLES: [Example; 29] = [
    // 15: loss 1, Y 100, Co 10, Cg 20.
    ("iu 1 1 0 1 1:0 FF640A14 - EEEEEE", 3, "5A7846"),
    ("iu 1 1 0 0 1:0 640A14 - EEEEEE", 3, "46785A"),
    ("iu 1 1 0 1 1:1 FF640A14 - EEEEEE", 3, "5A7846"),
    ("iu 1 1 0 0 1:1 640A14 - EEEEEE", 3, "46785A"),
    ("iu 1 1 1 1 1:0 10FF1064100A1014 EEEEEE EEEEEE", 3, "5A7846"),
    ("iu 1 1 1 0 1:0 1064100A1014 EEEEEE EEEEEE", 3, "46785A"),
    // 16: loss 2, alpha, Y 100, Co 40, Cg 0.
    ("iu 1 1 0 1 2:0 FF644000 - EEEEEE", 3, "0064E4"),
    ("iu 1 1 0 1 2:1 FF644000 - EEEEEE", 3, "0064E4"),
    ("iu 1 1 1 1 2:0 10FF106410401000 EEEEEE EEEEEE", 3, "0064E4"),
    // 17: 3 bytes are enough for a row of 47, 6 for one of 48; 2 and 5 are not. 6 bytes need not be a complete body.
    ("iu 47 1 1 0 argb F2F2F2 EE*141 EE*141", 141, "00*141"),
    ("iu 47 1 1 0 argb F2F2 EE*141 EE*141", -4, "EE*141"),
    ("iu 48 1 1 0 argb 020102010201 EE*144 EE*144", 144, "00*144"),
    ("iu 48 1 1 0 argb 0201020102 EE*144 EE*144", -4, "EE*144"),
    ("iu 48 1 1 0 argb F21077F21077 EE*144 EE*144", -7, "EE*144"),
    // 1 before 2, 2 before 3.
    ("iu 0 9000 1 0 argb - - -", -1, "-"),
    ("iu 9000 0 0 1 0:0 - - -", -1, "-"),
    ("iu 9000 1 0 1 0:0 - - -", -2, "-"),
    // The three colour planes are 4 and 1 and 1 samples if subsampled.
    ("iu 2 2 1 0 1:1 2001022002041003100A EE*6 EE*12", 12, "000B00000C00000C00000E00"),
    ("iu 2 2 1 0 1:1 2001022002041003100A EE*5 EE*12", -5, "EE*12"),
    ("iu 2 2 1 0 1:0 03*6 EE*12 EE*12", -9, "EE*12"),
    ("iu 2 2 1 0 1:0 03*6 EE*11 EE*12", -5, "EE*12"),
    // A body is not read if the work area or the image is short.
    ("iu 1 1 1 0 argb 000000 - -", -5, "-"),
    ("iu 1 1 1 0 argb 000000 EEEEEE -", -6, "-"),
    ("iu 1 1 1 0 argb 000000 EEEEEE EEEEEE", -8, "EEEEEE"),
    ("iu 1 1 1 0 argb 0000 - -", -4, "-"),
    // A level is checked before the body.
    ("iu 1 1 1 1 0:0 - - -", -3, "-"),
    ("iu 1 1 1 1 8:0 00*4 EEEEEE EEEEEE", -3, "EEEEEE"),
    ("iu 1 1 0 0 2:1:0 000000 - EEEEEE", -3, "EEEEEE"),
    // ARGB has neither level nor subsampling, whatever is passed.
    ("iu 2 2 0 0 argb:9:1 00*4,01*4,02*4 - EE*12", 12, "000102000102000102000102"),
];

/// A case of four-byte pixels, its answer as a library gives it, and its work area and image after the call.
type PixelsExample = (&'static str, i64, &'static str, &'static str);

#[rustfmt::skip]
pub const PIXELS_EXAMPLES: [PixelsExample; 49] = [
    // R 1, G 2, B 3 and no alpha, which is 255; then alpha 4.
    ("xu 1 1 0 0 argb bgra 010203 - EE*4", 4, "-", "030201FF"),
    ("xu 1 1 0 0 argb rgba 010203 - EE*4", 4, "-", "010203FF"),
    ("xu 1 1 0 0 argb argb 010203 - EE*4", 4, "-", "FF010203"),
    ("xu 1 1 0 0 argb abgr 010203 - EE*4", 4, "-", "FF030201"),
    ("xu 1 1 0 1 argb bgra 04010203 - EE*4", 4, "-", "03020104"),
    ("xu 1 1 0 1 argb rgba 04010203 - EE*4", 4, "-", "01020304"),
    ("xu 1 1 0 1 argb argb 04010203 - EE*4", 4, "-", "04010203"),
    ("xu 1 1 0 1 argb abgr 04010203 - EE*4", 4, "-", "04030201"),
    ("xu 1 1 1 0 argb bgra 100110021003 EEEEEE EE*4", 4, "010203", "030201FF"),
    ("xu 1 1 1 1 argb bgra 1004100110021003 EE*4 EE*4", 4, "01020304", "03020104"),
    ("xu 1 1 1 1 argb argb 1004100110021003 EE*5 EE*5", 4, "01020304EE", "04010203EE"),
    ("xu 1 1 1 1 argb abgr 1000100110021003 EE*4 EE*4", 4, "01020300", "00030201"),
    // AYCoCg, 15 and 16 of FORMAT 10: with alpha R, G, B, without it B, G, R as in three bytes.
    ("xu 1 1 0 1 1:0 rgba FF640A14 - EE*4", 4, "-", "5A7846FF"),
    ("xu 1 1 0 1 1:0 rgba 00640A14 - EE*4", 4, "-", "5A784600"),
    ("xu 1 1 0 0 1:0 rgba 640A14 - EE*4", 4, "-", "46785AFF"),
    ("xu 1 1 0 0 1:0 bgra 640A14 - EE*4", 4, "-", "5A7846FF"),
    ("xu 1 1 1 1 1:1 argb 10331064100A1014 EE*4 EE*4", 4, "640A1433", "335A7846"),
    ("xu 1 1 0 1 2:1 abgr 80644000 - EE*4", 4, "-", "80E46400"),
    // Subsampled: planes of 4, 1 and 1 samples, alpha of 4 behind them.
    ("xu 2 2 1 1 1:1 rgba 2009082002022001022002041003100A EE*10 EE*16", 16, "01020204030A09080A09", "000B0009000C0008000C000A000E0009"),
    ("xu 2 2 1 0 1:1 rgba 2001022002041003100A EE*6 EE*16", 16, "01020204030A", "000B00FF000C00FF000C00FF000E00FF"),
    // A row of three pixels and one of alpha: the last pixel has a chroma sample of its own.
    ("xu 3 1 0 1 1:1 rgba 070809646464000A0000 - EE*12", 12, "-", "64646407646464086E645A09"),
    // The work area: one full plane more, if there is alpha and the picture is RLE.
    ("xu 1 1 1 1 argb bgra 1004100110021003 EEEEEE EE*4", -5, "EEEEEE", "EE*4"),
    ("xu 2 2 1 1 1:1 bgra 10*8 EE*9 EE*16", -5, "EE*9", "EE*16"),
    ("xu 2 2 1 0 1:1 bgra 2001022002041003100A EE*5 EE*16", -5, "EE*5", "EE*16"),
    ("xu 1 1 0 1 argb bgra 04010203 EE EE*4", 4, "EE", "03020104"),
    // The image: four bytes a pixel.
    ("xu 1 1 0 0 argb bgra 010203 - EEEEEE", -6, "-", "EEEEEE"),
    ("xu 2 1 0 1 argb bgra 00*8 - EE*7", -6, "-", "EE*7"),
    ("xu 1 1 1 1 argb bgra 1004100110021003 EE*4 EEEEEE", -6, "EE*4", "EEEEEE"),
    // A refused colour plane leaves alpha whole, a refused alpha plane leaves the colour planes untouched.
    ("xu 1 1 1 1 argb bgra 10041001100200 EE*4 EE*4", -8, "0102EE04", "EE*4"),
    ("xu 1 1 1 1 argb bgra 10040010 EE*4 EE*4", -8, "EEEEEE04", "EE*4"),
    ("xu 1 1 1 1 argb bgra 10041001 EE*4 EE*4", -7, "01EEEE04", "EE*4"),
    ("xu 1 1 1 1 argb bgra 00000000 EE*4 EE*4", -8, "EE*4", "EE*4"),
    ("xu 2 1 1 1 argb bgra 10070000 EE*8 EE*8", -8, "EE*6,07EE", "EE*8"),
    ("xu 2 1 1 1 argb bgra 30070707 EE*8 EE*8", -9, "EE*8", "EE*8"),
    ("xu 2 2 1 1 argb bgra 2007081004000000 EE*16 EE*16", -8, "EE*12,070804EE", "EE*16"),
    // 1 before 2, 2 before 3, 3 before 4.
    ("xu 0 9000 1 0 argb 4 - - -", -1, "-", "-"),
    ("xu 9000 1 0 1 argb 4 - - -", -2, "-", "-"),
    ("xu 1 1 0 0 argb 4 - - -", -3, "-", "-"),
    ("xu 1 1 0 0 argb 256 010203 - EE*4", -3, "-", "EE*4"),
    ("xu 1 1 0 1 argb 257 04010203 - EE*4", -3, "-", "EE*4"),
    ("xu 1 1 1 1 argb 4294967295 00000000 - -", -3, "-", "-"),
    ("xu 1 1 0 0 0:0 bgra 010203 - EE*4", -3, "-", "EE*4"),
    ("xu 1 1 0 0 8:0 4 010203 - EE*4", -3, "-", "EE*4"),
    ("xu 1 1 0 0 2:1:0 rgba 010203 - EE*4", -3, "-", "EE*4"),
    ("xu 1 1 1 1 argb bgra 000000 - -", -4, "-", "-"),
    ("xu 1 1 0 1 argb bgra 010203 - -", -4, "-", "-"),
    ("xu 1 1 1 1 argb bgra 00000000 - -", -5, "-", "-"),
    ("xu 1 1 1 1 argb bgra 00000000 EE*4 -", -6, "EE*4", "-"),
    // ARGB has neither level nor subsampling, whatever is passed.
    ("xu 2 1 0 1 argb:9:1 rgba 0708010203040506 - EE*8", 8, "-", "0103050702040608"),
];

/// Those cases.
pub fn run_pixels(comparer: &mut Comparer) -> Outcome {
    for (text, _, _, _) in PIXELS_EXAMPLES {
        let case = OwnedPicture::parse(text).expect("the table's own text");
        comparer.compare_picture(Kind::PictureExamples, case.view())?;
    }
    Ok(())
}

pub fn run(comparer: &mut Comparer) -> Outcome {
    for (text, _, _) in EXAMPLES {
        let case = OwnedPicture::parse(text).expect("the table's own text");
        comparer.compare_picture(Kind::PictureExamples, case.view())?;
    }
    Ok(())
}

#[cfg(test)]
mod tests {
    use super::{EXAMPLES, PIXELS_EXAMPLES};
    use crate::bytes;
    use crate::picture::OwnedPicture;

    /// IronRDP inside the domain, and the order of FORMAT 8 outside, give the answers of the table.
    #[test]
    fn examples_have_these_answers() {
        for (text, answer, image) in EXAMPLES {
            let case = OwnedPicture::parse(text).unwrap();
            let mut made = Vec::new();
            let expected = match case.view().refused_outside() {
                Some(number) => -i64::from(number),
                None => case.view().by_ironrdp(&mut case.work.clone(), &mut made).unwrap().number().unwrap(),
            };
            made.extend_from_slice(&case.image[made.len()..]);
            assert_eq!((expected, bytes::text(&made)), (answer, image.to_owned()), "{text}");
        }
    }

    /// So do IronRDP's three bytes and its alpha plane.
    #[test]
    fn examples_of_pixels_have_these_answers() {
        for (text, answer, work, image) in PIXELS_EXAMPLES {
            let case = OwnedPicture::parse(text).unwrap();
            let (mut after, mut made) = (case.work.clone(), Vec::new());
            let expected = match case.view().refused_outside() {
                Some(number) => -i64::from(number),
                None => case.view().by_ironrdp(&mut after, &mut made).unwrap().number().unwrap(),
            };
            made.extend_from_slice(&case.image[made.len()..]);
            let got = (expected, bytes::text(&after), bytes::text(&made));
            assert_eq!(got, (answer, work.to_owned(), image.to_owned()), "{text}");
        }
    }
}
