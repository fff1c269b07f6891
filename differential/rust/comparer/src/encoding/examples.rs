//! Small inputs of picture packing with their answers by FORMAT 7 and 8.

use crate::check::{Comparer, Outcome};
use crate::encoding::OwnedEncoding;
use crate::extent::Extent;
use crate::tally::Kind;

/// A case, its answer as a library gives it, and its destination after the call.
type Example = (&'static str, i64, &'static str);

#[rustfmt::skip]
pub const EXAMPLES: [Example; 54] = [
    // R at 2, G at 1, B at 0, A at 3; planes R, G, B, or A, R, G, B; a raw body ends in one zero byte.
    ("pb 1 1 bgra 0 0 01020304 EE*5", 4, "03020100EE"),
    ("pb 1 1 bgra 0 1 01020304 EE*6", 5, "0403020100EE"),
    ("pb 1 1 bgra 1 0 01020304 EE*7", 6, "100310021001EE"),
    ("pb 1 1 bgra 1 1 01020304 EE*9", 8, "1004100310021001EE"),
    ("pc 1 1 0 03 02 01 none EE*5", 4, "03020100EE"),
    ("pc 1 1 0 03 02 01 04 EE*6", 5, "0403020100EE"),
    ("pc 1 1 1 03 02 01 none EE*7", 6, "100310021001EE"),
    ("pc 1 1 1 03 02 01 04 EE*9", 8, "1004100310021001EE"),
    // Planes one behind the other, each by its own rows, with no Pad between them if RLE.
    ("pb 2 1 bgra 0 0 0102030405060708 EE*7", 7, "03070206010500"),
    ("pc 4 1 1 07*4 09*4 05*4 none EE*6", 6, "130713091305"),
    ("pc 1 2 1 0A09 0A8A 0000 none EE*12", 12, "100A1001100A10FF10001000"),
    ("pc 17 1 1 09*17 09*17 09*17 none EE*12", 12, "1F0910091F0910091F091009"),
    // A raw body needs all its room, and changes nothing without it.
    ("pb 1 1 bgra 0 0 01020304 EE*4", 4, "03020100"),
    ("pb 1 1 bgra 0 0 01020304 EE*3", -12, "EEEEEE"),
    ("pb 1 1 bgra 0 1 01020304 EE*4", -12, "EE*4"),
    ("pb 1 1 bgra 0 0 01020304 -", -12, "-"),
    // RLE leaves the complete segments of all planes before the one that does not fit.
    ("pb 1 1 bgra 1 0 01020304 EE*5", -12, "10031002EE"),
    ("pb 1 1 bgra 1 0 01020304 EE*4", -12, "10031002"),
    ("pb 1 1 bgra 1 0 01020304 EE*3", -12, "1003EE"),
    ("pb 1 1 bgra 1 0 01020304 EE", -12, "EE"),
    ("pb 1 1 bgra 1 1 01020304 EE*7", -12, "100410031002EE"),
    ("pc 17 1 1 09*17 08*17 07*17 none EE*7", -12, "1F0910091F08EE"),
    // A source that is short is refused before anything is written, whichever it is.
    ("pc 1 1 1 - 02 01 none EE*6", -11, "EE*6"),
    ("pc 1 1 1 03 - 01 none EE*6", -11, "EE*6"),
    ("pc 1 1 1 03 02 - none EE*6", -11, "EE*6"),
    ("pc 2 1 1 0102 0304 0506 - EE*12", -11, "EE*12"),
    ("pc 2 1 0 01 0203 0405 none EE*8", -11, "EE*8"),
    ("pc 2 1 0 01 020304 0506 none EE*9", -11, "EE*9"),
    ("pb 1 1 bgra 0 0 010203 EE*4", -11, "EE*4"),
    ("pb 2 1 bgra 1 1 01020304050607 -", -11, "-"),
    // Of a longer source the first width times height are used; bytes that make no complete pixel are not read.
    ("pc 2 1 0 010203 0405 0607 none EE*8", 7, "01020405060700EE"),
    ("pc 2 1 0 010203 0405 0607 none EE*7", 7, "01020405060700"),
    ("pc 2 1 0 010203 0405 0607 none EE*6", -12, "EE*6"),
    ("pc 2 1 1 010203 040506 070809 none EE*9", 9, "200102200405200708"),
    ("pb 2 1 bgra 0 1 0102030405060708AABBCC EE*9", 9, "040803070206010500"),
    ("pb 1 1 bgra 0 0 0102030405060708 EE*4", 4, "03020100"),
    // 1 before 2, 2 before 11, 11 before 12.
    ("pc 0 9000 1 - - - none -", -1, "-"),
    ("pb 9000 0 bgra 0 1 - -", -1, "-"),
    ("pb 9000 1 bgra 0 1 - -", -2, "-"),
    ("pc 1 1 0 - - - - -", -11, "-"),
    // The other layouts: R 3, G 2, B 1 and A 4 in the order of each name.
    ("pb 1 1 rgba 0 0 03020104 EE*4", 4, "03020100"),
    ("pb 1 1 argb 0 0 04030201 EE*4", 4, "03020100"),
    ("pb 1 1 abgr 0 0 04010203 EE*4", 4, "03020100"),
    ("pb 1 1 rgba 0 1 03020104 EE*5", 5, "0403020100"),
    ("pb 1 1 argb 0 1 04030201 EE*5", 5, "0403020100"),
    ("pb 1 1 abgr 0 1 04010203 EE*5", 5, "0403020100"),
    ("pb 1 1 rgba 1 1 03020104 EE*8", 8, "1004100310021001"),
    ("pb 1 1 argb 1 0 04030201 EE*6", 6, "100310021001"),
    ("pb 1 1 abgr 1 1 04010203 EE*8", 8, "1004100310021001"),
    // A layout that there is not: behind 1 and 2, before 11 and 12.
    ("pb 1 1 4 0 0 01020304 EE*4", -3, "EE*4"),
    ("pb 1 1 256 1 1 01020304 EE*8", -3, "EE*8"),
    ("pb 1 1 4294967295 0 0 - -", -3, "-"),
    ("pb 0 9000 257 0 0 - -", -1, "-"),
    ("pb 9000 1 4 0 0 - -", -2, "-"),
];

/// The same of whole streams: the header byte and that body. The first byte is written last: a refusal leaves it as it was.
#[rustfmt::skip]
pub const STREAM_EXAMPLES: [Example; 33] = [
    // The header byte has the alpha flag false for four planes too.
    ("sb 1 1 bgra 0 0 01020304 EE*6", 5, "2003020100EE"),
    ("sb 1 1 bgra 0 1 01020304 EE*7", 6, "200403020100EE"),
    ("sb 1 1 bgra 1 0 01020304 EE*8", 7, "30100310021001EE"),
    ("sb 1 1 bgra 1 1 01020304 EE*9", 9, "301004100310021001"),
    ("sc 1 1 0 03 02 01 none EE*5", 5, "2003020100"),
    ("sc 1 1 0 03 02 01 04 EE*6", 6, "200403020100"),
    ("sc 1 1 1 03 02 01 none EE*7", 7, "30100310021001"),
    ("sc 1 1 1 03 02 01 04 EE*9", 9, "301004100310021001"),
    // A raw stream needs all its room, and changes nothing without it.
    ("sb 1 1 bgra 0 0 01020304 EE*4", -12, "EE*4"),
    ("sb 1 1 bgra 0 1 01020304 EE*5", -12, "EE*5"),
    ("sb 1 1 bgra 0 0 01020304 EE", -12, "EE"),
    ("sb 1 1 bgra 0 0 01020304 -", -12, "-"),
    // RLE leaves the complete segments before the one that does not fit, from the second byte on.
    ("sb 1 1 bgra 1 0 01020304 EE*6", -12, "EE10031002EE"),
    ("sb 1 1 bgra 1 0 01020304 EE*5", -12, "EE10031002"),
    ("sb 1 1 bgra 1 1 01020304 EE*4", -12, "EE1004EE"),
    ("sb 1 1 bgra 1 0 01020304 EEEE", -12, "EEEE"),
    ("sb 1 1 bgra 1 0 01020304 EE", -12, "EE"),
    ("sc 1 1 1 03 02 01 04 -", -12, "-"),
    // Of a longer source the first width times height are used.
    ("sc 2 1 0 010203 0405 0607 none EE*8", 8, "2001020405060700"),
    ("sb 1 1 bgra 0 0 0102030405060708 EE*5", 5, "2003020100"),
    // 1 before 2, 2 before 11, 11 before 12, also where there is no room for the header byte.
    ("sc 0 9000 1 - - - none -", -1, "-"),
    ("sb 9000 1 bgra 0 1 - -", -2, "-"),
    ("sc 1 1 0 - - - - -", -11, "-"),
    ("sb 1 1 bgra 1 0 010203 -", -11, "-"),
    ("sb 1 1 bgra 1 0 010203 EE*7", -11, "EE*7"),
    // The other layouts, and those that there are not.
    ("sb 1 1 rgba 0 1 03020104 EE*6", 6, "200403020100"),
    ("sb 1 1 argb 1 0 04030201 EE*7", 7, "30100310021001"),
    ("sb 1 1 abgr 0 0 04010203 EE*5", 5, "2003020100"),
    ("sb 1 1 4 0 0 01020304 EE*5", -3, "EE*5"),
    ("sb 1 1 256 1 1 - -", -3, "-"),
    ("sb 1 1 4294967295 0 0 010203 EE*5", -3, "EE*5"),
    ("sb 0 1 257 0 0 - -", -1, "-"),
    ("sb 9000 1 4 1 0 - -", -2, "-"),
];

/// The table of an extent.
pub fn of(extent: Extent) -> &'static [Example] {
    match extent {
        Extent::Body => &EXAMPLES,
        Extent::Stream => &STREAM_EXAMPLES,
    }
}

pub fn run(comparer: &mut Comparer, extent: Extent) -> Outcome {
    for (text, _, _) in of(extent) {
        let case = OwnedEncoding::parse(text).expect("the table's own text");
        comparer.compare_encoding(Kind::EncodingExamples, case.view())?;
    }
    Ok(())
}

#[cfg(test)]
mod tests {
    use super::{EXAMPLES, STREAM_EXAMPLES};
    use crate::bytes;
    use crate::encoding::OwnedEncoding;
    use crate::extent::Extent;

    /// IronRDP inside the domain, and the order of FORMAT 8 outside, give the answers of the table. The first byte of a refused stream is
    /// not IronRDP's.
    #[test]
    fn examples_have_these_answers() {
        for (text, answer, after) in EXAMPLES.into_iter().chain(STREAM_EXAMPLES) {
            let case = OwnedEncoding::parse(text).unwrap();
            let (case, mut after_call) = (case.view(), Vec::new());
            case.fill_destination(&mut after_call);
            let expected = match case.refused_at_entry() {
                Some(number) => -i64::from(number),
                None => {
                    let encoded = case.with_first_samples().by_ironrdp(&mut after_call).unwrap();
                    case.answer(encoded).number().unwrap()
                }
            };
            if let (Extent::Stream, true, Some(first)) = (case.extent, expected < 0, case.before.first()) {
                after_call[0] = *first;
            }
            let after_call = bytes::text(&after_call[case.bytes_before()..]);
            assert_eq!((expected, after_call), (answer, after.to_owned()), "{text}");
        }
    }
}
