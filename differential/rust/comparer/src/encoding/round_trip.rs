//! What was packed is unpacked by IronRDP: R, G and B by its picture decoder, A as the plane that comes first.

use crate::encoding::{Channel, Encoding};
use crate::extent::Extent;
use original::{Answer, Definition, Header};

/// A plane that is not unpacked to what was packed.
pub struct Wrong {
    pub name: &'static str,
    /// In words.
    pub answer: String,
    pub wanted: Vec<u8>,
    pub got: Vec<u8>,
}

/// What is wrong with a body or a stream, if anything. A stream of three planes is unpacked as it is. Otherwise the header here has the
/// alpha flag of the planes: with the record of FORMAT 7.5, whose flag is false, four planes cannot be unpacked.
pub fn wrong(case: Encoding<&[u8]>, packed: &[u8]) -> Option<Wrong> {
    let Encoding { width, height, rle, sources, .. } = case;
    let body = &packed[case.extent.header_len()..];
    let (mut work, mut got) = (Vec::new(), Vec::new());
    let answer = if case.extent == Extent::Stream && !sources.has_alpha() {
        original::stream_decode(packed, &mut work, &mut got, width, height)
    } else {
        let header = Header { rle, alpha: sources.has_alpha(), definition: Definition::Argb };
        original::decode(header, body, &mut work, &mut got, width, height)
    };
    let wrong = wrong_image(case, answer.to_string(), got);
    if sources.has_alpha() {
        return wrong.or_else(|| wrong_alpha(case, body));
    }
    wrong
}

/// The first width times height samples of a channel.
fn samples<'a>(case: Encoding<&'a [u8]>, of: Channel) -> impl Iterator<Item = u8> + 'a {
    case.sources.samples(of).take(case.width * case.height)
}

/// What is wrong with an image, if anything, that came with this answer.
pub fn wrong_image(case: Encoding<&[u8]>, answer: String, got: Vec<u8>) -> Option<Wrong> {
    let [r, g, b] = [Channel::R, Channel::G, Channel::B].map(|of| samples(case, of));
    let wanted: Vec<u8> = r.zip(g).zip(b).flat_map(|((r, g), b)| [r, g, b]).collect();
    (got != wanted).then_some(Wrong { name: "image", answer, wanted, got })
}

fn wrong_alpha(case: Encoding<&[u8]>, body: &[u8]) -> Option<Wrong> {
    let (width, height) = (case.width, case.height);
    let wanted: Vec<u8> = samples(case, Channel::A).collect();
    let mut got = body.iter().copied().take(width * height).collect::<Vec<u8>>();
    let mut answer = Answer::Done(got.len());
    if case.rle {
        got = vec![0; width * height];
        answer = original::unpack(body, &mut got, width, height);
    }
    (got != wanted).then_some(Wrong { name: "alpha plane", answer: answer.to_string(), wanted, got })
}

#[cfg(test)]
mod tests {
    use super::wrong;
    use crate::bytes;
    use crate::encoding::OwnedEncoding;

    /// What is named wrong of a body.
    fn named(case: &str, body: &str) -> Option<&'static str> {
        let case = OwnedEncoding::parse(case).unwrap();
        wrong(case.view(), &bytes::parse(body).unwrap()).map(|wrong| wrong.name)
    }

    #[test]
    fn right_bodies_and_wrong_ones() {
        let [three, four] = ["pb 1 1 bgra 1 0 01020304 -", "pb 1 1 bgra 1 1 01020304 -"];
        assert_eq!(named(three, "100310021001"), None);
        assert_eq!(named(three, "100110021003"), Some("image"));
        assert_eq!(named(three, "1003100210"), Some("image"));
        assert_eq!(named(four, "1004100310021001"), None);
        assert_eq!(named(four, "1005100310021001"), Some("alpha plane"));
        let [three, four] = ["pc 1 1 0 03 02 01 none -", "pc 1 1 0 03 02 01 04 -"];
        assert_eq!(named(three, "03020100"), None);
        assert_eq!(named(three, "04030201"), Some("image"));
        assert_eq!(named(four, "0403020100"), None);
        assert_eq!(named(four, "0303020100"), Some("alpha plane"));
        let [three, four] = ["sb 1 1 bgra 0 0 01020304 -", "sb 1 1 bgra 1 1 01020304 -"];
        assert_eq!(named(three, "2003020100"), None);
        assert_eq!(named(three, "2103020100"), Some("image"));
        assert_eq!(named(three, "20030201"), Some("image"));
        assert_eq!(named(four, "301004100310021001"), None);
        assert_eq!(named(four, "301005100310021001"), Some("alpha plane"));
    }
}
