//! Four-byte pixels. IronRDP has no function for them: it unpacks a picture to its three bytes a pixel, and its alpha plane alone.

use crate::layout::{Layout, STRIDE};
use crate::picture::Picture;
use original::Answer;

/// What IronRDP gives for a case inside the domain: R, G and B by `three_bytes`, which unpacks the picture, A from the alpha plane, or 255.
/// `work` is left as FORMAT says: the colour planes, behind them alpha, which stays there; the pixels are appended to `image`.
pub fn by_ironrdp(
    case: Picture<'_>,
    layout: Layout,
    work: &mut [u8],
    image: &mut Vec<u8>,
    three_bytes: impl FnOnce(&mut Vec<u8>, &mut Vec<u8>) -> Answer,
) -> Answer {
    let Picture { width, height, form, body, .. } = case;
    let (mut planes, mut colours) = (Vec::new(), Vec::new());
    let answer = three_bytes(&mut planes, &mut colours);
    if form.rle && matches!(answer, Answer::Done(_) | Answer::Refused(7..=9)) {
        check_planes(&unpack_planes(case, work), &answer, &planes, work);
    }
    let Answer::Done(_) = answer else {
        return answer;
    };
    let samples = width * height;
    let opaque = vec![255; samples];
    let alpha = match (form.alpha, form.rle) {
        (false, _) => &opaque[..],
        (true, true) => &work[form.colour_samples(width, height)..],
        (true, false) => body,
    };
    for (rgb, &alpha) in colours.chunks_exact(3).zip(&alpha[..samples]) {
        image.extend(layout.pixel([rgb[0], rgb[1], rgb[2], alpha]));
    }
    Answer::Done(STRIDE * samples)
}

/// Unpacks each plane of an RLE picture to its place in the work area, alpha first. A refused plane is as IronRDP leaves it, and those behind
/// it are untouched. The answer is the bytes read.
fn unpack_planes(case: Picture<'_>, work: &mut [u8]) -> Answer {
    let (full, chroma) = ((case.width, case.height), case.form.chroma_sides(case.width, case.height));
    let [full_len, chroma_len] = [full, chroma].map(|(width, height)| width * height);
    let alpha = case.form.alpha.then_some((full_len + 2 * chroma_len, full));
    let colours = [(0, full), (full_len, chroma), (full_len + chroma_len, chroma)];
    let mut read = 0;
    for (to, (width, height)) in alpha.into_iter().chain(colours) {
        match original::unpack(&case.body[read..], &mut work[to..][..width * height], width, height) {
            Answer::Done(count) => read += count,
            refused => return refused,
        }
    }
    Answer::Done(read)
}

/// IronRDP must give the planes, one by one, the answer that it gives the picture, and the colour planes that it unpacks that to.
fn check_planes(of_planes: &Answer, of_picture: &Answer, planes: &[u8], work: &[u8]) {
    match of_picture {
        Answer::Done(_) => {
            assert!(matches!(of_planes, Answer::Done(_)), "IronRDP's planes: {of_planes}");
            assert_eq!(planes, &work[..planes.len()], "IronRDP's colour planes");
        }
        refused => assert_eq!(of_planes, refused, "IronRDP's planes"),
    }
}

#[cfg(test)]
mod tests {
    use crate::bytes;
    use crate::picture::OwnedPicture;

    /// The answer, the work area and the image.
    fn asked(text: &str) -> (String, String, String) {
        let case = OwnedPicture::parse(text).unwrap();
        let (mut work, mut image) = (case.work.clone(), Vec::new());
        let answer = case.view().by_ironrdp(&mut work, &mut image).unwrap();
        (answer.to_string(), bytes::text(&work), bytes::text(&image))
    }

    #[test]
    fn alpha_is_behind_the_colour_planes_and_stays() {
        let made = |answer: &str, work: &str, image: &str| (answer.to_owned(), work.to_owned(), image.to_owned());
        let four = "xu 1 1 1 1 argb bgra 1004100110021003 EE*5 EE*4";
        assert_eq!(asked(four), made("4 bytes", "01020304EE", "03020104"));
        let refused = "xu 1 1 1 1 argb bgra 10041001100200 EE*4 EE*4";
        assert_eq!(asked(refused), made("refusal 8", "0102EE04", "-"));
        let refused = "xu 2 1 1 1 argb bgra 100430010203 EE*8 EE*8";
        assert_eq!(asked(refused), made("refusal 9", "EE*6,04EE", "-"));
        let raw = "xu 1 1 0 1 1:0 argb FF640A14 EE EE*4";
        assert_eq!(asked(raw), made("4 bytes", "EE", "FF5A7846"));
        let none = "xu 1 1 0 0 1:0 abgr 640A14 - EE*4";
        assert_eq!(asked(none), made("4 bytes", "-", "FF5A7846"));
    }
}
