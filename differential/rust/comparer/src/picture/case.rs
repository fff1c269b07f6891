//! One call of a picture decoder.

use crate::bytes;
use crate::case::MAX_SIDE;
use crate::layout::{Format, Layout};
use crate::picture::pixels;
use original::{Answer, Definition, Header};
use std::fmt;

pub const ARGB: u32 = 0;
pub const AYCOCG: u32 = 1;

/// The longest row that one byte of an RLE plane can stand for.
const LONGEST_SEGMENT: usize = 47;

/// How a picture is coded, as a call passes it.
#[derive(Clone, Copy, Debug, PartialEq, Eq)]
pub struct Form {
    pub rle: bool,
    pub alpha: bool,
    /// `ARGB` or `AYCOCG`. Any other number is an unknown definition.
    pub definition: u32,
    /// Loss level and subsampling belong to AYCoCg. With ARGB they can be anything and have no effect.
    pub level: u32,
    pub subsampled: bool,
}

impl Form {
    pub fn argb(rle: bool, alpha: bool) -> Self {
        Form { rle, alpha, definition: ARGB, level: 0, subsampled: false }
    }

    pub fn aycocg(rle: bool, alpha: bool, level: u32, subsampled: bool) -> Self {
        Form { rle, alpha, definition: AYCOCG, level, subsampled }
    }

    /// Refusal 3: a loss level of 0 or over 7 with AYCoCg, or an unknown definition.
    pub fn is_refused(&self) -> bool {
        self.definition != ARGB && !(self.definition == AYCOCG && (1..=7).contains(&self.level))
    }

    /// Whether the second and third planes are smaller than the first.
    pub fn is_subsampled(&self) -> bool {
        self.definition != ARGB && self.subsampled
    }

    /// The sides of the second and third planes.
    pub fn chroma_sides(&self, width: usize, height: usize) -> (usize, usize) {
        if self.is_subsampled() {
            (width.div_ceil(2), height.div_ceil(2))
        } else {
            (width, height)
        }
    }

    /// The samples of the three colour planes. The sides are inside the domain.
    pub fn colour_samples(&self, width: usize, height: usize) -> usize {
        let (chroma_width, chroma_height) = self.chroma_sides(width, height);
        width * height + 2 * chroma_width * chroma_height
    }

    /// The work area that is needed: that of four-byte pixels also has the alpha plane. The sides are inside the domain.
    pub fn work_len(&self, format: Format, width: usize, height: usize) -> usize {
        let alpha = if self.alpha && format.keeps_alpha() { width * height } else { 0 };
        if self.rle {
            self.colour_samples(width, height) + alpha
        } else {
            0
        }
    }

    /// The minimum size of the body. The sides are inside the domain.
    pub fn min_body(&self, width: usize, height: usize) -> usize {
        let alpha = usize::from(self.alpha);
        if !self.rle {
            return alpha * width * height + self.colour_samples(width, height);
        }
        let min_plane = |(width, height): (usize, usize)| height * width.div_ceil(LONGEST_SEGMENT);
        (alpha + 1) * min_plane((width, height)) + 2 * min_plane(self.chroma_sides(width, height))
    }

    /// The same as IronRDP's header, if that can express it: it has two definitions, and its level is a byte.
    pub fn header(&self) -> Option<Header> {
        let definition = match self.definition {
            ARGB => Definition::Argb,
            AYCOCG => {
                let loss_level = u8::try_from(self.level).ok()?;
                Definition::AYCoCg { loss_level, subsampled: self.subsampled }
            }
            _ => return None,
        };
        Some(Header { rle: self.rle, alpha: self.alpha, definition })
    }

    /// Reads the words RLE, ALPHA and DEF of a case.
    fn parse(rle: &str, alpha: &str, definition: &str) -> Option<Form> {
        let (rle, alpha) = (flag(rle)?, flag(alpha)?);
        let parts: Vec<&str> = definition.split(':').collect();
        let (definition, level, subsampled) = match parts[..] {
            ["argb"] => return Some(Form::argb(rle, alpha)),
            ["argb", level, subsampled] => (ARGB, level, subsampled),
            [level, subsampled] => (AYCOCG, level, subsampled),
            [other, level, subsampled] => (other.parse().ok()?, level, subsampled),
            _ => return None,
        };
        Some(Form { rle, alpha, definition, level: level.parse().ok()?, subsampled: flag(subsampled)? })
    }
}

fn flag(word: &str) -> Option<bool> {
    match word {
        "0" => Some(false),
        "1" => Some(true),
        _ => None,
    }
}

impl fmt::Display for Form {
    fn fmt(&self, f: &mut fmt::Formatter<'_>) -> fmt::Result {
        let (level, subsampled) = (self.level, u8::from(self.subsampled));
        write!(f, "{} {} ", u8::from(self.rle), u8::from(self.alpha))?;
        match self.definition {
            ARGB if level == 0 && !self.subsampled => write!(f, "argb"),
            ARGB => write!(f, "argb:{level}:{subsampled}"),
            AYCOCG => write!(f, "{level}:{subsampled}"),
            other => write!(f, "{other}:{level}:{subsampled}"),
        }
    }
}

/// The sides, the form, what is asked for, the body, and what the work area and the image hold before the call.
#[derive(Clone, Copy)]
pub struct Picture<'a> {
    pub width: usize,
    pub height: usize,
    pub form: Form,
    pub format: Format,
    pub body: &'a [u8],
    pub work: &'a [u8],
    pub image: &'a [u8],
}

/// A case that holds its own bytes.
#[derive(Clone, Debug, PartialEq, Eq)]
pub struct OwnedPicture {
    pub width: usize,
    pub height: usize,
    pub form: Form,
    pub format: Format,
    pub body: Vec<u8>,
    pub work: Vec<u8>,
    pub image: Vec<u8>,
}

impl Picture<'_> {
    /// The refusal outside the domain, in the order of FORMAT 8: 1, 2, 3, and if the work area or the image is short, 4 of the
    /// body, then 5 or 6. `None` is inside the domain: there IronRDP is the reference, for 4 too.
    pub fn refused_outside(&self) -> Option<u8> {
        let Picture { width, height, form, format, .. } = *self;
        if width == 0 || height == 0 {
            return Some(1);
        }
        if width > MAX_SIDE || height > MAX_SIDE {
            return Some(2);
        }
        if form.is_refused() || format.is_unknown() {
            return Some(3);
        }
        let short_work = self.work.len() < form.work_len(format, width, height);
        let short_image = self.image.len() < format.bytes() * width * height;
        match (short_work, short_image) {
            (false, false) => None,
            _ if self.body.len() < form.min_body(width, height) => Some(4),
            (true, _) => Some(5),
            (false, true) => Some(6),
        }
    }

    /// What IronRDP answers, if its header can express this form. `work` is its work area, which it may make longer or shorter;
    /// the pixels are appended to `image`. Four-byte pixels are asked for inside the domain alone.
    pub fn by_ironrdp(&self, work: &mut Vec<u8>, image: &mut Vec<u8>) -> Option<Answer> {
        let header = self.form.header()?;
        let decode = |work: &mut Vec<u8>, image: &mut Vec<u8>| {
            original::decode(header, self.body, work, image, self.width, self.height)
        };
        Some(match self.format {
            Format::Rgb24 => decode(work, image),
            Format::Pixels(layout) => pixels::by_ironrdp(*self, layout, work, image, decode),
        })
    }

    pub fn to_owned(&self) -> OwnedPicture {
        OwnedPicture {
            width: self.width,
            height: self.height,
            form: self.form,
            format: self.format,
            body: self.body.to_vec(),
            work: self.work.to_vec(),
            image: self.image.to_vec(),
        }
    }
}

impl OwnedPicture {
    pub fn view(&self) -> Picture<'_> {
        Picture {
            width: self.width,
            height: self.height,
            form: self.form,
            format: self.format,
            body: &self.body,
            work: &self.work,
            image: &self.image,
        }
    }

    /// Reads `iu WIDTH HEIGHT RLE ALPHA DEF BODY WORK IMAGE`, or `xu WIDTH HEIGHT RLE ALPHA DEF LAYOUT BODY WORK IMAGE` for four-byte
    /// pixels.
    pub fn parse(text: &str) -> Option<OwnedPicture> {
        let words: Vec<&str> = text.split_whitespace().collect();
        let [word, width, height, rle, alpha, definition, ref rest @ ..] = words[..] else {
            return None;
        };
        let (format, [body, work, image]) = match (word, rest) {
            ("iu", &[body, work, image]) => (Format::Rgb24, [body, work, image]),
            ("xu", &[layout, body, work, image]) => (Format::Pixels(Layout::parse(layout)?), [body, work, image]),
            _ => return None,
        };
        Some(OwnedPicture {
            width: width.parse().ok()?,
            height: height.parse().ok()?,
            form: Form::parse(rle, alpha, definition)?,
            format,
            body: bytes::parse(body)?,
            work: bytes::parse(work)?,
            image: bytes::parse(image)?,
        })
    }
}

impl fmt::Display for OwnedPicture {
    fn fmt(&self, f: &mut fmt::Formatter<'_>) -> fmt::Result {
        let [body, work, image] = [&self.body, &self.work, &self.image].map(|some| bytes::text(some));
        let (width, height, form) = (self.width, self.height, self.form);
        match self.format {
            Format::Rgb24 => write!(f, "iu {width} {height} {form} {body} {work} {image}"),
            Format::Pixels(layout) => write!(f, "xu {width} {height} {form} {layout} {body} {work} {image}"),
        }
    }
}

#[cfg(test)]
mod tests {
    use super::OwnedPicture;

    #[test]
    fn there_and_back() {
        for text in [
            "iu 1 1 1 0 argb 100110021003 EEEEEE EEEEEE",
            "iu 2 3 0 1 argb:3:1 - - EE*18",
            "iu 2 3 1 1 7:1 00*4 EE*10 EE*18",
            "iu 2 3 1 0 255:7:0 - - -",
            "iu 2 3 1 0 4294967295:0 - - -",
            "iu 2 3 1 0 4294967295:4294967295:0 - - -",
            "xu 1 1 1 0 argb abgr 100110021003 EEEEEE EE*4",
            "xu 2 3 0 1 argb:3:1 bgra - - EE*24",
            "xu 2 3 1 1 7:1 4294967295 00*4 EE*16 EE*24",
        ] {
            assert_eq!(OwnedPicture::parse(text).unwrap().to_string(), text);
        }
        assert_eq!(OwnedPicture::parse("iu 1 1 2 0 argb - - -"), None);
        assert_eq!(OwnedPicture::parse("iu 1 1 1 0 1:2 - - -"), None);
        assert_eq!(OwnedPicture::parse("iu 1 1 1 0 4294967296:0 - - -"), None);
        assert_eq!(OwnedPicture::parse("iu 1 1 1 0 4294967296:1:0 - - -"), None);
        assert_eq!(OwnedPicture::parse("iu 1 1 1 0 -1:0 - - -"), None);
        assert_eq!(OwnedPicture::parse("iu 1 1 1 0 argb bgra - - -"), None);
        assert_eq!(OwnedPicture::parse("xu 1 1 1 0 argb - - -"), None);
        assert_eq!(OwnedPicture::parse("xu 1 1 1 0 argb 0 - - -"), None);
    }
}
