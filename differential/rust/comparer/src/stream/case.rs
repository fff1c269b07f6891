//! One call of a stream decoder, or of the function that sizes its work area.

use crate::bytes;
use crate::case::MAX_SIDE;
use crate::layout::{Format, Layout, BGRA};
use crate::picture::{pixels, Picture};
use crate::stream::header::{form_of, split};
use original::Answer;
use std::fmt;

/// The sides, what is asked for, the stream, and what the work area and the image hold before the call.
#[derive(Clone, Copy, Debug, PartialEq, Eq)]
pub struct Stream<Bytes> {
    pub width: usize,
    pub height: usize,
    pub format: Format,
    pub stream: Bytes,
    pub work: Bytes,
    pub image: Bytes,
}

/// A case that holds its own bytes.
pub type OwnedStream = Stream<Vec<u8>>;

impl<'a> Stream<&'a [u8]> {
    /// The same as a case of its body, or the refusal of a stream that has none.
    pub fn picture(self) -> Result<Picture<'a>, u8> {
        let Stream { width, height, format, stream, work, image } = self;
        split(stream).map(|parts| Picture { width, height, form: parts.form, format, body: parts.body, work, image })
    }

    /// The refusal outside the domain: 13 and 14, then those of the body. `None` is inside the domain.
    pub fn refused_outside(self) -> Option<u8> {
        match self.picture() {
            Ok(picture) => picture.refused_outside(),
            Err(number) => Some(number),
        }
    }

    /// What IronRDP answers. `work` is its work area, which it may make longer or shorter; the pixels are appended to `image`. Four-byte
    /// pixels are asked for inside the domain alone.
    pub fn by_ironrdp(self, work: &mut Vec<u8>, image: &mut Vec<u8>) -> Answer {
        let decode = |work: &mut Vec<u8>, image: &mut Vec<u8>| {
            original::stream_decode(self.stream, work, image, self.width, self.height)
        };
        match (self.format, self.picture()) {
            (Format::Pixels(layout), Ok(picture)) => pixels::by_ironrdp(picture, layout, work, image, decode),
            _ => decode(work, image),
        }
    }

    pub fn to_owned(&self) -> OwnedStream {
        let Stream { width, height, format, .. } = *self;
        let [stream, work, image] = [self.stream, self.work, self.image].map(<[u8]>::to_vec);
        Stream { width, height, format, stream, work, image }
    }
}

impl OwnedStream {
    pub fn view(&self) -> Stream<&[u8]> {
        let Stream { width, height, format, stream, work, image } = self;
        Stream { width: *width, height: *height, format: *format, stream, work, image }
    }

    /// Reads `su WIDTH HEIGHT STREAM WORK IMAGE`, or `xs WIDTH HEIGHT LAYOUT STREAM WORK IMAGE` for four-byte pixels.
    pub fn parse(text: &str) -> Option<OwnedStream> {
        let words: Vec<&str> = text.split_whitespace().collect();
        let (width, height, format, stream, work, image) = match words[..] {
            ["su", width, height, stream, work, image] => (width, height, Format::Rgb24, stream, work, image),
            ["xs", width, height, layout, stream, work, image] => {
                (width, height, Format::Pixels(Layout::parse(layout)?), stream, work, image)
            }
            _ => return None,
        };
        Some(Stream {
            width: width.parse().ok()?,
            height: height.parse().ok()?,
            format,
            stream: bytes::parse(stream)?,
            work: bytes::parse(work)?,
            image: bytes::parse(image)?,
        })
    }
}

impl fmt::Display for OwnedStream {
    fn fmt(&self, f: &mut fmt::Formatter<'_>) -> fmt::Result {
        let [stream, work, image] = [&self.stream, &self.work, &self.image].map(|some| bytes::text(some));
        let (width, height) = (self.width, self.height);
        match self.format {
            Format::Rgb24 => write!(f, "su {width} {height} {stream} {work} {image}"),
            Format::Pixels(layout) => write!(f, "xs {width} {height} {layout} {stream} {work} {image}"),
        }
    }
}

/// What the work area of a stream is sized by.
#[derive(Clone, Copy, Debug, PartialEq, Eq)]
pub struct StreamSize<Bytes> {
    pub width: usize,
    pub height: usize,
    /// Whether the work area is that of four-byte pixels.
    pub four_bytes: bool,
    pub stream: Bytes,
}

/// A case that holds its own bytes.
pub type OwnedStreamSize = StreamSize<Vec<u8>>;

impl StreamSize<&[u8]> {
    /// The minimum length of the work area, by the header byte alone: 0 without one, for a raw stream and for sides that are refused.
    pub fn work(self) -> usize {
        let sides = 1..=MAX_SIDE;
        let format = if self.four_bytes { Format::Pixels(BGRA) } else { Format::Rgb24 };
        match self.stream.first() {
            Some(&byte) if sides.contains(&self.width) && sides.contains(&self.height) => {
                form_of(byte).work_len(format, self.width, self.height)
            }
            _ => 0,
        }
    }

    pub fn to_owned(&self) -> OwnedStreamSize {
        let StreamSize { width, height, four_bytes, stream } = *self;
        StreamSize { width, height, four_bytes, stream: stream.to_vec() }
    }
}

impl OwnedStreamSize {
    pub fn view(&self) -> StreamSize<&[u8]> {
        let StreamSize { width, height, four_bytes, .. } = *self;
        StreamSize { width, height, four_bytes, stream: &self.stream }
    }

    /// Reads `ss WIDTH HEIGHT STREAM`, or `xz WIDTH HEIGHT STREAM` for four-byte pixels.
    pub fn parse(text: &str) -> Option<OwnedStreamSize> {
        let words: Vec<&str> = text.split_whitespace().collect();
        let [word @ ("ss" | "xz"), width, height, stream] = words[..] else {
            return None;
        };
        let (width, height) = (width.parse().ok()?, height.parse().ok()?);
        Some(StreamSize { width, height, four_bytes: word == "xz", stream: bytes::parse(stream)? })
    }
}

impl fmt::Display for OwnedStreamSize {
    fn fmt(&self, f: &mut fmt::Formatter<'_>) -> fmt::Result {
        let word = if self.four_bytes { "xz" } else { "ss" };
        write!(f, "{word} {} {} {}", self.width, self.height, bytes::text(&self.stream))
    }
}

#[cfg(test)]
mod tests {
    use super::{OwnedStream, OwnedStreamSize};

    #[test]
    fn there_and_back() {
        let pixels = ["xs 1 1 bgra 20010203EE - EE*4", "xs 0 9000 4 - EE -"];
        for text in ["su 1 1 20010203EE - EEEEEE", "su 0 9000 - EE -"].into_iter().chain(pixels) {
            assert_eq!(OwnedStream::parse(text).unwrap().to_string(), text);
        }
        for text in ["ss 3 5 19", "ss 0 9000 -", "xz 3 5 19"] {
            assert_eq!(OwnedStreamSize::parse(text).unwrap().to_string(), text);
        }
        assert_eq!(OwnedStream::parse("su 1 1 20 -"), None);
        assert_eq!(OwnedStream::parse("su 1 1 bgra 20 - -"), None);
        assert_eq!(OwnedStream::parse("xs 1 1 20 - -"), None);
        assert_eq!(OwnedStreamSize::parse("ss 1 1"), None);
    }

    #[test]
    fn work_areas_by_the_header_byte() {
        let size = |text| OwnedStreamSize::parse(text).unwrap().view().work();
        // 3 x 5: three full planes, or one and two of 2 x 3.
        assert_eq!([size("ss 3 5 30"), size("ss 3 5 31"), size("ss 3 5 39")], [45, 45, 27]);
        assert_eq!([size("ss 3 5 F8"), size("ss 3 5 29"), size("ss 3 5 -")], [45, 0, 0]);
        assert_eq!([size("ss 0 5 30"), size("ss 3 8193 30")], [0, 0]);
        // One full plane more, if there is alpha.
        assert_eq!([size("xz 3 5 30"), size("xz 3 5 10"), size("xz 3 5 19"), size("xz 3 5 00")], [45, 60, 42, 0]);
        assert_eq!([size("ss 3 5 10"), size("xz 0 5 10"), size("xz 3 5 -")], [45, 0, 0]);
    }
}
