//! One call of a picture encoder.

use crate::bytes;
use crate::case::MAX_SIDE;
use crate::extent::Extent;
use crate::layout::{Layout, STRIDE};
use original::{Answer, Encoded};
use std::fmt;

/// What a plane is of, in the order of a layout's places.
#[derive(Clone, Copy, Debug, PartialEq, Eq)]
pub enum Channel {
    R,
    G,
    B,
    A,
}

/// What a picture is packed from.
#[derive(Clone, Copy, Debug, PartialEq, Eq)]
pub enum Sources<Bytes> {
    /// Samples of R, G and B, and of A if that is packed too.
    Channels { colours: [Bytes; 3], alpha: Option<Bytes> },
    /// Pixels of a layout, and whether their A is packed too.
    Pixels { pixels: Bytes, layout: Layout, alpha: bool },
}

impl<Bytes: AsRef<[u8]>> Sources<Bytes> {
    pub fn has_alpha(&self) -> bool {
        match self {
            Sources::Channels { alpha, .. } => alpha.is_some(),
            Sources::Pixels { alpha, .. } => *alpha,
        }
    }

    /// The layout of pixels.
    pub fn layout(&self) -> Option<Layout> {
        match self {
            Sources::Channels { .. } => None,
            Sources::Pixels { layout, .. } => Some(*layout),
        }
    }

    /// Whether there is no such layout.
    pub fn has_unknown_layout(&self) -> bool {
        self.layout().is_some_and(|layout| layout.known().is_none())
    }

    /// How many planes are packed.
    pub fn planes(&self) -> usize {
        3 + usize::from(self.has_alpha())
    }

    /// The slices, each with the bytes that a sample takes in it.
    pub fn slices(&self) -> Vec<(&[u8], usize)> {
        match self {
            Sources::Channels { colours, alpha } => {
                colours.iter().chain(alpha).map(|samples| (samples.as_ref(), 1)).collect()
            }
            Sources::Pixels { pixels, .. } => vec![(pixels.as_ref(), STRIDE)],
        }
    }

    /// How many samples each source has; of pixels the complete ones.
    pub fn counts(&self) -> impl Iterator<Item = usize> + '_ {
        self.slices().into_iter().map(|(slice, stride)| slice.len() / stride)
    }

    /// The same with another slice in this place of `slices`.
    pub fn with(mut self, at: usize, slice: Bytes) -> Self {
        match &mut self {
            Sources::Channels { alpha, .. } if at == 3 => *alpha = Some(slice),
            Sources::Channels { colours, .. } => colours[at] = slice,
            Sources::Pixels { pixels, .. } => *pixels = slice,
        }
        self
    }

    pub fn view(&self) -> Sources<&[u8]> {
        match self {
            Sources::Channels { colours: [r, g, b], alpha } => Sources::Channels {
                colours: [r.as_ref(), g.as_ref(), b.as_ref()],
                alpha: alpha.as_ref().map(Bytes::as_ref),
            },
            Sources::Pixels { pixels, layout, alpha } => {
                Sources::Pixels { pixels: pixels.as_ref(), layout: *layout, alpha: *alpha }
            }
        }
    }
}

impl<'a> Sources<&'a [u8]> {
    /// The same with what becomes of each slice, which is passed with the bytes that a sample takes in it.
    pub fn map<Bytes>(self, mut change: impl FnMut(&'a [u8], usize) -> Bytes) -> Sources<Bytes> {
        match self {
            Sources::Channels { colours, alpha } => Sources::Channels {
                colours: colours.map(|samples| change(samples, 1)),
                alpha: alpha.map(|samples| change(samples, 1)),
            },
            Sources::Pixels { pixels, layout, alpha } => {
                Sources::Pixels { pixels: change(pixels, STRIDE), layout, alpha }
            }
        }
    }

    /// The samples of a channel; none of A if there is none. A layout is known.
    pub fn samples(self, channel: Channel) -> impl Iterator<Item = u8> + 'a {
        let (slice, start, stride) = match self {
            Sources::Channels { colours: [r, g, b], alpha } => {
                let slice = match channel {
                    Channel::R => r,
                    Channel::G => g,
                    Channel::B => b,
                    Channel::A => alpha.unwrap_or(&[]),
                };
                (slice, 0, 1)
            }
            Sources::Pixels { pixels, layout, .. } => {
                let places = layout.places().expect("a layout that there is");
                (&pixels[..pixels.len() / STRIDE * STRIDE], places[channel as usize], STRIDE)
            }
        };
        slice.get(start..).unwrap_or(&[]).iter().copied().step_by(stride)
    }
}

/// A body or a stream, the sides, RLE or raw, the sources, and what the destination holds before the call.
#[derive(Clone, Copy, Debug, PartialEq, Eq)]
pub struct Encoding<Bytes> {
    pub extent: Extent,
    pub width: usize,
    pub height: usize,
    pub rle: bool,
    pub sources: Sources<Bytes>,
    pub before: Bytes,
}

/// A case that holds its own bytes.
pub type OwnedEncoding = Encoding<Vec<u8>>;

impl<Bytes: AsRef<[u8]>> Encoding<Bytes> {
    /// The refusal before anything is read: 1, 2, 3 if there is no such layout, then 11 (FORMAT 8).
    pub fn refused_at_entry(&self) -> Option<u8> {
        if self.width == 0 || self.height == 0 {
            Some(1)
        } else if self.width > MAX_SIDE || self.height > MAX_SIDE {
            Some(2)
        } else if self.sources.has_unknown_layout() {
            Some(3)
        } else if self.sources.counts().any(|count| count < self.width * self.height) {
            Some(11)
        } else {
            None
        }
    }

    /// Whether the case is inside the domain: nothing is refused at entry, and a raw picture has no sample too many.
    pub fn is_inside(&self) -> bool {
        let exact = |count| count == self.width * self.height;
        self.refused_at_entry().is_none() && (self.rle || self.sources.counts().all(exact))
    }

    pub fn view(&self) -> Encoding<&[u8]> {
        let Encoding { extent, width, height, rle, .. } = *self;
        Encoding { extent, width, height, rle, sources: self.sources.view(), before: self.before.as_ref() }
    }

    /// How many bytes IronRDP's destination has before the library's: it always begins with the header byte.
    pub fn bytes_before(&self) -> usize {
        Extent::Stream.header_len() - self.extent.header_len()
    }
}

impl Encoding<&[u8]> {
    /// The case that is packed if nothing is refused at entry: each source has the first width times height
    /// samples. It is inside the domain.
    pub fn with_first_samples(self) -> Self {
        let samples = self.width * self.height;
        Encoding { sources: self.sources.map(|slice, stride| &slice[..samples * stride]), ..self }
    }

    /// IronRDP's destination before the call.
    pub fn fill_destination(&self, after: &mut Vec<u8>) {
        after.clear();
        after.resize(self.bytes_before(), 0);
        after.extend_from_slice(self.before);
    }

    /// The answer to this case that IronRDP's is.
    pub fn answer(&self, encoded: Encoded) -> Answer {
        match self.extent {
            Extent::Body => encoded.body_answer(),
            Extent::Stream => encoded.answer,
        }
    }

    /// What IronRDP answers, if it has such a layout. `after` is its destination, which begins with a byte for the header.
    pub fn by_ironrdp(&self, after: &mut [u8]) -> Option<Encoded> {
        let Encoding { width, height, rle, .. } = *self;
        Some(match self.sources {
            Sources::Channels { colours, alpha } => {
                original::encode_channels(colours, alpha, after, rle, width, height)
            }
            Sources::Pixels { pixels, layout, alpha } => {
                original::encode_bitmap(layout.known()?, pixels, alpha, after, rle, width, height)
            }
        })
    }

    pub fn to_owned(&self) -> OwnedEncoding {
        let Encoding { extent, width, height, rle, .. } = *self;
        let sources = self.sources.map(|slice, _| slice.to_vec());
        Encoding { extent, width, height, rle, sources, before: self.before.to_vec() }
    }
}

fn flag(word: &str) -> Option<bool> {
    word.parse::<u8>().ok().filter(|&flag| flag < 2).map(|flag| flag == 1)
}

impl OwnedEncoding {
    /// Reads `pc WIDTH HEIGHT RLE R G B A DST`, where A can be `none`, or `pb WIDTH HEIGHT LAYOUT RLE ALPHA PIXELS DST`; of a stream
    /// `sc` and `sb`.
    pub fn parse(text: &str) -> Option<OwnedEncoding> {
        let words: Vec<&str> = text.split_whitespace().collect();
        let extent = if text.starts_with('s') { Extent::Stream } else { Extent::Body };
        let (width, height, rle, sources, before) = match words[..] {
            ["pc" | "sc", width, height, rle, r, g, b, a, before] => {
                let colours = [bytes::parse(r)?, bytes::parse(g)?, bytes::parse(b)?];
                let alpha = if a == "none" { None } else { Some(bytes::parse(a)?) };
                (width, height, rle, Sources::Channels { colours, alpha }, before)
            }
            ["pb" | "sb", width, height, layout, rle, alpha, pixels, before] => {
                let (layout, alpha) = (Layout::parse(layout)?, flag(alpha)?);
                let sources = Sources::Pixels { pixels: bytes::parse(pixels)?, layout, alpha };
                (width, height, rle, sources, before)
            }
            _ => return None,
        };
        let (width, height) = (width.parse().ok()?, height.parse().ok()?);
        Some(Encoding { extent, width, height, rle: flag(rle)?, sources, before: bytes::parse(before)? })
    }
}

impl fmt::Display for OwnedEncoding {
    fn fmt(&self, f: &mut fmt::Formatter<'_>) -> fmt::Result {
        let Encoding { width, height, .. } = *self;
        let (rle, before) = (u8::from(self.rle), bytes::text(&self.before));
        let extent = if self.extent == Extent::Stream { 's' } else { 'p' };
        match &self.sources {
            Sources::Channels { colours, alpha } => {
                let [r, g, b] = colours.each_ref().map(|samples| bytes::text(samples));
                let a = alpha.as_ref().map_or("none".to_owned(), |samples| bytes::text(samples));
                write!(f, "{extent}c {width} {height} {rle} {r} {g} {b} {a} {before}")
            }
            Sources::Pixels { pixels, layout, alpha } => {
                let (alpha, pixels) = (u8::from(*alpha), bytes::text(pixels));
                write!(f, "{extent}b {width} {height} {layout} {rle} {alpha} {pixels} {before}")
            }
        }
    }
}

#[cfg(test)]
mod tests {
    use super::{Channel, OwnedEncoding};

    #[test]
    fn there_and_back() {
        for text in [
            "pc 1 1 0 01 02 03 none EE*4",
            "pc 2 1 1 0102 0304 0506 - -",
            "pc 2 1 1 - - - 01 -",
            "pb 2 1 bgra 0 1 0102030405060708AABBCC EE*9",
            "pb 2 1 256 0 1 - -",
            "sc 1 1 0 01 02 03 none EE*5",
            "sb 2 1 abgr 0 1 0102030405060708AABBCC EE*9",
        ] {
            assert_eq!(OwnedEncoding::parse(text).unwrap().to_string(), text);
        }
        assert_eq!(OwnedEncoding::parse("pc 1 1 0 01 02 none 03 EE*4"), None);
        assert_eq!(OwnedEncoding::parse("pb 1 1 bgra 0 2 01020304 EE*4"), None);
        assert_eq!(OwnedEncoding::parse("pb 1 1 3 0 0 01020304 EE*4"), None);
    }

    #[test]
    fn samples_of_complete_pixels() {
        let case = OwnedEncoding::parse("pb 2 1 bgra 0 1 0102030405060708AABBCC -").unwrap();
        let of = |channel| case.view().sources.samples(channel).collect::<Vec<u8>>();
        assert_eq!([Channel::R, Channel::G, Channel::B, Channel::A].map(of), [[3, 7], [2, 6], [1, 5], [4, 8]]);
        assert_eq!(case.sources.counts().collect::<Vec<_>>(), [2]);
    }
}
