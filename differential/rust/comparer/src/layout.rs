//! The layout of four-byte pixels, and what a picture is unpacked to.

use original::Layout as Known;
use std::fmt;

/// The bytes of a pixel that has a layout.
pub const STRIDE: usize = 4;

/// A layout as C passes it: 0 to 3, and any other number, which is unknown.
#[derive(Clone, Copy, Debug, PartialEq, Eq)]
pub struct Layout(pub u32);

pub const BGRA: Layout = Layout(0);
pub const RGBA: Layout = Layout(1);
pub const ARGB: Layout = Layout(2);
pub const ABGR: Layout = Layout(3);

/// Those that there are, each at its number.
pub const LAYOUTS: [Layout; 4] = [BGRA, RGBA, ARGB, ABGR];

/// Unknown layouts: the lowest, and those that would be BGRA or RGBA if they were truncated to two bits, to a byte or to two.
pub const UNKNOWN: [Layout; 8] = [
    Layout(4),
    Layout(5),
    Layout(255),
    Layout(256),
    Layout(257),
    Layout(65_536),
    Layout((1 << 31) + 1),
    Layout(u32::MAX),
];

const WORDS: [&str; 4] = ["bgra", "rgba", "argb", "abgr"];

impl Layout {
    /// IronRDP's type for it, unless the number is unknown.
    pub fn known(self) -> Option<Known> {
        [Known::BgrA, Known::RgbA, Known::ARgb, Known::ABgr].get(self.0 as usize).copied()
    }

    /// The places of R, G, B and A in a pixel, unless the number is unknown.
    pub fn places(self) -> Option<[usize; 4]> {
        self.known().map(Known::places)
    }

    /// A pixel of R, G, B and A, whose layout is known.
    pub fn pixel(self, samples: [u8; 4]) -> [u8; STRIDE] {
        let mut pixel = [0; STRIDE];
        let places = self.places().expect("a layout that there is");
        places.into_iter().zip(samples).for_each(|(at, sample)| pixel[at] = sample);
        pixel
    }

    /// The same pixels, whose layout is this one, in another. What follows the last complete pixel stays. A layout that is unknown has the
    /// places of BGRA.
    pub fn rearranged(self, pixels: &[u8], other: Layout) -> Vec<u8> {
        let places = |layout: Layout| layout.places().unwrap_or([2, 1, 0, 3]);
        let mut out = pixels.to_vec();
        for (to, from) in out.chunks_exact_mut(STRIDE).zip(pixels.chunks_exact(STRIDE)) {
            places(other).into_iter().zip(places(self)).for_each(|(at, was)| to[at] = from[was]);
        }
        out
    }

    /// Reads a word of a case: the name of a layout, or the number of an unknown one.
    pub fn parse(word: &str) -> Option<Layout> {
        match WORDS.iter().position(|name| *name == word) {
            Some(number) => Some(LAYOUTS[number]),
            None => word.parse().ok().map(Layout).filter(|layout| layout.known().is_none()),
        }
    }
}

impl fmt::Display for Layout {
    fn fmt(&self, f: &mut fmt::Formatter<'_>) -> fmt::Result {
        match WORDS.get(self.0 as usize) {
            Some(word) => f.write_str(word),
            None => self.0.fmt(f),
        }
    }
}

/// What a picture is unpacked to.
#[derive(Clone, Copy, Debug, PartialEq, Eq)]
pub enum Format {
    /// R, G and B.
    Rgb24,
    /// Four bytes a pixel, alpha among them.
    Pixels(Layout),
}

impl Format {
    /// The bytes of a pixel.
    pub fn bytes(self) -> usize {
        match self {
            Format::Rgb24 => 3,
            Format::Pixels(_) => STRIDE,
        }
    }

    /// Whether the alpha plane is kept.
    pub fn keeps_alpha(self) -> bool {
        self != Format::Rgb24
    }

    /// Refusal 3 by the layout: there is no such one.
    pub fn is_unknown(self) -> bool {
        matches!(self, Format::Pixels(layout) if layout.known().is_none())
    }
}

#[cfg(test)]
mod tests {
    use super::{Layout, ABGR, ARGB, BGRA, LAYOUTS, RGBA};

    #[test]
    fn words_and_numbers() {
        for text in ["bgra", "rgba", "argb", "abgr", "4", "256", "4294967295"] {
            assert_eq!(Layout::parse(text).unwrap().to_string(), text);
        }
        for text in ["0", "3", "rgb", "4294967296", "-1"] {
            assert_eq!(Layout::parse(text), None, "{text}");
        }
        assert_eq!(LAYOUTS.map(|layout| layout.0), [0, 1, 2, 3]);
    }

    #[test]
    fn a_pixel_of_each_layout() {
        let pixels = LAYOUTS.map(|layout| layout.pixel([b'R', b'G', b'B', b'A']));
        assert_eq!(pixels, [*b"BGRA", *b"RGBA", *b"ARGB", *b"ABGR"]);
        assert_eq!(Layout(4).places(), None);
        assert_eq!(BGRA.rearranged(b"BGRABGRABG", RGBA), b"RGBARGBABG");
        assert_eq!(ABGR.rearranged(b"ABGR", ARGB), b"ARGB");
        assert_eq!(Layout(256).rearranged(b"BGRA", ABGR), b"ABGR");
    }
}
