//! How long the work area and the image must be: two functions of a library, and two for four-byte pixels, compared with plain formulas.

use crate::case::{BOUNDARY_SIDES, MAX_SIDE};
use crate::check::{Comparer, Outcome};
use crate::layout::{Format, BGRA};
use crate::picture::case::{ARGB, AYCOCG};
use crate::picture::refused::WIDE_DEFINITIONS;
use crate::picture::Form;
use crate::tally::Kind;
use std::fmt;

/// The arguments of the two.
#[derive(Clone, Copy, Debug, PartialEq, Eq)]
pub struct Sizes {
    pub width: usize,
    pub height: usize,
    pub rle: bool,
    /// The alpha flag, which the sizes of four-byte pixels alone have.
    pub alpha: Option<bool>,
    pub definition: u32,
    pub subsampled: bool,
}

impl Sizes {
    fn sides_refused(&self) -> bool {
        let sides = 1..=MAX_SIDE;
        !sides.contains(&self.width) || !sides.contains(&self.height)
    }

    fn format(&self) -> Format {
        match self.alpha {
            None => Format::Rgb24,
            Some(_) => Format::Pixels(BGRA),
        }
    }

    /// The three colour planes, for RLE alone, with alpha if it is flagged and kept. An unknown definition counts as AYCoCg.
    pub fn work(&self) -> usize {
        let Sizes { rle, alpha, definition, subsampled, .. } = *self;
        let form = Form { rle, alpha: alpha == Some(true), definition, level: 1, subsampled };
        if self.sides_refused() {
            0
        } else {
            form.work_len(self.format(), self.width, self.height)
        }
    }

    /// Three bytes a pixel, or four.
    pub fn image(&self) -> usize {
        if self.sides_refused() {
            0
        } else {
            self.format().bytes() * self.width * self.height
        }
    }

    /// Reads `is WIDTH HEIGHT RLE DEFINITION SUBSAMPLED`, or `xw WIDTH HEIGHT RLE ALPHA DEFINITION SUBSAMPLED` for four-byte pixels.
    pub fn parse(text: &str) -> Option<Sizes> {
        let words: Vec<&str> = text.split_whitespace().collect();
        let (width, height, rle, alpha, definition, subsampled) = match words[..] {
            ["is", width, height, rle, definition, subsampled] => (width, height, rle, None, definition, subsampled),
            ["xw", width, height, rle, alpha, definition, subsampled] => {
                (width, height, rle, Some(alpha), definition, subsampled)
            }
            _ => return None,
        };
        let flag = |word: &str| word.parse::<u8>().ok().filter(|&flag| flag < 2).map(|flag| flag == 1);
        Some(Sizes {
            width: width.parse().ok()?,
            height: height.parse().ok()?,
            rle: flag(rle)?,
            alpha: match alpha {
                None => None,
                Some(word) => Some(flag(word)?),
            },
            definition: definition.parse().ok()?,
            subsampled: flag(subsampled)?,
        })
    }
}

impl fmt::Display for Sizes {
    fn fmt(&self, f: &mut fmt::Formatter<'_>) -> fmt::Result {
        let (rle, subsampled) = (u8::from(self.rle), u8::from(self.subsampled));
        let (width, height, definition) = (self.width, self.height, self.definition);
        match self.alpha.map(u8::from) {
            None => write!(f, "is {width} {height} {rle} {definition} {subsampled}"),
            Some(alpha) => write!(f, "xw {width} {height} {rle} {alpha} {definition} {subsampled}"),
        }
    }
}

/// Sides inside the domain, odd and even.
const MORE_SIDES: [usize; 13] = [4, 5, 6, 7, 8, 9, 47, 48, 100, 4095, 4096, 4097, MAX_SIDE - 2];

/// All pairs of boundary sides, both definitions and unknown ones.
pub fn run(comparer: &mut Comparer) -> Outcome {
    run_of(comparer, &[None])
}

/// The same of four-byte pixels, with alpha and without.
pub fn run_pixels(comparer: &mut Comparer) -> Outcome {
    run_of(comparer, &[Some(false), Some(true)])
}

fn run_of(comparer: &mut Comparer, alphas: &[Option<bool>]) -> Outcome {
    let sides = || BOUNDARY_SIDES.into_iter().chain(MORE_SIDES);
    for (width, height) in sides().flat_map(|width| sides().map(move |height| (width, height))) {
        for definition in [ARGB, AYCOCG].into_iter().chain(WIDE_DEFINITIONS) {
            for (rle, subsampled) in [(false, false), (false, true), (true, false), (true, true)] {
                for &alpha in alphas {
                    let case = Sizes { width, height, rle, alpha, definition, subsampled };
                    comparer.compare_sizes(Kind::SizesTable, case)?;
                }
            }
        }
    }
    Ok(())
}

#[cfg(test)]
mod tests {
    use super::Sizes;

    #[test]
    fn sizes_of_both_kinds() {
        let sizes = |text| {
            let sizes = Sizes::parse(text).unwrap();
            assert_eq!(sizes.to_string(), text);
            (sizes.work(), sizes.image())
        };
        assert_eq!(sizes("is 3 5 1 1 1"), (27, 45));
        assert_eq!(sizes("xw 3 5 1 0 1 1"), (27, 60));
        assert_eq!(sizes("xw 3 5 1 1 1 1"), (42, 60));
        assert_eq!(sizes("xw 3 5 1 1 0 1"), (60, 60));
        assert_eq!(sizes("xw 3 5 0 1 0 0"), (0, 60));
        assert_eq!(sizes("xw 3 8193 1 1 0 0"), (0, 0));
        assert_eq!(Sizes::parse("is 3 5 1 1 1 1"), None);
        assert_eq!(Sizes::parse("xw 3 5 1 2 1 1"), None);
    }
}
