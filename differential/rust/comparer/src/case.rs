//! One call of a plane unpacker or of a plane packer.

use crate::bytes;
use original::Answer;
use std::fmt;

/// The longest side (FORMAT 1.4).
pub const MAX_SIDE: usize = 8192;

/// Sides inside and outside the domain, also such whose product does not fit a word, or wraps to a small number.
#[rustfmt::skip]
pub const BOUNDARY_SIDES: [usize; 16] = [
    0, 1, 2, 3, MAX_SIDE - 1, MAX_SIDE, MAX_SIDE + 1, 9000, 16384, 65536, 1 << 32, (1 << 32) + 1, 1 << 62, usize::MAX / 2 + 1,
    usize::MAX - 1, usize::MAX,
];

/// Which of the two is called.
#[derive(Clone, Copy, Debug, PartialEq, Eq)]
pub enum Operation {
    /// The source is a body, the destination gets samples.
    Unpack,
    /// The source has samples, the destination gets a body.
    Pack,
}

impl Operation {
    /// The word that a case's text begins with.
    fn word(self) -> &'static str {
        match self {
            Operation::Unpack => "pu",
            Operation::Pack => "pp",
        }
    }

    /// What it is called in a report.
    pub fn name(self) -> &'static str {
        match self {
            Operation::Unpack => "unpacking",
            Operation::Pack => "packing",
        }
    }

    fn of_word(word: &str) -> Option<Operation> {
        [Operation::Unpack, Operation::Pack].into_iter().find(|operation| operation.word() == word)
    }
}

/// The sides, the source, and what the destination holds before the call.
#[derive(Clone, Copy)]
pub struct Case<'a> {
    pub operation: Operation,
    pub width: usize,
    pub height: usize,
    pub source: &'a [u8],
    pub before: &'a [u8],
}

/// A case that holds its own bytes.
#[derive(Clone, Debug, PartialEq, Eq)]
pub struct Owned {
    pub operation: Operation,
    pub width: usize,
    pub height: usize,
    pub source: Vec<u8>,
    pub before: Vec<u8>,
}

impl<'a> Case<'a> {
    /// A body that is to be unpacked.
    pub fn unpack(width: usize, height: usize, body: &'a [u8], before: &'a [u8]) -> Self {
        Case { operation: Operation::Unpack, width, height, source: body, before }
    }

    /// Samples that are to be packed.
    pub fn pack(width: usize, height: usize, samples: &'a [u8], before: &'a [u8]) -> Self {
        Case { operation: Operation::Pack, width, height, source: samples, before }
    }

    /// The refusal before anything is read: 1, 2, then 10 of unpacking or 11 of packing (FORMAT 8). `None` is inside the
    /// domain.
    pub fn refused_at_entry(&self) -> Option<u8> {
        let (samples, number) = match self.operation {
            Operation::Unpack => (self.before.len(), 10),
            Operation::Pack => (self.source.len(), 11),
        };
        if self.width == 0 || self.height == 0 {
            Some(1)
        } else if self.width > MAX_SIDE || self.height > MAX_SIDE {
            Some(2)
        } else if samples < self.width * self.height {
            Some(number)
        } else {
            None
        }
    }

    /// What IronRDP answers; `after` is its destination.
    pub fn by_ironrdp(&self, after: &mut [u8]) -> Answer {
        match self.operation {
            Operation::Unpack => original::unpack(self.source, after, self.width, self.height),
            Operation::Pack => original::compress(self.source, after, self.width, self.height),
        }
    }

    pub fn to_owned(&self) -> Owned {
        Owned {
            operation: self.operation,
            width: self.width,
            height: self.height,
            source: self.source.to_vec(),
            before: self.before.to_vec(),
        }
    }
}

impl Owned {
    pub fn view(&self) -> Case<'_> {
        Case {
            operation: self.operation,
            width: self.width,
            height: self.height,
            source: &self.source,
            before: &self.before,
        }
    }

    /// Reads `pu WIDTH HEIGHT BODY DST` or `pp WIDTH HEIGHT SAMPLES DST`.
    pub fn parse(text: &str) -> Option<Owned> {
        let words: Vec<&str> = text.split_whitespace().collect();
        let [word, width, height, source, before] = words[..] else {
            return None;
        };
        Some(Owned {
            operation: Operation::of_word(word)?,
            width: width.parse().ok()?,
            height: height.parse().ok()?,
            source: bytes::parse(source)?,
            before: bytes::parse(before)?,
        })
    }
}

impl fmt::Display for Owned {
    fn fmt(&self, f: &mut fmt::Formatter<'_>) -> fmt::Result {
        let (source, before) = (bytes::text(&self.source), bytes::text(&self.before));
        write!(f, "{} {} {} {source} {before}", self.operation.word(), self.width, self.height)
    }
}
