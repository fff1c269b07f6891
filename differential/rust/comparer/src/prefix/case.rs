//! One case of the prefix theorem (FORMAT 9).

use crate::bytes;
use crate::case::MAX_SIDE;
use crate::prefix::Model;
use std::fmt;

/// A plane, how many bytes of its packing are unpacked again, what follows them, and what the destination holds before.
#[derive(Clone, Debug, PartialEq, Eq)]
pub struct PrefixCase {
    pub width: usize,
    pub height: usize,
    pub samples: Vec<u8>,
    pub taken: usize,
    pub following: Vec<u8>,
    pub before: Vec<u8>,
}

impl PrefixCase {
    /// Whether the theorem applies: sides within their limits, enough samples and room, no more bytes than the packing has, and
    /// nothing following unless all of them are taken.
    pub fn is_valid(&self) -> bool {
        let sides = 1..=MAX_SIDE;
        if !sides.contains(&self.width) || !sides.contains(&self.height) {
            return false;
        }
        let plane = self.width * self.height;
        if self.samples.len() < plane || self.before.len() < plane {
            return false;
        }
        let packed = self.packed_len();
        self.taken == packed || self.taken < packed && self.following.is_empty()
    }

    /// The length of the plane's packing.
    pub fn packed_len(&self) -> usize {
        Model::of(&self.samples, self.width, self.height).packing.len()
    }

    /// Reads `px WIDTH HEIGHT SAMPLES M FOLLOWING DST`.
    pub fn parse(text: &str) -> Option<PrefixCase> {
        let words: Vec<&str> = text.split_whitespace().collect();
        let ["px", width, height, samples, taken, following, before] = words[..] else {
            return None;
        };
        Some(PrefixCase {
            width: width.parse().ok()?,
            height: height.parse().ok()?,
            samples: bytes::parse(samples)?,
            taken: taken.parse().ok()?,
            following: bytes::parse(following)?,
            before: bytes::parse(before)?,
        })
        .filter(PrefixCase::is_valid)
    }
}

impl fmt::Display for PrefixCase {
    fn fmt(&self, f: &mut fmt::Formatter<'_>) -> fmt::Result {
        let [samples, following, before] = [&self.samples, &self.following, &self.before].map(|some| bytes::text(some));
        write!(f, "px {} {} {samples} {} {following} {before}", self.width, self.height, self.taken)
    }
}
