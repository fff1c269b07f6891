//! Cases of all entries, one entry after the other, the same for the same seed: mostly small pictures, good and damaged, some refused.

use crate::case_from_bytes::case_from_bytes;
use crate::entry::{Entry, ENTRIES};
use comparer::{Input, Rng};

/// The bytes in front that choose sides, lengths and forms.
const CHOOSING: usize = 15;

pub struct Mix {
    rng: Rng,
    next: usize,
}

impl Mix {
    pub fn new(seed: u64) -> Self {
        Mix { rng: Rng::new(seed), next: 0 }
    }

    /// Bytes that make a case. Three times of four those that choose are low, which makes buffers of the right length.
    pub fn bytes(&mut self) -> Vec<u8> {
        let filling = match self.rng.below(8) {
            0 => self.rng.within(0, 3),
            1 => self.rng.within(100, 400),
            _ => self.rng.within(4, 64),
        };
        let mut bytes = self.rng.bytes(CHOOSING + filling);
        if !self.rng.once_in(4) {
            bytes[..CHOOSING].iter_mut().for_each(|byte| *byte &= 0x7F);
        }
        bytes
    }
}

impl Iterator for Mix {
    type Item = (Entry, Input);

    fn next(&mut self) -> Option<(Entry, Input)> {
        let entry = ENTRIES[self.next % ENTRIES.len()];
        self.next += 1;
        let bytes = self.bytes();
        Some((entry, case_from_bytes(entry, &bytes)))
    }
}
