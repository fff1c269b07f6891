//! The part that goes on until the time is over.

use crate::check::{Comparer, Outcome};
use crate::planes::{self, Earlier, PLANE_KINDS};
use crate::prefix::{Plane, Prefix};
use crate::rng::Rng;
use crate::tally::Kind;

/// Of packings up to this length every prefix is unpacked, of longer ones some.
const EVERY_LENGTH: usize = 100;

/// Random cases from one seed.
pub struct Random {
    rng: Rng,
    earlier: Earlier,
}

impl Random {
    pub fn new(seed: u64) -> Self {
        Random { rng: Rng::new(seed), earlier: Earlier::new() }
    }

    /// One plane, packed by both. Then both unpack many of its prefixes, and the complete packing with bytes following.
    pub fn round(&mut self, comparer: &mut Comparer) -> Outcome {
        let (width, height) = planes::sides(&mut self.rng);
        let plane_kind = *self.rng.pick(&PLANE_KINDS);
        let mut samples = planes::samples(&mut self.rng, plane_kind, width, height);
        if self.rng.once_in(4) {
            let more = self.rng.within(1, 40);
            samples.extend(self.rng.bytes(more));
        }
        let plane = Plane::new(width, height, &samples);
        comparer.compare_packings(&plane)?;
        for taken in self.lengths(plane.model.packing.len()) {
            self.prefix(comparer, &plane, taken, &[])?;
        }
        for most in [1, 9, 300] {
            let more = self.rng.within(1, most);
            let following = self.rng.bytes(more);
            self.prefix(comparer, &plane, plane.model.packing.len(), &following)?;
        }
        Ok(())
    }

    fn prefix(&mut self, comparer: &mut Comparer, plane: &Plane<'_>, taken: usize, following: &[u8]) -> Outcome {
        let more = match self.rng.below(4) {
            0 | 1 => 0,
            2 => 1,
            _ => self.rng.within(2, 100),
        };
        let before = self.earlier.bytes(plane.width * plane.height + more);
        comparer.compare_prefix(Kind::PrefixRandom, plane, Prefix { taken, following, before })
    }

    fn lengths(&mut self, packed: usize) -> Vec<usize> {
        if packed <= EVERY_LENGTH {
            return (0..=packed).collect();
        }
        let some = (0..12).map(|_| self.rng.below(packed));
        some.chain([packed - 1, packed]).collect()
    }
}
