//! The part that goes on until the time is over.

use crate::case::Case;
use crate::check::{Comparer, Outcome};
use crate::planes::{self, segment_starts, Earlier, PLANE_KINDS};
use crate::rng::Rng;
use crate::tally::Kind;

/// Random cases from one seed.
pub struct Random {
    rng: Rng,
    earlier: Earlier,
}

impl Random {
    pub fn new(seed: u64) -> Self {
        Random { rng: Rng::new(seed), earlier: Earlier::new() }
    }

    /// Some cases of one kind.
    pub fn round(&mut self, comparer: &mut Comparer) -> Outcome {
        match self.rng.below(8) {
            0..=6 => self.plane(comparer),
            _ => self.outside(comparer),
        }
    }

    /// A plane of some kind with several rooms, then with sources of other lengths.
    fn plane(&mut self, comparer: &mut Comparer) -> Outcome {
        let (width, height) = planes::sides(&mut self.rng);
        let plane_kind = *self.rng.pick(&PLANE_KINDS);
        let samples = planes::samples(&mut self.rng, plane_kind, width, height);
        let packing = original::pack(&samples, width, height).expect("a complete plane with room");
        let starts = segment_starts(&packing);
        for room in [packing.len(), packing.len() + 1, packing.len() + self.rng.within(2, 5000)] {
            comparer.compare(Kind::RandomPlanes, Case::pack(width, height, &samples, self.earlier.bytes(room)))?;
        }
        for _ in 0..8 {
            let room = self.short_room(packing.len(), &starts);
            comparer.compare(Kind::RandomPlanes, Case::pack(width, height, &samples, self.earlier.bytes(room)))?;
        }
        self.other_sources(comparer, samples, (width, height), &starts, packing.len())
    }

    /// Room for less than the packing: near the end of a segment, or anywhere.
    fn short_room(&mut self, packed: usize, starts: &[usize]) -> usize {
        match self.rng.below(8) {
            0 => packed - 1,
            1 => self.rng.below(packed.min(4)),
            2..=5 => (*self.rng.pick(starts) + self.rng.below(3)).saturating_sub(1),
            _ => self.rng.below(packed),
        }
    }

    /// The same plane with bytes behind it, which must not matter, and with too few samples.
    fn other_sources(
        &mut self,
        comparer: &mut Comparer,
        samples: Vec<u8>,
        (width, height): (usize, usize),
        starts: &[usize],
        packed: usize,
    ) -> Outcome {
        let plane = samples.len();
        let more = self.rng.within(1, 2 * width + 40);
        let longer = [samples, self.rng.bytes(more)].concat();
        for len in [plane - 1, self.rng.below(plane), plane + 1, longer.len()] {
            let room = if self.rng.once_in(3) { self.short_room(packed, starts) } else { packed + self.rng.below(3) };
            let case = Case::pack(width, height, &longer[..len], self.earlier.bytes(room));
            comparer.compare(Kind::RandomSources, case)?;
        }
        Ok(())
    }

    /// Sides of which at least one is refused.
    fn outside(&mut self, comparer: &mut Comparer) -> Outcome {
        for _ in 0..8 {
            let (width, height) = planes::sides_outside(&mut self.rng);
            let (len, room) = (self.rng.within(0, 600), self.rng.within(0, 40));
            let samples = self.rng.bytes(len);
            let case = Case::pack(width, height, &samples, self.earlier.bytes(room));
            comparer.compare(Kind::RandomSides, case)?;
        }
        Ok(())
    }
}
