//! The part that goes on until the time is over.

use crate::case::Case;
use crate::check::{Comparer, Outcome};
use crate::planes::{self, Earlier, Making, PLANE_KINDS};
use crate::rng::Rng;
use crate::tally::Kind;

/// Of packings up to this length every prefix is unpacked, of longer ones some.
const EVERY_LENGTH: usize = 160;
/// Half of a body's truncations lie within so many bytes of its end: a control byte, 15 raw bytes and some more.
const NEAR_THE_END: usize = 20;

/// Random cases from one seed.
pub struct Random {
    rng: Rng,
    earlier: Earlier,
}

impl Random {
    pub fn new(seed: u64) -> Self {
        Random { rng: Rng::new(seed), earlier: Earlier::new() }
    }

    /// Some cases of one kind.
    pub fn round(&mut self, comparer: &mut Comparer) -> Outcome {
        match self.rng.below(8) {
            0..=3 => self.packed(comparer),
            4 => self.made(comparer, false),
            5 => self.made(comparer, true),
            6 => self.noise(comparer),
            _ => self.outside(comparer),
        }
    }

    /// A destination length: exact, longer by one or some, and sometimes too short.
    fn room(&mut self, samples: usize) -> usize {
        match self.rng.below(12) {
            0..=4 => samples,
            5..=7 => samples + 1,
            8 | 9 => samples + self.rng.within(2, 100),
            10 => samples - 1,
            _ => *self.rng.pick(&[0, samples / 2]),
        }
    }

    fn compare(
        &mut self,
        comparer: &mut Comparer,
        kind: Kind,
        body: &[u8],
        (width, height): (usize, usize),
    ) -> Outcome {
        let room = self.room(width * height);
        comparer.compare(kind, Case::unpack(width, height, body, self.earlier.bytes(room)))
    }

    /// A plane that IronRDP packs: complete, with bytes following, truncated, damaged.
    fn packed(&mut self, comparer: &mut Comparer) -> Outcome {
        let (width, height) = planes::sides(&mut self.rng);
        let sides = (width, height);
        let plane_kind = *self.rng.pick(&PLANE_KINDS);
        let plane = planes::samples(&mut self.rng, plane_kind, width, height);
        let packed = original::pack(&plane, width, height).expect("a complete plane with room");
        for room in [0, 1, self.rng.within(2, 5000)].map(|more| width * height + more) {
            let before = self.earlier.bytes(room);
            comparer.compare(Kind::Complete, Case::unpack(width, height, &packed, before))?;
        }
        let more = self.rng.within(1, 40);
        let following = [&packed[..], &self.rng.bytes(more)].concat();
        self.compare(comparer, Kind::Following, &following, sides)?;
        self.truncated(comparer, &packed, sides)?;
        self.damaged(comparer, &packed, sides)
    }

    /// The first bytes of a packing.
    fn truncated(&mut self, comparer: &mut Comparer, packed: &[u8], sides: (usize, usize)) -> Outcome {
        if packed.len() <= EVERY_LENGTH {
            for len in 0..packed.len() {
                self.compare(comparer, Kind::Truncated, &packed[..len], sides)?;
            }
            return Ok(());
        }
        for _ in 0..6 {
            let len = self.rng.below(packed.len());
            self.compare(comparer, Kind::Truncated, &packed[..len], sides)?;
        }
        self.compare(comparer, Kind::Truncated, &packed[..packed.len() - 1], sides)
    }

    /// A packing with 1 to 3 bytes changed.
    fn damaged(&mut self, comparer: &mut Comparer, packed: &[u8], sides: (usize, usize)) -> Outcome {
        let variants = if packed.len() > 2000 { 3 } else { 24 };
        for _ in 0..variants {
            let mut body = packed.to_vec();
            for _ in 0..self.rng.within(1, 3) {
                let at = self.rng.below(body.len());
                body[at] = match self.rng.below(4) {
                    0 => 0,
                    1 => body[at] ^ (1 << self.rng.below(8)),
                    2 => body[at].wrapping_add(1),
                    _ => self.rng.byte(),
                };
            }
            self.compare(comparer, Kind::Damaged, &body, sides)?;
        }
        Ok(())
    }

    /// A body made segment by segment, mostly right; also with bytes following, and truncated, half of the time near its end. No
    /// encoder here writes such bodies.
    fn made(&mut self, comparer: &mut Comparer, opening_runs: bool) -> Outcome {
        let kind = if opening_runs { Kind::OpeningRuns } else { Kind::Segments };
        let (width, height) = planes::sides(&mut self.rng);
        for wrong_once_in in [usize::MAX, 40, 8] {
            let making = Making { opening_runs, wrong_once_in };
            let body = planes::made_body(&mut self.rng, making, width, height);
            self.compare(comparer, kind, &body, (width, height))?;
            let more = self.rng.within(1, 40);
            let following = [&body[..], &self.rng.bytes(more)].concat();
            self.compare(comparer, kind, &following, (width, height))?;
            for shortest in [0, body.len().saturating_sub(NEAR_THE_END)].repeat(3) {
                let len = self.rng.within(shortest, body.len());
                self.compare(comparer, kind, &body[..len], (width, height))?;
            }
        }
        Ok(())
    }

    /// Random bytes, on planes so small that they sometimes fill them.
    fn noise(&mut self, comparer: &mut Comparer) -> Outcome {
        for _ in 0..20 {
            let sides = (self.rng.within(1, 100), self.rng.within(1, 4));
            let len = self.rng.within(0, 120);
            let body = self.rng.bytes(len);
            self.compare(comparer, Kind::Noise, &body, sides)?;
        }
        Ok(())
    }

    /// Sides of which at least one is refused.
    fn outside(&mut self, comparer: &mut Comparer) -> Outcome {
        for _ in 0..8 {
            let (width, height) = planes::sides_outside(&mut self.rng);
            let (len, room) = (self.rng.within(0, 40), self.rng.within(0, 600));
            let body = self.rng.bytes(len);
            comparer.compare(Kind::Sides, Case::unpack(width, height, &body, self.earlier.bytes(room)))?;
        }
        Ok(())
    }
}
