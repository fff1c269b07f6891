//! The part that goes on until the time is over.

use crate::check::{Comparer, Outcome};
use crate::encoding::given::{self, channels, given, pixels};
use crate::encoding::{Encoding, Sources};
use crate::extent::Extent;
use crate::layout::{Layout, BGRA, LAYOUTS, STRIDE, UNKNOWN};
use crate::picture::Planes;
use crate::planes::{self, segment_starts, Earlier};
use crate::rng::Rng;
use crate::tally::Kind;

/// Random cases from one seed.
pub struct Random {
    extent: Extent,
    rng: Rng,
    earlier: Earlier,
}

/// A packing, as far as rooms are chosen by it.
struct Ends {
    len: usize,
    /// Where segments start; of a raw picture where planes do.
    starts: Vec<usize>,
}

impl Ends {
    fn of(case: Encoding<&[u8]>) -> Ends {
        let packing = case.packing();
        let plane = case.width * case.height;
        let starts = if case.rle { segment_starts(&packing) } else { (0..=3).map(|at| at * plane).collect() };
        Ends { len: packing.len(), starts }
    }
}

impl Random {
    pub fn new(seed: u64, extent: Extent) -> Self {
        Random { extent, rng: Rng::new(seed), earlier: Earlier::new() }
    }

    /// Some cases of one kind.
    pub fn round(&mut self, comparer: &mut Comparer) -> Outcome {
        match self.rng.below(8) {
            0..=6 => self.picture(comparer),
            _ => self.outside(comparer),
        }
    }

    /// A layout, BGRA half of the time.
    fn layout(&mut self) -> Layout {
        if self.rng.once_in(2) {
            BGRA
        } else {
            *self.rng.pick(&LAYOUTS)
        }
    }

    /// A layout that there is not, or any.
    fn other_layout(&mut self) -> Layout {
        match self.rng.below(4) {
            0 => self.layout(),
            1 => Layout(self.rng.word() as u32),
            2 => Layout(4 + self.rng.below(300) as u32),
            _ => *self.rng.pick(&UNKNOWN),
        }
    }

    /// The planes of a picture by one of the entries.
    fn sources(&mut self, width: usize, height: usize) -> Sources<Vec<u8>> {
        let form = given::form(self.rng.once_in(2));
        let planes = Planes::random(&mut self.rng, form, width, height);
        if self.rng.once_in(2) {
            channels(&planes)
        } else {
            pixels(&planes, self.layout())
        }
    }

    /// A picture with several rooms, then with sources of other lengths.
    fn picture(&mut self, comparer: &mut Comparer) -> Outcome {
        let (width, height) = planes::sides(&mut self.rng);
        let owned = self.sources(width, height);
        let case = given(self.extent, !self.rng.once_in(4), (width, height), owned.view());
        let ends = Ends::of(case);
        for room in [ends.len, ends.len + 1, ends.len + self.rng.within(2, 5000)] {
            case.compare_in(comparer, &mut self.earlier, Kind::RandomEncodings, room)?;
        }
        for _ in 0..8 {
            let room = self.short_room(&ends);
            case.compare_in(comparer, &mut self.earlier, Kind::RandomEncodings, room)?;
        }
        self.other_sources(comparer, case, &ends)
    }

    /// Room for less than the packing: near the end of a segment or of a raw plane, or anywhere.
    fn short_room(&mut self, ends: &Ends) -> usize {
        match self.rng.below(8) {
            0 => ends.len - 1,
            1 => self.rng.below(ends.len.min(4)),
            2..=5 => (*self.rng.pick(&ends.starts) + self.rng.below(3)).saturating_sub(1).min(ends.len - 1),
            _ => self.rng.below(ends.len),
        }
    }

    /// The same picture with bytes behind some of its sources, which must not matter, and with too few samples in some.
    fn other_sources(&mut self, comparer: &mut Comparer, case: Encoding<&[u8]>, ends: &Ends) -> Outcome {
        for _ in 0..6 {
            let sources = case.sources.map(|slice, stride| self.other_length(slice, stride));
            let room = match self.rng.below(3) {
                0 => self.short_room(ends),
                1 => ends.len + self.rng.below(3),
                _ => ends.len + self.rng.within(3, 400),
            };
            let case = Encoding { sources: sources.view(), ..case };
            case.compare_in(comparer, &mut self.earlier, Kind::RandomEncodingSources, room)?;
        }
        Ok(())
    }

    /// A source as it is, longer by a byte, by a sample or by some, or, less often, shorter.
    fn other_length(&mut self, slice: &[u8], stride: usize) -> Vec<u8> {
        let more = match self.rng.below(12) {
            0 => return slice[..slice.len() - 1].to_vec(),
            1 => return slice[..self.rng.below(slice.len())].to_vec(),
            2..=4 => 0,
            5 | 6 => 1,
            7..=9 => stride,
            _ => self.rng.within(1, 60),
        };
        [slice, &self.rng.bytes(more)].concat()
    }

    /// Sides of which at least one is refused, or small ones; pixels of a layout that there is not, or of any.
    fn outside(&mut self, comparer: &mut Comparer) -> Outcome {
        for _ in 0..8 {
            let sides = match self.rng.below(3) {
                0 => (self.rng.within(1, 4), self.rng.within(1, 4)),
                _ => planes::sides_outside(&mut self.rng),
            };
            let (alpha, len) = (self.rng.once_in(2), self.rng.within(0, 150));
            let bytes = [0; 4].map(|_| self.rng.bytes(len));
            let [r, g, b, a] = bytes.each_ref().map(|bytes| &bytes[..]);
            let sources = match self.rng.below(2) {
                0 => Sources::Channels { colours: [r, g, b], alpha: alpha.then_some(a) },
                _ => Sources::Pixels { pixels: &r[..len / STRIDE * STRIDE], layout: self.other_layout(), alpha },
            };
            let room = self.rng.within(0, 600);
            let case = given(self.extent, self.rng.once_in(2), sides, sources);
            case.compare_in(comparer, &mut self.earlier, Kind::RandomEncodingSides, room)?;
        }
        Ok(())
    }
}
