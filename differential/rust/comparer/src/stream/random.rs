//! The part that goes on until the time is over.

use crate::check::{Comparer, Outcome};
use crate::extent::Extent;
use crate::layout::{Format, Layout, UNKNOWN};
use crate::picture;
use crate::picture::planes::{Befores, Formats, Planes};
use crate::planes;
use crate::rng::Rng;
use crate::stream::header::{form_of, joined};
use crate::stream::StreamSize;
use crate::tally::Kind;

/// Random cases from one seed.
pub struct Random {
    rng: Rng,
    befores: Befores,
    /// Whether streams are unpacked to four-byte pixels.
    four_bytes: bool,
    /// IronRDP's pictures and others as streams: complete, truncated, damaged, in buffers of other lengths.
    pictures: picture::random::Random,
}

impl Random {
    pub fn new(seed: u64) -> Self {
        let pictures = picture::random::Random::new(seed, Extent::Stream);
        let befores = Befores::new(Extent::Stream, Formats::Rgb24);
        Random { rng: Rng::new(!seed), befores, four_bytes: false, pictures }
    }

    /// The same streams, unpacked to four-byte pixels.
    pub fn pixels(seed: u64) -> Self {
        let pictures = picture::random::Random::pixels(seed, Extent::Stream);
        let befores = Befores::new(Extent::Stream, Formats::Pixels(Rng::new(!seed)));
        Random { rng: Rng::new(!seed), befores, four_bytes: true, pictures }
    }

    /// Some cases of one kind.
    pub fn round(&mut self, comparer: &mut Comparer) -> Outcome {
        match self.rng.below(8) {
            0..=3 => self.pictures.round(comparer),
            4 => self.other_headers(comparer),
            5 | 6 => self.noise(comparer),
            _ => self.sizes(comparer),
        }
    }

    /// Sides that are mostly small and sometimes refused.
    fn sides(&mut self) -> (usize, usize) {
        match self.rng.below(6) {
            0 => planes::sides_outside(&mut self.rng),
            _ => (self.rng.within(1, 30), self.rng.within(1, 4)),
        }
    }

    /// Complete streams of any form with one bit of the header byte changed, in buffers that are long enough for every form.
    fn other_headers(&mut self, comparer: &mut Comparer) -> Outcome {
        for _ in 0..20 {
            let (width, height) = (self.rng.within(1, 12), self.rng.within(1, 4));
            let byte = self.rng.byte();
            let form = form_of(byte);
            let body = Planes::random(&mut self.rng, form, width, height).body(form, width, height);
            let mut stream = joined(form, byte, &body, self.rng.byte()).expect("every byte has a form");
            stream[0] ^= 1 << self.rng.below(8);
            let needed = self.befores.most(width, height);
            let room = (needed + self.rng.below(2), needed + self.rng.below(2));
            self.befores.compare_stream(comparer, Kind::RandomStreams, (width, height), &stream, room)?;
        }
        Ok(())
    }

    /// Random bytes with any header byte, many of them few, for pictures so small that they sometimes are enough; four-byte pixels also with
    /// layouts that there are not.
    fn noise(&mut self, comparer: &mut Comparer) -> Outcome {
        for _ in 0..20 {
            let sides = self.sides();
            let len = match self.rng.below(4) {
                0 => self.rng.below(4),
                _ => self.rng.below(120),
            };
            let stream = self.rng.bytes(len);
            let room = (self.rng.below(400), self.rng.below(400));
            self.befores.compare_stream(comparer, Kind::RandomStreams, sides, &stream, room)?;
            if self.four_bytes {
                let layout =
                    if self.rng.once_in(2) { *self.rng.pick(&UNKNOWN) } else { Layout(self.rng.word() as u32) };
                let (format, case) = (Format::Pixels(layout), (sides, &stream[..]));
                self.befores.compare_stream_to(comparer, Kind::RandomStreams, format, case, room)?;
            }
        }
        Ok(())
    }

    /// Work areas of random streams, at sides of any size.
    fn sizes(&mut self, comparer: &mut Comparer) -> Outcome {
        let four_bytes = self.four_bytes;
        for _ in 0..20 {
            let len = self.rng.below(4);
            let stream = self.rng.bytes(len);
            let (width, height) = match self.rng.below(3) {
                0 => planes::sides(&mut self.rng),
                _ => self.sides(),
            };
            comparer
                .compare_stream_size(Kind::SizesTable, StreamSize { width, height, four_bytes, stream: &stream })?;
        }
        Ok(())
    }
}
