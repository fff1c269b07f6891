//! The part that goes on until the time is over.

use crate::check::{Comparer, Outcome};
use crate::extent::Extent;
use crate::layout::{Format, Layout, LAYOUTS, UNKNOWN};
use crate::picture::case::{ARGB, AYCOCG};
use crate::picture::planes::{Befores, Formats, Sent};
use crate::picture::{Form, Planes, Sizes};
use crate::planes::{self, Making};
use crate::rng::Rng;
use crate::tally::Kind;

/// Of RLE bodies up to this length every prefix is unpacked, of others some.
const EVERY_LENGTH: usize = 60;

/// Random cases from one seed.
pub struct Random {
    rng: Rng,
    befores: Befores,
    extent: Extent,
    four_bytes: bool,
}

impl Random {
    pub fn new(seed: u64, extent: Extent) -> Self {
        Random { rng: Rng::new(seed), befores: Befores::new(extent, Formats::Rgb24), extent, four_bytes: false }
    }

    /// The same pictures, unpacked to four-byte pixels.
    pub fn pixels(seed: u64, extent: Extent) -> Self {
        let befores = Befores::new(extent, Formats::Pixels(Rng::new(seed)));
        Random { rng: Rng::new(seed), befores, extent, four_bytes: true }
    }

    /// Some cases of one kind.
    pub fn round(&mut self, comparer: &mut Comparer) -> Outcome {
        match self.rng.below(8) {
            0..=4 => self.picture(comparer),
            5 => self.made(comparer),
            6 => self.noise(comparer),
            _ if self.four_bytes && self.rng.once_in(2) => self.layouts(comparer),
            _ => self.outside(comparer),
        }
    }

    /// A form inside the domain. With ARGB a level and subsampling are sometimes passed, which must have no effect.
    fn form(&mut self) -> Form {
        let (rle, alpha) = (!self.rng.once_in(4), self.rng.once_in(2));
        match self.rng.below(8) {
            0 | 1 => Form::argb(rle, alpha),
            2 => Form { rle, alpha, definition: ARGB, level: self.any_number(), subsampled: self.rng.once_in(2) },
            _ => Form::aycocg(rle, alpha, self.rng.within(1, 7) as u32, self.rng.once_in(2)),
        }
    }

    /// How much longer than needed a slice is: not at all, by one, by some.
    fn more(&mut self) -> usize {
        match self.rng.below(4) {
            0 | 1 => 0,
            2 => 1,
            _ => self.rng.within(2, 100),
        }
    }

    fn compare(&mut self, comparer: &mut Comparer, kind: Kind, sent: Sent<'_>) -> Outcome {
        let more = (self.more(), self.more());
        self.befores.compare_longer(comparer, kind, sent, more)
    }

    /// A picture that IronRDP packs: complete, with bytes following, truncated, damaged, in buffers of other lengths.
    fn picture(&mut self, comparer: &mut Comparer) -> Outcome {
        let (width, height) = planes::sides(&mut self.rng);
        let form = self.form();
        let body = Planes::random(&mut self.rng, form, width, height).body(form, width, height);
        let sent = Sent { width, height, form, body: &body };
        self.befores.compare_longer(comparer, Kind::RandomPictures, sent, (0, 0))?;
        self.compare(comparer, Kind::RandomPictures, sent)?;
        let more = self.rng.within(1, 40);
        let following = [&body[..], &self.rng.bytes(more)].concat();
        self.compare(comparer, Kind::RandomFollowing, sent.with_body(&following))?;
        self.truncated(comparer, sent)?;
        self.damaged(comparer, sent)?;
        self.other_lengths(comparer, sent)
    }

    /// The first bytes of a body.
    fn truncated(&mut self, comparer: &mut Comparer, sent: Sent<'_>) -> Outcome {
        let len = sent.body.len();
        if sent.form.rle && len <= EVERY_LENGTH {
            for end in 0..len {
                self.compare(comparer, Kind::RandomTruncated, sent.with_body(&sent.body[..end]))?;
            }
            return Ok(());
        }
        for end in [len - 1, sent.form.min_body(sent.width, sent.height) - 1, self.rng.below(len), self.rng.below(len)]
        {
            self.compare(comparer, Kind::RandomTruncated, sent.with_body(&sent.body[..end]))?;
        }
        Ok(())
    }

    /// A body with 1 to 3 bytes changed.
    fn damaged(&mut self, comparer: &mut Comparer, sent: Sent<'_>) -> Outcome {
        let variants = if sent.form.rle && sent.body.len() < 2000 { 24 } else { 2 };
        for _ in 0..variants {
            let mut body = sent.body.to_vec();
            for _ in 0..self.rng.within(1, 3) {
                let at = self.rng.below(body.len());
                body[at] = match self.rng.below(4) {
                    0 => 0,
                    1 => body[at] ^ (1 << self.rng.below(8)),
                    2 => body[at].wrapping_add(1),
                    _ => self.rng.byte(),
                };
            }
            self.compare(comparer, Kind::RandomDamaged, sent.with_body(&body))?;
        }
        Ok(())
    }

    /// The body complete or truncated, in buffers that are short by one, or by more, or long enough.
    fn other_lengths(&mut self, comparer: &mut Comparer, sent: Sent<'_>) -> Outcome {
        let needs = self.befores.needs(sent);
        for _ in 0..6 {
            let end = if self.rng.once_in(3) { self.rng.below(sent.body.len()) } else { sent.body.len() };
            let room = (self.length(needs.0), self.length(needs.1));
            self.befores.compare(comparer, Kind::RandomLengths, sent.with_body(&sent.body[..end]), room)?;
        }
        Ok(())
    }

    fn length(&mut self, needed: usize) -> usize {
        match self.rng.below(4) {
            0 | 1 => needed + self.more(),
            2 => needed.saturating_sub(1),
            _ => self.rng.within(0, needed),
        }
    }

    /// RLE planes made segment by segment, mostly right; also truncated.
    fn made(&mut self, comparer: &mut Comparer) -> Outcome {
        let (width, height) = planes::sides(&mut self.rng);
        let form = Form { rle: true, ..self.form() };
        let (full, chroma) = ((width, height), form.chroma_sides(width, height));
        for wrong_once_in in [usize::MAX, 100, 20] {
            let making = Making { opening_runs: self.rng.once_in(2), wrong_once_in };
            let mut body = Vec::new();
            for (width, height) in [full, full, chroma, chroma].into_iter().skip(usize::from(!form.alpha)) {
                body.extend(planes::made_body(&mut self.rng, making, width, height));
            }
            let sent = Sent { width, height, form, body: &body };
            self.compare(comparer, Kind::RandomBodies, sent)?;
            for _ in 0..6 {
                let end = self.rng.within(0, body.len());
                self.compare(comparer, Kind::RandomBodies, sent.with_body(&body[..end]))?;
            }
        }
        Ok(())
    }

    /// Random bytes, for pictures so small that they sometimes are enough.
    fn noise(&mut self, comparer: &mut Comparer) -> Outcome {
        for _ in 0..20 {
            let (width, height) = (self.rng.within(1, 30), self.rng.within(1, 4));
            let form = self.form();
            let len = self.rng.within(0, 120);
            let body = self.rng.bytes(len);
            self.compare(comparer, Kind::RandomBodies, Sent { width, height, form, body: &body })?;
        }
        Ok(())
    }

    /// Sides of which at least one is refused; or levels and definitions that are.
    fn outside(&mut self, comparer: &mut Comparer) -> Outcome {
        for _ in 0..8 {
            let (len, room) = (self.rng.within(0, 40), (self.rng.within(0, 100), self.rng.within(0, 100)));
            let body = self.rng.bytes(len);
            let (sides, form) = match self.rng.below(3) {
                0 => (planes::sides_outside(&mut self.rng), self.form()),
                1 => (planes::sides_outside(&mut self.rng), self.refused_form()),
                _ => ((self.rng.within(1, 4), self.rng.within(1, 4)), self.refused_form()),
            };
            let sent = Sent { width: sides.0, height: sides.1, form, body: &body };
            self.befores.compare(comparer, Kind::RandomRefused, sent, room)?;
        }
        Ok(())
    }

    /// Layouts that there are not, and some that there are, with anything else right or wrong; and the sizes of what is passed.
    fn layouts(&mut self, comparer: &mut Comparer) -> Outcome {
        for _ in 0..8 {
            let (width, height) = match self.rng.below(4) {
                0 => planes::sides_outside(&mut self.rng),
                _ => (self.rng.within(1, 4), self.rng.within(1, 4)),
            };
            let form = if self.rng.once_in(4) { self.refused_form() } else { self.form() };
            let layout = match self.rng.below(4) {
                0 => *self.rng.pick(&LAYOUTS),
                1 => *self.rng.pick(&UNKNOWN),
                _ => Layout(self.any_number()),
            };
            let (len, room) = (self.rng.within(0, 90), (self.rng.within(0, 90), self.rng.within(0, 90)));
            let body = self.rng.bytes(len);
            let sent = Sent { width, height, form, body: &body };
            self.befores.compare_to(comparer, Kind::RandomRefused, Format::Pixels(layout), sent, room)?;
            if self.extent == Extent::Body {
                let Form { rle, alpha, definition, subsampled, .. } = form;
                let sizes = Sizes { width, height, rle, alpha: Some(alpha), definition, subsampled };
                comparer.compare_sizes(Kind::SizesTable, sizes)?;
            }
        }
        Ok(())
    }

    /// Any number: of a byte; one that is small if it is truncated to one byte or two; or any.
    fn any_number(&mut self) -> u32 {
        let low = self.rng.below(9) as u32;
        match self.rng.below(8) {
            0..=2 => u32::from(self.rng.byte()),
            3 | 4 => (self.rng.within(1, 255) as u32) << 8 | low,
            5 => (self.rng.within(1, 65_535) as u32) << 16 | low,
            6 => u32::MAX - low,
            _ => self.rng.word() as u32,
        }
    }

    /// A form with a loss level or a definition that is refused.
    fn refused_form(&mut self) -> Form {
        let level = match self.rng.below(12) {
            0..=5 => *self.rng.pick(&[0, 0, 8, 8, 9, 128, 255]),
            _ => self.any_number().max(8),
        };
        let other = self.any_number().max(2);
        match self.rng.below(3) {
            0 => Form { definition: other, ..self.form() },
            1 => Form { definition: other, level, ..self.form() },
            _ => Form { definition: AYCOCG, level, ..self.form() },
        }
    }
}
