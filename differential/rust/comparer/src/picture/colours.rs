//! Every Y, Co and Cg at every loss level: raw pictures of 4,096 x 4,096, one pixel for each.

use crate::check::{Comparer, Outcome};
use crate::guarded::{Side, SIDES as BOTH_SIDES};
use crate::layout::{Format, LAYOUTS};
use crate::picture::{Form, Picture};
use crate::rng::Rng;
use crate::tally::Kind;

/// A square of pixels that have every Y and Co, with every Cg or with some.
struct Colours {
    side: usize,
    /// An alpha plane and the three colour planes.
    body: Vec<u8>,
    work: Vec<u8>,
    image: Vec<u8>,
}

impl Colours {
    /// Pixel i has Y and Co in the two low bytes of i, and so many times what is above them as Cg.
    fn new(side: usize, times: usize) -> Self {
        let pixels = side * side;
        let mut body = Vec::with_capacity(4 * pixels);
        body.extend((0..pixels).map(|at| (at ^ at >> 11) as u8));
        body.extend((0..pixels).map(|at| at as u8));
        body.extend((0..pixels).map(|at| (at >> 8) as u8));
        body.extend((0..pixels).map(|at| ((at >> 16) * times) as u8));
        let rng = &mut Rng::new(25);
        let mut image = rng.bytes(4099).repeat(4 * pixels / 4099 + 1);
        image.truncate(4 * pixels + 1);
        Colours { side, body, work: rng.bytes(5), image }
    }

    fn compare(&self, comparer: &mut Comparer, format: Format, (alpha, level): (bool, u32), side: Side) -> Outcome {
        let form = Form::aycocg(false, alpha, level, false);
        let body = if alpha { &self.body[..] } else { &self.body[self.side * self.side..] };
        let (width, height) = (self.side, self.side);
        let image = &self.image[..format.bytes() * width * height + 1];
        let case = Picture { width, height, form, format, body, work: &self.work, image };
        comparer.compare_picture_at(Kind::PictureColours, case, &[side])
    }
}

/// Each level with all colours, with alpha and without by turns, and the other way round with every 17th Cg. The buffers lie at
/// one side of their pages each time.
pub fn run(comparer: &mut Comparer) -> Outcome {
    let (all, some) = (Colours::new(4096, 1), Colours::new(1024, 17));
    for level in 1..=7 {
        let alpha = level % 2 == 1;
        let side = BOTH_SIDES[level as usize / 2 % 2];
        some.compare(comparer, Format::Rgb24, (!alpha, level), side)?;
        all.compare(comparer, Format::Rgb24, (alpha, level), side)?;
    }
    Ok(())
}

/// The same unpacked to four-byte pixels, whose loop has another code: each level with every Y and Co, and all colours at one of them for each
/// layout.
pub fn run_pixels(comparer: &mut Comparer) -> Outcome {
    let some = Colours::new(1024, 17);
    for (level, alpha) in (1..=7).flat_map(|level| [false, true].map(|alpha| (level, alpha))) {
        let layout = LAYOUTS[(level as usize + usize::from(alpha)) % 4];
        let side = BOTH_SIDES[level as usize / 2 % 2];
        some.compare(comparer, Format::Pixels(layout), (alpha, level), side)?;
    }
    let all = Colours::new(4096, 1);
    for (at, layout) in LAYOUTS.into_iter().enumerate() {
        let level = 2 * at as u32 + 1;
        all.compare(comparer, Format::Pixels(layout), (at % 2 == 0, level), BOTH_SIDES[at % 2])?;
    }
    Ok(())
}
