//! Asks IronRDP for pictures and keeps its answers; for four-byte pixels its three bytes of each pixel and its alpha plane.

use crate::{picture_sample, Lines, BEFORE};
use comparer::bytes;
use comparer::layout::LAYOUTS;
use comparer::picture::{Form, OwnedPicture};
use comparer::{Format, Layout, Rng};
use original::Answer;

/// Longer lines are left out.
const LONGEST_LINE: usize = 1000;

/// Cases of pictures.
pub struct Pictures {
    lines: Lines,
    rng: Rng,
    four_bytes: bool,
}

/// IronRDP's answer as a number, and what the work area and the image hold then.
pub struct Asked {
    pub number: i64,
    pub work: Vec<u8>,
    pub image: Vec<u8>,
}

impl Asked {
    /// Asks IronRDP. Bytes of the work area beyond the planes, which IronRDP would drop, are those that were there; so are bytes of
    /// the image beyond what it makes.
    pub fn new((work, image): (&[u8], &[u8]), by_ironrdp: impl FnOnce(&mut Vec<u8>, &mut Vec<u8>) -> Answer) -> Asked {
        assert!(work.iter().chain(image).all(|&byte| byte == BEFORE), "slices that hold something else");
        let (mut work_after, mut image_after) = (work.to_vec(), Vec::new());
        let answer = by_ironrdp(&mut work_after, &mut image_after);
        let Some(number) = answer.number() else {
            panic!("IronRDP answers {answer} inside the domain");
        };
        work_after.extend_from_slice(&work[work_after.len()..]);
        image_after.extend_from_slice(&image[image_after.len()..]);
        Asked { number, work: work_after, image: image_after }
    }

    /// The lengths of the two buffers as a line has them.
    pub fn rooms(&self) -> String {
        format!("{} {}", self.work.len(), self.image.len())
    }
}

/// Adds a line, unless it is too long.
pub fn add(lines: &mut Lines, line: String) {
    if line.len() <= LONGEST_LINE {
        lines.add(line);
    }
}

/// The lines of all cases.
pub fn lines() -> Lines {
    let mut stored = Pictures { lines: Lines::default(), rng: Rng::new(9), four_bytes: false };
    picture_sample::keep_all(&mut stored);
    stored.lines
}

/// The same of four-byte pixels.
pub fn pixels_lines() -> Lines {
    let mut stored = Pictures { lines: Lines::default(), rng: Rng::new(11), four_bytes: true };
    picture_sample::keep_pixels(&mut stored);
    stored.lines
}

/// A field of a line for the layout of four-byte pixels, with a space in front.
pub fn layout_text(format: Format) -> String {
    match format {
        Format::Rgb24 => String::new(),
        Format::Pixels(layout) => format!(" {}", layout.0),
    }
}

fn flag(set: bool) -> u8 {
    u8::from(set)
}

impl Pictures {
    /// A work area and an image as long as needed, or longer by these.
    pub fn keep(
        &mut self,
        (form, format): (Form, Format),
        (width, height): (usize, usize),
        body: &[u8],
        (work, image): (usize, usize),
    ) {
        let work = vec![BEFORE; form.work_len(format, width, height) + work];
        let image = vec![BEFORE; format.bytes() * width * height + image];
        self.keep_case(&OwnedPicture { width, height, form, format, body: body.to_vec(), work, image });
    }

    /// In each layout, with no byte to spare.
    pub fn keep_in_all(&mut self, form: Form, sides: (usize, usize), body: &[u8]) {
        for layout in LAYOUTS {
            self.keep((form, Format::Pixels(layout)), sides, body, (0, 0));
        }
    }

    /// A layout, chosen.
    fn format(&mut self) -> Format {
        if self.four_bytes {
            Format::Pixels(Layout(self.rng.below(4) as u32))
        } else {
            Format::Rgb24
        }
    }

    /// The same, the lengths and the layout chosen.
    pub fn keep_somehow(&mut self, form: Form, sides: (usize, usize), body: &[u8]) {
        let more = [0; 2].map(|_| *self.rng.pick(&[0, 0, 0, 1, 2, 5]));
        let format = self.format();
        self.keep((form, format), sides, body, (more[0], more[1]));
    }

    /// Asks IronRDP and keeps its answer.
    pub fn keep_case(&mut self, case: &OwnedPicture) {
        assert_eq!(case.view().refused_outside(), None, "a case outside the domain");
        let asked = Asked::new((&case.work, &case.image), |work, image| {
            case.view().by_ironrdp(work, image).expect("a form that IronRDP has")
        });
        let Form { rle, alpha, definition, level, subsampled } = case.form;
        let flags = format!("{} {} {definition} {level} {}", flag(rle), flag(alpha), flag(subsampled));
        let bytes = [&case.body, &asked.work, &asked.image].map(|some| bytes::text(some)).join(" ");
        let (layout, rooms, number) = (layout_text(case.format), asked.rooms(), asked.number);
        add(&mut self.lines, format!("{} {} {flags}{layout} {rooms} {number} {bytes}\n", case.width, case.height));
    }
}
