//! Compares the unpacking of one picture.

use crate::check::{answer_text, After, Comparer, Outcome};
use crate::extent::Extent;
use crate::guarded::{Buffer, Side, SIDES};
use crate::input::{Input, View};
use crate::layout::Format;
use crate::picture::{OwnedPicture, Picture, Sizes};
use crate::tally::{Group, Kind, Reference};
use crate::Difference;
use original::Answer;

/// A picture decoder as C declares it: RLE, alpha, definition, loss level, subsampling; body, work area, image; width,
/// height; bytes of the image, or minus the refusal's number.
pub type Decode = unsafe extern "C" fn(
    bool,
    bool,
    u32,
    u32,
    bool,
    *const u8,
    usize,
    *mut u8,
    usize,
    *mut u8,
    usize,
    usize,
    usize,
) -> i64;

/// The same to four-byte pixels, whose layout comes behind the subsampling.
pub type DecodePixels = unsafe extern "C" fn(
    bool,
    bool,
    u32,
    u32,
    bool,
    u32,
    *const u8,
    usize,
    *mut u8,
    usize,
    *mut u8,
    usize,
    usize,
    usize,
) -> i64;

/// The length of the work area: RLE, definition, subsampling, width, height.
pub type WorkSize = unsafe extern "C" fn(bool, u32, bool, usize, usize) -> usize;

/// The same of four-byte pixels: RLE, alpha, definition, subsampling, width, height.
pub type PixelsWorkSize = unsafe extern "C" fn(bool, bool, u32, bool, usize, usize) -> usize;

/// The length of the image: width, height.
pub type ImageSize = unsafe extern "C" fn(usize, usize) -> usize;

/// The functions of a library that unpack pictures.
#[derive(Clone, Copy)]
pub struct Pictures {
    pub decode: Decode,
    pub work_size: WorkSize,
    pub image_size: ImageSize,
    pub decode_pixels: DecodePixels,
    pub pixels_work_size: PixelsWorkSize,
    pub pixels_image_size: ImageSize,
}

impl Pictures {
    /// What the two functions answer that a case is for.
    pub fn sizes(&self, case: &Sizes) -> (usize, usize) {
        let Sizes { width, height, rle, alpha, definition, subsampled } = *case;
        // SAFETY: no pointer is passed.
        unsafe {
            match alpha {
                None => {
                    ((self.work_size)(rle, definition, subsampled, width, height), (self.image_size)(width, height))
                }
                Some(alpha) => (
                    (self.pixels_work_size)(rle, alpha, definition, subsampled, width, height),
                    (self.pixels_image_size)(width, height),
                ),
            }
        }
    }
}

/// The two buffers that a decoder writes.
#[derive(Default)]
struct Written {
    work: Vec<u8>,
    image: Vec<u8>,
}

impl Written {
    fn after(&self) -> After {
        After(vec![("work area", self.work.clone()), ("image", self.image.clone())])
    }
}

/// What they must hold after a call, and what they hold.
#[derive(Default)]
pub(crate) struct Afters {
    wanted: Written,
    got: Written,
    /// The image of IronRDP.
    made: Vec<u8>,
}

impl Afters {
    /// What the two must hold after the last case that was asked.
    pub(crate) fn wanted(&self) -> After {
        self.wanted.after()
    }

    /// The answer to a case with this work area and image that is refused outside the domain, or that IronRDP is asked; `wanted` gets what
    /// the two must hold.
    ///
    /// IronRDP gets the entire work area and may return a shorter one: the library must leave the bytes behind that unchanged. Its image is
    /// what it appends: the library must leave the bytes behind that unchanged too.
    pub(crate) fn ask(
        &mut self,
        (work, image): (&[u8], &[u8]),
        refused_outside: Option<u8>,
        by_ironrdp: impl FnOnce(&mut Vec<u8>, &mut Vec<u8>) -> Answer,
    ) -> Answer {
        self.wanted.work.clear();
        self.wanted.work.extend_from_slice(work);
        self.made.clear();
        let answer = match refused_outside {
            Some(number) => Answer::Refused(number),
            None => by_ironrdp(&mut self.wanted.work, &mut self.made),
        };
        let kept = self.wanted.work.len();
        self.wanted.work.extend_from_slice(work.get(kept..).unwrap_or(&[]));
        self.wanted.image.clear();
        self.wanted.image.extend_from_slice(&self.made);
        self.wanted.image.extend_from_slice(image.get(self.made.len()..).unwrap_or(&[]));
        answer
    }

    /// The image that the library made last.
    pub(crate) fn got_image(&self) -> &[u8] {
        &self.got.image
    }

    /// What differs, if anything, once it is known whether the answers are the same.
    fn fault(&self, same_answer: bool) -> Option<String> {
        if !same_answer {
            Some("the answer".to_owned())
        } else if self.wanted.image != self.got.image {
            Some("the image".to_owned())
        } else if self.wanted.work != self.got.work {
            Some("the work area".to_owned())
        } else {
            None
        }
    }
}

impl Comparer {
    /// Compares a picture and counts it.
    pub fn compare_picture(&mut self, kind: Kind, case: Picture<'_>) -> Outcome {
        self.compare_picture_at(kind, case, &SIDES)
    }

    /// The same with the buffers at these sides of their pages only, where both would take too long.
    pub fn compare_picture_at(&mut self, kind: Kind, case: Picture<'_>, sides: &[Side]) -> Outcome {
        let reference = Reference::ironrdp_if(case.refused_outside().is_none());
        let wanted = self.ask_picture(case);
        self.tally.count_in(Group::of(Extent::Body, case.format), kind, reference, &wanted);
        self.compare_picture_decoder(case, wanted, sides)
    }

    pub(crate) fn check_picture(&mut self, case: &OwnedPicture) -> Outcome {
        let wanted = self.ask_picture(case.view());
        self.compare_picture_decoder(case.view(), wanted, &SIDES)
    }

    /// The answer that is required; `afters.wanted` gets what the buffers must hold.
    pub(crate) fn ask_picture(&mut self, case: Picture<'_>) -> Answer {
        self.afters.ask((case.work, case.image), case.refused_outside(), |work, image| {
            case.by_ironrdp(work, image).expect("a form that IronRDP has")
        })
    }

    fn compare_picture_decoder(&mut self, case: Picture<'_>, wanted: Answer, sides: &[Side]) -> Outcome {
        self.compare_decoder(View::Picture(case), wanted, sides, |comparer, side| comparer.call_decoder(case, side))
    }

    /// Calls a decoder with the buffers at these sides of their pages, and compares its answer with `wanted` and its buffers with
    /// `afters.wanted`.
    pub(crate) fn compare_decoder(
        &mut self,
        case: View<'_>,
        wanted: Answer,
        sides: &[Side],
        call: impl Fn(&mut Comparer, Side) -> (i64, Option<String>),
    ) -> Outcome {
        for &side in sides {
            let (got, harm) = call(self, side);
            if let Some(reason) = harm.or_else(|| self.afters.fault(wanted.number() == Some(got))) {
                return Err(Box::new(Difference {
                    case: case.to_owned(),
                    reason,
                    wanted,
                    wanted_after: self.afters.wanted.after(),
                    side: "rdp6",
                    got: answer_text(got),
                    got_after: self.afters.got.after(),
                }));
            }
        }
        Ok(())
    }

    fn call_decoder(&mut self, case: Picture<'_>, side: Side) -> (i64, Option<String>) {
        let Picture { width, height, form, format, body, work, image } = case;
        let Pictures { decode, decode_pixels, .. } = self.library.pictures;
        let [body_len, work_len, image_len] = [body.len(), work.len(), image.len()];
        let buffers = (Buffer::read("body", body), work, image);
        // SAFETY: all three buffers are valid during the call. That it stays inside them is tested.
        self.call_on_afters(View::Picture(case), side, buffers, |[body, work, image]| unsafe {
            match format {
                Format::Rgb24 => decode(
                    form.rle,
                    form.alpha,
                    form.definition,
                    form.level,
                    form.subsampled,
                    body,
                    body_len,
                    work,
                    work_len,
                    image,
                    image_len,
                    width,
                    height,
                ),
                Format::Pixels(layout) => decode_pixels(
                    form.rle,
                    form.alpha,
                    form.definition,
                    form.level,
                    form.subsampled,
                    layout.0,
                    body,
                    body_len,
                    work,
                    work_len,
                    image,
                    image_len,
                    width,
                    height,
                ),
            }
        })
    }

    /// Calls a function with a source, a work area and an image at this side of their pages; `afters.got` has the last two after it.
    pub(crate) fn call_on_afters(
        &mut self,
        case: View<'_>,
        side: Side,
        (source, work, image): (Buffer<'_>, &[u8], &[u8]),
        function: impl FnOnce([*mut u8; 3]) -> i64,
    ) -> (i64, Option<String>) {
        let got = &mut self.afters.got;
        let work = Buffer::written("work area", work, &mut got.work);
        let image = Buffer::written("image", image, &mut got.image);
        self.memory.call(case, side, [source, work, image], function)
    }

    /// Compares both sizes, and counts the case.
    pub fn compare_sizes(&mut self, kind: Kind, case: Sizes) -> Outcome {
        let group = if case.alpha.is_none() { Group::Bodies } else { Group::Pixels };
        self.tally.count_in(group, kind, Reference::Format, &Answer::Done(case.work()));
        self.check_sizes(&case)
    }

    pub(crate) fn check_sizes(&mut self, case: &Sizes) -> Outcome {
        let (work, image) = self.library.pictures.sizes(case);
        let of_work = ("the size of the work area", case.work(), work);
        let of_image = ("the size of the image", case.image(), image);
        for (name, wanted, got) in [of_work, of_image] {
            if wanted != got {
                return Err(other_size(Input::Sizes(*case), name.to_owned(), wanted, got));
            }
        }
        Ok(())
    }
}

/// The difference of a function that answers a size.
pub(crate) fn other_size(case: Input, reason: String, wanted: usize, got: usize) -> Box<Difference> {
    Box::new(Difference {
        case,
        reason,
        wanted: Answer::Done(wanted),
        wanted_after: After(Vec::new()),
        side: "rdp6",
        got: format!("{got} bytes"),
        got_after: After(Vec::new()),
    })
}
