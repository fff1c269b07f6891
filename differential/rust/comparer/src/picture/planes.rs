//! The planes of pictures, the bodies made of them, and what the work area and the image hold before a call.

use crate::case::MAX_SIDE;
use crate::check::{Comparer, Outcome};
use crate::extent::Extent;
use crate::layout::{Format, BGRA, LAYOUTS};
use crate::picture::{Form, OwnedPicture, Picture};
use crate::planes::{self, Earlier, PlaneKind, PLANE_KINDS};
use crate::rng::Rng;
use crate::stream::header::joined;
use crate::stream::Stream;
use crate::tally::Kind;

/// The planes of a picture in the order of its body.
#[derive(Clone)]
pub struct Planes {
    pub alpha: Option<Vec<u8>>,
    pub colours: [Vec<u8>; 3],
}

impl Planes {
    /// Planes, each of some kind.
    pub fn random(rng: &mut Rng, form: Form, width: usize, height: usize) -> Planes {
        Planes::with_kinds(rng, form, (width, height), &PLANE_KINDS)
    }

    /// Planes, each of one of these kinds.
    pub fn with_kinds(rng: &mut Rng, form: Form, (width, height): (usize, usize), kinds: &[PlaneKind]) -> Planes {
        let (chroma_width, chroma_height) = form.chroma_sides(width, height);
        let mut plane = |width, height| {
            let plane_kind = *rng.pick(kinds);
            planes::samples(rng, plane_kind, width, height)
        };
        Planes {
            alpha: form.alpha.then(|| plane(width, height)),
            colours: [plane(width, height), plane(chroma_width, chroma_height), plane(chroma_width, chroma_height)],
        }
    }

    /// The body that these make.
    pub fn body(&self, form: Form, width: usize, height: usize) -> Vec<u8> {
        self.bodies(form, width, height).concat()
    }

    /// The part of the body that each plane makes, packed by IronRDP if it is RLE.
    pub fn bodies(&self, form: Form, width: usize, height: usize) -> Vec<Vec<u8>> {
        let packed = |(plane, (width, height)): (&[u8], (usize, usize))| match form.rle {
            true => original::pack(plane, width, height).expect("a complete plane with room"),
            false => plane.to_vec(),
        };
        self.with_sides(form, width, height).map(packed).collect()
    }

    fn with_sides(
        &self,
        form: Form,
        width: usize,
        height: usize,
    ) -> impl Iterator<Item = (&[u8], (usize, usize))> + '_ {
        let [first, second, third] = &self.colours;
        let full = self.alpha.iter().chain([first]).map(move |plane| (&plane[..], (width, height)));
        full.chain([second, third].map(|plane| (&plane[..], form.chroma_sides(width, height))))
    }

    /// The planes of a case whose body is complete, and what follows them in the body.
    pub fn of(case: &OwnedPicture) -> Option<(Planes, Vec<u8>)> {
        let (width, height, form) = (case.width, case.height, case.form);
        let sides = 1..=MAX_SIDE;
        if !sides.contains(&width) || !sides.contains(&height) {
            return None;
        }
        let mut rest = &case.body[..];
        let mut next = |(width, height)| {
            let (plane, read) = first_plane(rest, form.rle, width, height)?;
            rest = &rest[read..];
            Some(plane)
        };
        let alpha = if form.alpha { Some(next((width, height))?) } else { None };
        let chroma = form.chroma_sides(width, height);
        let colours = [next((width, height))?, next(chroma)?, next(chroma)?];
        Some((Planes { alpha, colours }, rest.to_vec()))
    }
}

/// The plane that a body begins with, if it is complete, and how many bytes it takes.
fn first_plane(body: &[u8], rle: bool, width: usize, height: usize) -> Option<(Vec<u8>, usize)> {
    let samples = width * height;
    if !rle {
        return Some((body.get(..samples)?.to_vec(), samples));
    }
    let mut plane = vec![0; samples];
    let read = original::unpack(body, &mut plane, width, height).number()?;
    Some((plane, usize::try_from(read).ok()?))
}

/// A picture as it is sent: its sides, its form and its body.
#[derive(Clone, Copy)]
pub struct Sent<'a> {
    pub width: usize,
    pub height: usize,
    pub form: Form,
    pub body: &'a [u8],
}

impl<'a> Sent<'a> {
    /// The same with another body.
    pub fn with_body<'b>(&self, body: &'b [u8]) -> Sent<'b> {
        Sent { width: self.width, height: self.height, form: self.form, body }
    }
}

/// What pictures are unpacked to.
pub enum Formats {
    Rgb24,
    /// Four-byte pixels: one of the layouts after the other, in no order.
    Pixels(Rng),
}

impl Formats {
    pub fn pixels() -> Formats {
        Formats::Pixels(Rng::new(43))
    }

    /// One of them. All that there are need buffers of the same lengths.
    fn any(&self) -> Format {
        match self {
            Formats::Rgb24 => Format::Rgb24,
            Formats::Pixels(_) => Format::Pixels(BGRA),
        }
    }

    fn next(&mut self) -> Format {
        match self {
            Formats::Rgb24 => Format::Rgb24,
            Formats::Pixels(rng) => Format::Pixels(*rng.pick(&LAYOUTS)),
        }
    }
}

/// What work areas and images hold before a call: never one constant, and different from call to call. And whether a picture is passed
/// as a body or as a stream, and what it is unpacked to.
pub struct Befores {
    work: Earlier,
    image: Earlier,
    extent: Extent,
    formats: Formats,
    /// The bits of the next header byte that are ignored, and the next pad byte.
    ignored: u8,
}

impl Befores {
    pub fn new(extent: Extent, formats: Formats) -> Self {
        let mut image = Earlier::new();
        // A step ahead of the other, or both would hold the same.
        image.bytes(1);
        Befores { work: Earlier::new(), image, extent, formats, ignored: 0 }
    }

    /// The lengths that the work area and the image need. The sides are inside the domain.
    pub fn needs(&self, sent: Sent<'_>) -> (usize, usize) {
        let format = self.formats.any();
        (sent.form.work_len(format, sent.width, sent.height), format.bytes() * sent.width * sent.height)
    }

    /// The length that is enough for the work area of every form, and for the image. The sides are inside the domain.
    pub fn most(&self, width: usize, height: usize) -> usize {
        self.formats.any().bytes() * width * height
    }

    /// Compares a picture whose work area and image have these lengths. A form that has no header byte is not a stream's.
    pub fn compare(&mut self, comparer: &mut Comparer, kind: Kind, sent: Sent<'_>, room: (usize, usize)) -> Outcome {
        let format = self.formats.next();
        self.compare_to(comparer, kind, format, sent, room)
    }

    /// The same, unpacked to this.
    pub fn compare_to(
        &mut self,
        comparer: &mut Comparer,
        kind: Kind,
        format: Format,
        sent: Sent<'_>,
        (work, image): (usize, usize),
    ) -> Outcome {
        let Sent { width, height, form, body } = sent;
        if self.extent == Extent::Stream {
            self.ignored = self.ignored.wrapping_add(0x4B);
            return match joined(form, self.ignored, body, self.ignored) {
                Some(stream) => {
                    self.compare_stream_to(comparer, kind, format, ((width, height), &stream), (work, image))
                }
                None => Ok(()),
            };
        }
        let (work, image) = (self.work.bytes(work), self.image.bytes(image));
        comparer.compare_picture(kind, Picture { width, height, form, format, body, work, image })
    }

    /// Compares a stream whose work area and image have these lengths.
    pub fn compare_stream(
        &mut self,
        comparer: &mut Comparer,
        kind: Kind,
        (width, height): (usize, usize),
        stream: &[u8],
        room: (usize, usize),
    ) -> Outcome {
        let format = self.formats.next();
        self.compare_stream_to(comparer, kind, format, ((width, height), stream), room)
    }

    /// The same, unpacked to this.
    pub fn compare_stream_to(
        &mut self,
        comparer: &mut Comparer,
        kind: Kind,
        format: Format,
        ((width, height), stream): ((usize, usize), &[u8]),
        (work, image): (usize, usize),
    ) -> Outcome {
        let (work, image) = (self.work.bytes(work), self.image.bytes(image));
        comparer.compare_stream(kind, Stream { width, height, format, stream, work, image })
    }

    /// The same with slices that have what they need, or more of each by these.
    pub fn compare_longer(
        &mut self,
        comparer: &mut Comparer,
        kind: Kind,
        sent: Sent<'_>,
        (work, image): (usize, usize),
    ) -> Outcome {
        let needs = self.needs(sent);
        self.compare(comparer, kind, sent, (needs.0 + work, needs.1 + image))
    }
}
