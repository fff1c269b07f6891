//! Which pictures are stored: small ones of all forms, complete, truncated and damaged.

use crate::pictures::Pictures;
use crate::BEFORE;
use comparer::picture::examples::{EXAMPLES, PIXELS_EXAMPLES};
use comparer::picture::refused::{few_forms, FLAGS};
use comparer::picture::{Form, OwnedPicture, Planes};
use comparer::planes::{self, segment_starts, Making, PlaneKind, PLANE_KINDS, WIDTHS};
use comparer::Rng;

/// All parts, each with random numbers of its own, so that a change in one leaves the others as they are.
pub fn keep_all(stored: &mut Pictures) {
    examples(stored);
    every_form(stored, &mut Rng::new(1));
    small_sides(stored, &mut Rng::new(2));
    boundary_colours(stored, &mut Rng::new(3));
    body_lengths(stored, &mut Rng::new(4));
    truncated_bodies(stored, &mut Rng::new(5));
    damaged_bodies(stored, &mut Rng::new(6));
    made_bodies(stored, &mut Rng::new(7));
    wider(stored, &mut Rng::new(8));
    refused_planes(stored, &mut Rng::new(9));
}

/// The same of four-byte pixels, fewer: their planes are unpacked as those of the other file.
pub fn keep_pixels(stored: &mut Pictures) {
    examples_of(stored, PIXELS_EXAMPLES.iter().map(|example| example.0));
    every_layout(stored, &mut Rng::new(21));
    every_form_once(stored, &mut Rng::new(22));
    body_lengths_of(stored, &mut Rng::new(23), &[(3, 3)]);
    truncated_of(stored, &mut Rng::new(24), &[(2, 2)]);
    refused_planes(stored, &mut Rng::new(25));
    array_widths(stored);
}

/// Every form that is much like no other, in every layout.
fn every_layout(stored: &mut Pictures, rng: &mut Rng) {
    for form in forms(rng) {
        let body = Planes::with_kinds(rng, form, (3, 2), &[PlaneKind::Noise]).body(form, 3, 2);
        stored.keep_in_all(form, (3, 2), &body);
    }
}

/// Every flag, definition, level and subsampling, at sides that change from one to the next.
fn every_form_once(stored: &mut Pictures, rng: &mut Rng) {
    let sides = [(1, 1), (2, 3), (3, 3), (4, 1), (1, 5), (5, 4)];
    for (at, (rle, alpha)) in FLAGS.into_iter().enumerate() {
        for level in 1..=7 {
            for subsampled in [false, true] {
                let form = Form::aycocg(rle, alpha, level, subsampled);
                let (width, height) = sides[(at + level as usize + usize::from(subsampled) * 3) % sides.len()];
                let body = Planes::random(rng, form, width, height).body(form, width, height);
                stored.keep_somehow(form, (width, height), &body);
            }
        }
    }
}

/// Rows of about 256 pixels and longer ones, all of whose bytes are `FF`, alpha too, but for the last sample, so that lines are short.
fn array_widths(stored: &mut Pictures) {
    for (width, form) in [255, 256, 257, 4096].into_iter().flat_map(|width| few_forms().map(move |form| (width, form)))
    {
        let height = if width < 300 { 2 + width % 2 } else { 1 };
        let chroma = form.chroma_sides(width, height);
        let plane = |(width, height): (usize, usize), value: u8, last: u8| {
            let mut plane = vec![value; width * height];
            plane[width * height - 1] = last;
            plane
        };
        let grey = if form.definition == 0 { 255 } else { 0 };
        let colours = [plane((width, height), 255, 40), plane(chroma, grey, 5), plane(chroma, grey, 250)];
        let planes = Planes { alpha: form.alpha.then(|| plane((width, height), 255, 77)), colours };
        stored.keep_somehow(form, (width, height), &planes.body(form, width, height));
    }
}

/// The examples of FORMAT 10 and the like, as far as they are inside the domain, with buffers that hold `EE`.
fn examples(stored: &mut Pictures) {
    examples_of(stored, EXAMPLES.iter().map(|example| example.0));
}

fn examples_of(stored: &mut Pictures, texts: impl Iterator<Item = &'static str>) {
    let cases = texts.map(|text| OwnedPicture::parse(text).expect("the table's own text"));
    for mut case in cases.filter(|case| case.view().refused_outside().is_none()) {
        case.work.fill(BEFORE);
        case.image.fill(BEFORE);
        stored.keep_case(&case);
    }
}

fn random_level(rng: &mut Rng) -> u32 {
    rng.within(1, 7) as u32
}

/// The forms of one picture, the level of AYCoCg chosen. ARGB also has a level and subsampling, which must have no effect.
fn forms(rng: &mut Rng) -> Vec<Form> {
    let mut forms: Vec<Form> = few_forms().collect();
    for form in &mut forms {
        form.level = random_level(rng);
        form.subsampled |= form.definition == 0 && rng.once_in(2);
    }
    forms
}

/// Every flag, definition, level and subsampling.
fn every_form(stored: &mut Pictures, rng: &mut Rng) {
    for (rle, alpha) in FLAGS {
        let levels = (1..=7).flat_map(|level| [false, true].map(|sub| Form::aycocg(rle, alpha, level, sub)));
        for form in levels.chain([Form::argb(rle, alpha)]) {
            for (width, height) in [(1, 1), (2, 2), (3, 3), (4, 1), (1, 5), (5, 4)] {
                let body = Planes::random(rng, form, width, height).body(form, width, height);
                stored.keep_somehow(form, (width, height), &body);
            }
        }
    }
}

/// All sides of 1 to 6.
fn small_sides(stored: &mut Pictures, rng: &mut Rng) {
    for (width, height) in (1..=6).flat_map(|width| (1..=6).map(move |height| (width, height))) {
        for form in forms(rng) {
            let body = Planes::random(rng, form, width, height).body(form, width, height);
            stored.keep_somehow(form, (width, height), &body);
        }
    }
}

/// Raw rows of samples around which the colour rule changes.
fn boundary_colours(stored: &mut Pictures, rng: &mut Rng) {
    const SAMPLES: [u8; 16] = [0, 1, 2, 31, 32, 63, 64, 65, 127, 128, 129, 191, 192, 193, 254, 255];
    for level in 1..=7 {
        for alpha in [false, true] {
            for _ in 0..8 {
                let form = Form::aycocg(false, alpha, level, false);
                let body: Vec<u8> = (0..form.min_body(16, 1)).map(|_| *rng.pick(&SAMPLES)).collect();
                stored.keep_somehow(form, (16, 1), &body);
            }
        }
    }
}

/// Bodies around their minimum size and around their end, and with bytes following.
fn body_lengths(stored: &mut Pictures, rng: &mut Rng) {
    body_lengths_of(stored, rng, &[(1, 1), (3, 2), (2, 5), (48, 1)]);
}

fn body_lengths_of(stored: &mut Pictures, rng: &mut Rng, sides: &[(usize, usize)]) {
    for &(width, height) in sides {
        for form in forms(rng) {
            let mut body = Planes::with_kinds(rng, form, (width, height), &[PlaneKind::Runs]).body(form, width, height);
            let (min, complete) = (form.min_body(width, height), body.len());
            body.extend(rng.bytes(9));
            for end in [0, min - 1, min, complete - 1, complete, complete + 1, complete + 9] {
                stored.keep_somehow(form, (width, height), &body[..end]);
            }
        }
    }
}

/// Every prefix of some RLE bodies.
fn truncated_bodies(stored: &mut Pictures, rng: &mut Rng) {
    truncated_of(stored, rng, &[(1, 1), (2, 2), (3, 2), (5, 1), (17, 1)]);
}

fn truncated_of(stored: &mut Pictures, rng: &mut Rng, sides: &[(usize, usize)]) {
    for &(width, height) in sides {
        for form in forms(rng).into_iter().filter(|form| form.rle) {
            let plane_kind = *rng.pick(&[PlaneKind::FewValues, PlaneKind::Noise]);
            let body = Planes::with_kinds(rng, form, (width, height), &[plane_kind]).body(form, width, height);
            for end in 0..=body.len() {
                stored.keep_somehow(form, (width, height), &body[..end]);
            }
        }
    }
}

/// RLE bodies with one to three bytes changed.
fn damaged_bodies(stored: &mut Pictures, rng: &mut Rng) {
    for _ in 0..60 {
        for form in forms(rng).into_iter().filter(|form| form.rle) {
            let (width, height) = (rng.within(1, 9), rng.within(1, 4));
            let mut body = Planes::random(rng, form, width, height).body(form, width, height);
            for _ in 0..rng.within(1, 3) {
                let at = rng.below(body.len());
                body[at] = *rng.pick(&[0, 0x10, 0x20, 0x03, body[at] ^ 1, body[at].wrapping_add(16), 0xFF]);
            }
            stored.keep_somehow(form, (width, height), &body);
        }
    }
}

/// RLE bodies that no encoder here writes.
fn made_bodies(stored: &mut Pictures, rng: &mut Rng) {
    for at in 0..25 {
        for form in forms(rng).into_iter().filter(|form| form.rle) {
            let (width, height) = (rng.within(1, 12), rng.within(1, 4));
            let making = Making { opening_runs: at % 2 == 0, wrong_once_in: if at % 3 == 0 { 20 } else { usize::MAX } };
            let (full, chroma) = ((width, height), form.chroma_sides(width, height));
            let planes = [full, full, chroma, chroma].into_iter().skip(usize::from(!form.alpha));
            let body: Vec<u8> = planes.flat_map(|sides| planes::made_body(rng, making, sides.0, sides.1)).collect();
            stored.keep_somehow(form, (width, height), &body);
        }
    }
}

/// Widths around which a segment's counts change, of kinds that take few characters.
fn wider(stored: &mut Pictures, rng: &mut Rng) {
    for width in WIDTHS {
        for form in forms(rng) {
            let height = rng.within(1, 2);
            let kinds = if width < 20 { &PLANE_KINDS[..] } else { &[PlaneKind::Runs, PlaneKind::FlatPage] };
            let body = Planes::with_kinds(rng, form, (width, height), kinds).body(form, width, height);
            stored.keep_somehow(form, (width, height), &body);
        }
    }
}

/// One plane at a time refused: by control byte 0, by a segment that overruns its row, at its start and at its last row's.
fn refused_planes(stored: &mut Pictures, rng: &mut Rng) {
    let (width, height) = (4, 2);
    for form in forms(rng).into_iter().filter(|form| form.rle) {
        let bodies = Planes::with_kinds(rng, form, (width, height), &[PlaneKind::Noise]).bodies(form, width, height);
        for plane in 0..bodies.len() {
            let last_row = segment_starts(&bodies[plane]).pop().unwrap_or(0);
            for (at, control) in [(0, 0x00), (0, 0x0F), (last_row, 0x00), (last_row, 0xF2)] {
                let mut wrong = bodies.clone();
                wrong[plane][at] = control;
                stored.keep_somehow(form, (width, height), &wrong.concat());
            }
        }
    }
}
