//! The part that is the same in every run: refusals, all forms at small sides, truncated and damaged bodies, all colours, the longest
//! sides.

use crate::case::MAX_SIDE;
use crate::check::{Comparer, Outcome};
use crate::extent::Extent;
use crate::guarded::SIDES as BOTH_SIDES;
use crate::layout::{Format, LAYOUTS};
use crate::packing::places::{ARRAY_WIDTHS, LONGEST};
use crate::picture::planes::{Befores, Formats, Sent};
use crate::picture::refused::{few_forms, FLAGS};
use crate::picture::{colours, examples, refused, sizes, Form, Picture, Planes};
use crate::planes::PlaneKind;
use crate::rng::Rng;
use crate::tally::Kind;

/// Bodies up to this length have every byte changed to every other value.
const ALL_VALUES: usize = 24;

/// Everything, the quick and the small first.
pub fn run(comparer: &mut Comparer) -> Outcome {
    run_quick(comparer)?;
    colours::run(comparer)?;
    largest(comparer)
}

/// The same pictures unpacked to four-byte pixels, and what is about these alone.
pub fn run_pixels(comparer: &mut Comparer) -> Outcome {
    let befores = &mut Befores::new(Extent::Body, Formats::pixels());
    examples::run_pixels(comparer)?;
    sizes::run_pixels(comparer)?;
    run_of(comparer, befores)?;
    refused::run_layouts(comparer, befores)?;
    array_widths(comparer, befores)?;
    colours::run_pixels(comparer)
}

/// All but the largest pictures.
pub fn run_quick(comparer: &mut Comparer) -> Outcome {
    let befores = &mut Befores::new(Extent::Body, Formats::Rgb24);
    examples::run(comparer)?;
    sizes::run(comparer)?;
    run_of(comparer, befores)
}

/// The pictures that are compared as bodies and as streams.
pub fn run_of(comparer: &mut Comparer, befores: &mut Befores) -> Outcome {
    refused::run(comparer, befores)?;
    small_sides(comparer, befores)?;
    all_widths(comparer, befores)?;
    truncated_and_damaged(comparer, befores)?;
    long_sides(comparer, befores)
}

/// All forms inside the domain.
fn all_forms() -> impl Iterator<Item = Form> {
    FLAGS.into_iter().flat_map(|(rle, alpha)| {
        let levels = (1..=7).flat_map(move |level| [false, true].map(|sub| Form::aycocg(rle, alpha, level, sub)));
        [Form::argb(rle, alpha)].into_iter().chain(levels)
    })
}

/// All sides of 1 to 9 in all forms.
fn small_sides(comparer: &mut Comparer, befores: &mut Befores) -> Outcome {
    let rng = &mut Rng::new(26);
    for (width, height) in (1..=9).flat_map(|width| (1..=9).map(move |height| (width, height))) {
        for form in all_forms() {
            let body = Planes::random(rng, form, width, height).body(form, width, height);
            let sent = Sent { width, height, form, body: &body };
            befores.compare_longer(comparer, Kind::PictureSides, sent, (0, 0))?;
            befores.compare_longer(comparer, Kind::PictureSides, sent, (rng.below(9), rng.below(9)))?;
        }
    }
    Ok(())
}

/// All widths of 10 to 100: whatever is done so many pixels at a time has a rest to do.
fn all_widths(comparer: &mut Comparer, befores: &mut Befores) -> Outcome {
    let rng = &mut Rng::new(30);
    for (width, height) in (10..=100).flat_map(|width| (1..=3).map(move |height| (width, height))) {
        for form in few_forms() {
            let body = Planes::random(rng, form, width, height).body(form, width, height);
            let sent = Sent { width, height, form, body: &body };
            befores.compare_longer(comparer, Kind::PictureWidths, sent, (rng.below(2), rng.below(2)))?;
        }
    }
    Ok(())
}

/// Rows of about 256 pixels, which have arrays of their own in the code, and the longest ones, in every form and every layout; odd heights
/// have a last row without a second one. Of each also a body that is refused in its last plane, and an image or a work area that is one byte
/// short.
pub fn array_widths(comparer: &mut Comparer, befores: &mut Befores) -> Outcome {
    let rng = &mut Rng::new(44);
    for (width, form) in
        ARRAY_WIDTHS.into_iter().chain(LONGEST).flat_map(|width| few_forms().map(move |form| (width, form)))
    {
        for (height, layout) in (1..=3).flat_map(|height| LAYOUTS.map(|layout| (height, layout))) {
            if width > 1000 && (height + width) % 3 != 0 {
                continue;
            }
            let body = Planes::random(rng, form, width, height).body(form, width, height);
            let sent = Sent { width, height, form, body: &body };
            let (work, image) = befores.needs(sent);
            let (format, kind) = (Format::Pixels(layout), Kind::PictureWidths);
            befores.compare_to(comparer, kind, format, sent, (work, image))?;
            befores.compare_to(comparer, kind, format, sent.with_body(&body[..body.len() - 1]), (work + 1, image))?;
            befores.compare_to(comparer, kind, format, sent, (work, image - 1))?;
            befores.compare_to(comparer, kind, format, sent, (work.saturating_sub(1), image))?;
        }
    }
    Ok(())
}

/// Small RLE pictures: every prefix, every byte changed.
fn truncated_and_damaged(comparer: &mut Comparer, befores: &mut Befores) -> Outcome {
    let rng = &mut Rng::new(27);
    for (width, height) in [(1, 1), (2, 1), (1, 2), (2, 2), (3, 2), (5, 3), (9, 4), (17, 2), (48, 1)] {
        for form in few_forms().filter(|form| form.rle) {
            for plane_kind in [PlaneKind::Noise, PlaneKind::FewValues, PlaneKind::Runs] {
                let body = Planes::with_kinds(rng, form, (width, height), &[plane_kind]).body(form, width, height);
                let sent = Sent { width, height, form, body: &body };
                every_prefix(comparer, befores, sent)?;
                every_damage(comparer, befores, rng, sent)?;
            }
        }
    }
    Ok(())
}

fn every_prefix(comparer: &mut Comparer, befores: &mut Befores, sent: Sent<'_>) -> Outcome {
    for end in 0..=sent.body.len() {
        let prefix = sent.with_body(&sent.body[..end]);
        befores.compare_longer(comparer, Kind::PictureTruncated, prefix, (end % 3, end % 2))?;
    }
    Ok(())
}

/// One byte at a time changed to all other values, or to some.
fn every_damage(comparer: &mut Comparer, befores: &mut Befores, rng: &mut Rng, sent: Sent<'_>) -> Outcome {
    let mut body = sent.body.to_vec();
    for at in 0..body.len() {
        let right = body[at];
        let values: Vec<u8> = if body.len() <= ALL_VALUES {
            (0..=255).collect()
        } else {
            vec![0, right ^ 1, right ^ 0x10, right.wrapping_add(1), right.wrapping_sub(1), 0xFF, rng.byte(), rng.byte()]
        };
        for value in values {
            body[at] = value;
            let damaged = sent.with_body(&body);
            befores.compare_longer(comparer, Kind::PictureDamaged, damaged, (at % 2, at % 3))?;
        }
        body[at] = right;
    }
    Ok(())
}

/// Rows and columns of 8,191 and 8,192: complete, the body one byte short, and each buffer one byte short.
fn long_sides(comparer: &mut Comparer, befores: &mut Befores) -> Outcome {
    let rng = &mut Rng::new(28);
    for side in [MAX_SIDE - 1, MAX_SIDE] {
        for (width, height) in [(side, 1), (1, side), (side, 3), (2, side)] {
            for form in few_forms() {
                let body = Planes::random(rng, form, width, height).body(form, width, height);
                let sent = Sent { width, height, form, body: &body };
                let (work, image) = befores.needs(sent);
                let kind = Kind::PictureLongSides;
                befores.compare(comparer, kind, sent, (work, image + 1))?;
                befores.compare(comparer, kind, sent.with_body(&body[..body.len() - 1]), (work + 1, image))?;
                befores.compare(comparer, kind, sent, (work, image - 1))?;
                befores.compare(comparer, kind, sent, (work.saturating_sub(1), image))?;
            }
        }
    }
    Ok(())
}

/// The largest pictures: a raw one with alpha and smaller chroma planes, a flat one in RLE. The slices lie at one
/// side of their pages each time.
fn largest(comparer: &mut Comparer) -> Outcome {
    let (width, height) = (MAX_SIDE, MAX_SIDE);
    let noise = Rng::new(29).bytes(65_537);
    let long = |len: usize| {
        let mut bytes = noise.repeat(len.div_ceil(noise.len()));
        bytes.truncate(len);
        bytes
    };
    let image = long(3 * width * height);
    let form = Form::aycocg(false, true, 3, true);
    let body = long(form.min_body(width, height));
    let format = Format::Rgb24;
    let raw = Picture { width, height, form, format, body: &body, work: &[], image: &image };
    comparer.compare_picture_at(Kind::PictureLargest, raw, &BOTH_SIDES[..1])?;
    let form = Form::argb(true, true);
    let body = [1, 2, 3, 4].map(|value| flat_plane(value, width, height)).concat();
    let work = long(form.work_len(format, width, height));
    let flat = Picture { width, height, form, format, body: &body, work: &work, image: &image };
    comparer.compare_picture_at(Kind::PictureLargest, flat, &BOTH_SIDES[1..])
}

/// The packing of a plane of one value. All rows under the first have the same bytes.
fn flat_plane(value: u8, width: usize, height: usize) -> Vec<u8> {
    let [first, two] =
        [1, 2].map(|rows| original::pack(&vec![value; rows * width], width, rows).expect("complete rows with room"));
    [&first[..], &two[first.len()..].repeat(height - 1)].concat()
}
