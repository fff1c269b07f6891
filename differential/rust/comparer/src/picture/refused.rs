//! The part of the fixed cases that is about refusals before anything is read: 1 to 6, their limits and their order.

use crate::case::{BOUNDARY_SIDES, MAX_SIDE};
use crate::check::{Comparer, Outcome};
use crate::layout::{Format, Layout, LAYOUTS, UNKNOWN};
use crate::picture::case::{ARGB, AYCOCG};
use crate::picture::planes::{Befores, Sent};
use crate::picture::{Form, Planes};
use crate::rng::Rng;
use crate::tally::Kind;

pub fn run(comparer: &mut Comparer, befores: &mut Befores) -> Outcome {
    table_of_sides(comparer, befores)?;
    all_levels(comparer, befores)?;
    all_definitions(comparer, befores)?;
    several_at_once(comparer, befores)?;
    lengths(comparer, befores)
}

/// Levels that do not fit a byte or two, some of which would be 1 to 7 if they were truncated, and the largest byte.
const WIDE_LEVELS: [u32; 8] = [255, 256, 257, 263, 512 + 3, 65_537, (1 << 31) + 1, u32::MAX];

/// Unknown definitions: the lowest, and those that do not fit a byte or two, some of which would be ARGB or AYCoCg if they were
/// truncated.
pub const WIDE_DEFINITIONS: [u32; 6] = [2, 255, 256, 257, 65_536, u32::MAX];

/// RLE or raw, alpha or none.
pub const FLAGS: [(bool, bool); 4] = [(false, false), (false, true), (true, false), (true, true)];

/// ARGB, full and subsampled AYCoCg, each with all flags.
pub fn few_forms() -> impl Iterator<Item = Form> {
    FLAGS.into_iter().flat_map(|(rle, alpha)| {
        [Form::argb(rle, alpha), Form::aycocg(rle, alpha, 1, false), Form::aycocg(rle, alpha, 3, true)]
    })
}

/// Sides of which at least one is refused, or that need more than any buffer has: also those whose product does not fit a word,
/// or wraps to a small number.
fn table_of_sides(comparer: &mut Comparer, befores: &mut Befores) -> Outcome {
    const BODIES: [&[u8]; 4] = [&[], &[0; 8], &[0x10, 5, 0x10, 6, 0x10, 7, 0x10, 8], &[0xF2; 600]];
    for (width, height) in BOUNDARY_SIDES.into_iter().flat_map(|width| BOUNDARY_SIDES.map(|height| (width, height))) {
        for form in few_forms().chain([Form::aycocg(true, true, 0, true), Form::aycocg(false, true, 8, false)]) {
            for body in BODIES {
                for room in [(0, 0), (9, 9), (0, 64), (64, 0), (5000, 5000)] {
                    befores.compare(comparer, Kind::PictureTable, Sent { width, height, form, body }, room)?;
                }
            }
        }
    }
    Ok(())
}

/// The body as it is, one byte short of its minimum size, empty, and with a first control byte of 0; each in buffers that are
/// long enough and that are not.
fn with_faults(comparer: &mut Comparer, befores: &mut Befores, kind: Kind, sent: Sent<'_>) -> Outcome {
    let damaged = [&[0], &sent.body[1..]].concat();
    let short = sent.form.min_body(sent.width, sent.height) - 1;
    for body in [sent.body, &sent.body[..short], &[], &damaged] {
        let sent = sent.with_body(body);
        befores.compare_longer(comparer, kind, sent, (0, 0))?;
        befores.compare(comparer, kind, sent, (0, 0))?;
    }
    Ok(())
}

/// All loss levels of a byte and wider ones. With AYCoCg all but 1 to 7 are refused, with ARGB none is.
fn all_levels(comparer: &mut Comparer, befores: &mut Befores) -> Outcome {
    let rng = &mut Rng::new(21);
    let (width, height) = (3, 2);
    for level in (0..255).chain(WIDE_LEVELS) {
        for (rle, alpha) in FLAGS {
            for (definition, subsampled) in [(AYCOCG, false), (AYCOCG, true), (ARGB, false), (ARGB, true)] {
                let form = Form { rle, alpha, definition, level, subsampled };
                let body = Planes::random(rng, form, width, height).body(form, width, height);
                let sent = Sent { width, height, form, body: &body };
                with_faults(comparer, befores, Kind::PictureLevels, sent)?;
            }
        }
    }
    Ok(())
}

/// All unknown definitions of a byte and wider ones, with levels on either side of each limit.
fn all_definitions(comparer: &mut Comparer, befores: &mut Befores) -> Outcome {
    let rng = &mut Rng::new(22);
    let (width, height) = (2, 3);
    for definition in (3..255).chain(WIDE_DEFINITIONS) {
        for level in [0, 1, 7, 8, 257] {
            for (rle, alpha) in FLAGS {
                let form = Form { rle, alpha, definition, level, subsampled: rng.once_in(2) };
                let body = Planes::random(rng, form, width, height).body(form, width, height);
                let sent = Sent { width, height, form, body: &body };
                with_faults(comparer, befores, Kind::PictureLevels, sent)?;
            }
        }
    }
    Ok(())
}

/// Sides, level, body, work area and image each right or wrong, in all combinations.
fn several_at_once(comparer: &mut Comparer, befores: &mut Befores) -> Outcome {
    let rng = &mut Rng::new(23);
    for level in [0, 1, 7, 8, 255, 257] {
        for (rle, alpha) in FLAGS {
            for subsampled in [false, true] {
                let form = Form::aycocg(rle, alpha, level, subsampled);
                let body = Planes::random(rng, form, 2, 3).body(form, 2, 3);
                in_all_sides(comparer, befores, form, &body)?;
            }
        }
    }
    for (rle, alpha) in FLAGS {
        let form = Form::argb(rle, alpha);
        let body = Planes::random(rng, form, 2, 3).body(form, 2, 3);
        in_all_sides(comparer, befores, form, &body)?;
    }
    Ok(())
}

/// A body of a picture of 2 x 3, right or short, with these sides and with wrong ones, in buffers right or short.
fn in_all_sides(comparer: &mut Comparer, befores: &mut Befores, form: Form, body: &[u8]) -> Outcome {
    let (work, image) = befores.needs(Sent { width: 2, height: 3, form, body });
    let short = form.min_body(2, 3) - 1;
    for width in [0, 2, MAX_SIDE + 1] {
        for height in [0, 3, MAX_SIDE + 1] {
            for body in [body, &body[..short]] {
                for room in [
                    (work, image),
                    (work.saturating_sub(1), image),
                    (work, image - 1),
                    (work.saturating_sub(1), image - 1),
                ] {
                    befores.compare(comparer, Kind::PictureOrder, Sent { width, height, form, body }, room)?;
                }
            }
        }
    }
    Ok(())
}

/// Lengths of the body, the work area and the image: none, one short of each limit, exact, one past it and well past it.
fn lengths(comparer: &mut Comparer, befores: &mut Befores) -> Outcome {
    let rng = &mut Rng::new(24);
    for (width, height) in [(1, 1), (2, 2), (3, 3), (5, 2), (2, 7), (47, 1), (48, 2), (95, 1)] {
        for form in few_forms() {
            let mut body = Planes::random(rng, form, width, height).body(form, width, height);
            let complete = body.len();
            body.extend(rng.bytes(60));
            let min = form.min_body(width, height);
            let mut ends = vec![0, min - 1, min, min + 1, complete - 1, complete, complete + 1, complete + 60];
            ends.sort_unstable();
            ends.dedup();
            for end in ends {
                in_rooms(comparer, befores, Sent { width, height, form, body: &body[..end] })?;
            }
        }
    }
    Ok(())
}

fn in_rooms(comparer: &mut Comparer, befores: &mut Befores, sent: Sent<'_>) -> Outcome {
    let (work, image) = befores.needs(sent);
    // What the planes have if they are not subsampled is a limit too, and so is what they have if the picture is raw.
    let full = 3 * sent.width * sent.height;
    let planes = sent.form.colour_samples(sent.width, sent.height);
    let mut works = vec![0, work.saturating_sub(1), work, work + 1, work + 50, full - 1, full, planes - 1, planes];
    works.sort_unstable();
    works.dedup();
    for work in works {
        // The last two are what three bytes a pixel need.
        for image in [0, image - 1, image, image + 1, image + 50, full - 1, full] {
            befores.compare(comparer, Kind::PictureLengths, sent, (work, image))?;
        }
    }
    Ok(())
}

/// All layouts under 300 and wider ones, with bodies and buffers that are right and wrong; and with other refusals at once. With levels and
/// definitions that are refused too a stream has no header byte.
pub fn run_layouts(comparer: &mut Comparer, befores: &mut Befores) -> Outcome {
    let rng = &mut Rng::new(45);
    let (width, height) = (3, 2);
    for (form, layout) in
        few_forms().flat_map(|form| (0..300).map(Layout).chain(UNKNOWN).map(move |layout| (form, layout)))
    {
        let body = Planes::random(rng, form, width, height).body(form, width, height);
        let (sent, short) = (Sent { width, height, form, body: &body }, form.min_body(width, height) - 1);
        for body in [&body[..], &body[..short], &[]] {
            let (sent, (work, image)) = (sent.with_body(body), befores.needs(sent));
            for room in [(work, image), (work.saturating_sub(1), image), (work, image - 1), (0, 0)] {
                befores.compare_to(comparer, Kind::PictureLayouts, Format::Pixels(layout), sent, room)?;
            }
        }
    }
    for layout in LAYOUTS.into_iter().chain(UNKNOWN) {
        let levels = [0, 1, 8, 257].map(|level| Form::aycocg(true, true, level, false));
        for form in
            levels.into_iter().chain([Form::argb(false, true), Form { definition: 2, ..Form::argb(true, true) }])
        {
            layout_in_all_sides(comparer, befores, Format::Pixels(layout), form)?;
        }
    }
    Ok(())
}

/// Wrong sides with this layout, in buffers that are long enough and without any.
fn layout_in_all_sides(comparer: &mut Comparer, befores: &mut Befores, format: Format, form: Form) -> Outcome {
    for (width, height) in
        [0, 2, MAX_SIDE + 1].into_iter().flat_map(|width| [0, 3, MAX_SIDE + 1].map(|height| (width, height)))
    {
        for (body, room) in [(&[0x10; 60][..], (30, 30)), (&[0x10; 60], (30, 0)), (&[0x10; 60], (0, 0)), (&[], (0, 0))]
        {
            befores.compare_to(comparer, Kind::PictureOrder, format, Sent { width, height, form, body }, room)?;
        }
    }
    Ok(())
}
