//! Which cases of packing pictures are stored: small pictures of all forms, with every room and with those around segments' ends.

use crate::encodings::{Encodings, Entry};
use crate::{BEFORE, LONGEST};
use comparer::encoding::examples;
use comparer::encoding::given::{form, ALPHAS, FORMS};
use comparer::encoding::{OwnedEncoding, Sources};
use comparer::layout::LAYOUTS;
use comparer::picture::Planes;
use comparer::planes::{segment_starts, PlaneKind, PLANE_KINDS, WIDTHS};
use comparer::{Extent, Rng};

/// All parts, each with random numbers of its own, so that a change in one leaves the others as they are. Of streams there are fewer
/// cases: their bodies are those of the other files.
pub fn keep_all(stored: &mut Encodings) {
    examples(stored);
    match stored.extent {
        Extent::Body => {
            every_room(stored, &mut Rng::new(1), &ROOMS);
            small_sides(stored, &mut Rng::new(2), 6);
            segment_ends(stored, &mut Rng::new(3));
            every_kind(stored, &mut Rng::new(4));
            longer_sources(stored, &mut Rng::new(5), 30);
        }
        Extent::Stream => {
            every_room(stored, &mut Rng::new(1), &ROOMS[..2]);
            small_sides(stored, &mut Rng::new(2), 4);
            longer_sources(stored, &mut Rng::new(5), 8);
        }
    }
    wide_and_tall(stored);
    if stored.entry == Entry::Bitmap {
        other_layouts(stored, &mut Rng::new(6));
    }
}

/// Small pictures of the layouts that the others do not have; of bodies also rows of as many pixels as a packer may read at once.
fn other_layouts(stored: &mut Encodings, rng: &mut Rng) {
    let most = if stored.extent == Extent::Body { 3 } else { 2 };
    let small = (1..=most).flat_map(|width| (1..=most).map(move |height| (width, height)));
    let wide = [(15, 1), (16, 2), (17, 1), (63, 1), (64, 1), (65, 1), (255, 1), (256, 1), (257, 1)];
    let wide = wide.into_iter().filter(|_| stored.extent == Extent::Body).collect::<Vec<_>>();
    for (sides, layout) in small.chain(wide).flat_map(|sides| LAYOUTS[1..].iter().map(move |&layout| (sides, layout))) {
        for (rle, alpha) in forms() {
            let kinds = if sides.0 < 60 { &PLANE_KINDS[..] } else { &[PlaneKind::Runs] };
            let planes = Planes::with_kinds(rng, form(alpha), sides, kinds);
            let sources = stored.sources_in(&planes, layout);
            keep_with_and_without_room(stored, rng, rle, sides, &sources);
        }
    }
}

/// Small inputs with known answers, as far as they are of this entry and inside the domain.
fn examples(stored: &mut Encodings) {
    let examples = examples::of(stored.extent).iter();
    let cases = examples.map(|example| OwnedEncoding::parse(example.0).expect("the table's own text"));
    for mut case in cases.filter(OwnedEncoding::is_inside) {
        let entry = if matches!(case.sources, Sources::Pixels { .. }) { Entry::Bitmap } else { Entry::Channels };
        if entry == stored.entry {
            case.before.fill(BEFORE);
            stored.keep_case(&case);
        }
    }
}

/// RLE and raw, three planes and four.
fn forms() -> impl Iterator<Item = (bool, bool)> {
    FORMS.into_iter().flat_map(|rle| ALPHAS.map(|alpha| (rle, alpha)))
}

/// Sides and planes of the pictures that are stored with every room.
const ROOMS: [((usize, usize), PlaneKind); 4] =
    [((1, 1), PlaneKind::Noise), ((2, 2), PlaneKind::FewValues), ((3, 1), PlaneKind::Noise), ((4, 1), PlaneKind::Runs)];

/// Pictures with every room from none to one too many.
fn every_room(stored: &mut Encodings, rng: &mut Rng, pictures: &[((usize, usize), PlaneKind)]) {
    for &(sides, plane_kind) in pictures {
        for (rle, alpha) in forms() {
            let sources = stored.sources(&Planes::with_kinds(rng, form(alpha), sides, &[plane_kind]));
            for room in 0..=stored.given(rle, sides, &sources).packing().len() + 1 {
                stored.keep(rle, sides, &sources, room);
            }
        }
    }
}

/// With room for the packing, or for a little more, and with room for less: for RLE around the end of a segment.
fn keep_with_and_without_room(
    stored: &mut Encodings,
    rng: &mut Rng,
    rle: bool,
    sides: (usize, usize),
    sources: &Sources<Vec<u8>>,
) {
    let packing = stored.given(rle, sides, sources).packing();
    stored.keep(rle, sides, sources, packing.len() + rng.pick(&[0, 0, 0, 1, 9]));
    let less = if rle { *rng.pick(&segment_starts(&packing)) + rng.below(3) } else { packing.len() - rng.below(2) };
    stored.keep(rle, sides, sources, less.saturating_sub(1));
}

/// All sides from 1 to this one.
fn small_sides(stored: &mut Encodings, rng: &mut Rng, most: usize) {
    for sides in (1..=most).flat_map(|width| (1..=most).map(move |height| (width, height))) {
        for (rle, alpha) in forms() {
            let sources = stored.sources(&Planes::random(rng, form(alpha), sides.0, sides.1));
            keep_with_and_without_room(stored, rng, rle, sides, &sources);
        }
    }
}

/// Destinations around the end of each segment of each plane.
fn segment_ends(stored: &mut Encodings, rng: &mut Rng) {
    for sides in [(17, 1), (20, 2), (34, 1)] {
        for alpha in ALPHAS {
            let plane_kind = *rng.pick(&[PlaneKind::Runs, PlaneKind::RowsAlike]);
            let sources = stored.sources(&Planes::with_kinds(rng, form(alpha), sides, &[plane_kind]));
            let packing = stored.given(true, sides, &sources).packing();
            for end in segment_starts(&packing).into_iter().chain([packing.len()]) {
                for room in [end.saturating_sub(1), end, end + 1] {
                    stored.keep(true, sides, &sources, room);
                }
            }
        }
    }
}

/// Planes of every kind at all the widths, as far as it takes few characters.
fn every_kind(stored: &mut Encodings, rng: &mut Rng) {
    for width in WIDTHS {
        for plane_kind in PLANE_KINDS {
            let (rle, alpha) = (!rng.once_in(3), rng.once_in(2));
            let sides = (width, rng.within(1, if width > 16 { 2 } else { 3 }));
            let sources = stored.sources(&Planes::with_kinds(rng, form(alpha), sides, &[plane_kind]));
            keep_with_and_without_room(stored, rng, rle, sides, &sources);
        }
    }
}

/// More samples than the picture has, which RLE leaves; and bytes behind the pixels that make no complete one, which raw packing leaves
/// too.
fn longer_sources(stored: &mut Encodings, rng: &mut Rng, times: usize) {
    for _ in 0..times {
        for (rle, alpha) in forms() {
            let sides = (rng.within(1, 9), rng.within(1, 3));
            let sources = stored.sources(&Planes::random(rng, form(alpha), sides.0, sides.1));
            let longer = sources.view().map(|slice, stride| {
                let more = if rle { rng.below(3 * stride + 4) } else { rng.below(stride) };
                [slice, &rng.bytes(more)].concat()
            });
            keep_with_and_without_room(stored, rng, rle, sides, &longer);
        }
    }
}

/// Flat pictures as wide and as high as the longest source allows.
fn wide_and_tall(stored: &mut Encodings) {
    let side = if stored.entry == Entry::Channels { 8192 } else { 4096 };
    for (sides, alpha) in [(side, 1), (1, side), (side - 1, 1)].into_iter().zip([false, true, true]) {
        let plane = vec![9; sides.0 * sides.1];
        let colours = [plane.clone(), plane.clone(), plane.clone()];
        let sources = stored.sources(&Planes { colours, alpha: Some(plane) });
        let sources = if alpha { sources } else { without_alpha(sources) };
        let len = stored.given(true, sides, &sources).packing().len();
        for room in [len + 1, len, len - 1, len / 2, 100, 1, 0].into_iter().filter(|&room| room <= LONGEST) {
            stored.keep(true, sides, &sources, room);
        }
    }
}

/// The same picture in three planes. Pixels keep their A, so that a line stays short.
fn without_alpha(sources: Sources<Vec<u8>>) -> Sources<Vec<u8>> {
    match sources {
        Sources::Channels { colours, .. } => Sources::Channels { colours, alpha: None },
        Sources::Pixels { pixels, layout, .. } => Sources::Pixels { pixels, layout, alpha: false },
    }
}
