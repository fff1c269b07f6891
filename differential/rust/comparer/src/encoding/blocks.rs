//! Pictures for an encoder that reads 16 or 64 pixels at once, then four, then single ones: rows of so many pixels and some more or less; and
//! planes with runs at every place that matters to a packer (`packing::places`), other ones in each channel.

use crate::check::{Comparer, Outcome};
use crate::encoding::given::{self, in_rooms, ALPHAS};
use crate::encoding::Encoding;
use crate::extent::Extent;
use crate::packing::boundary::LENGTHS;
use crate::packing::places::{
    every_run, longest_row, outer_runs, planes_with, with_run, ARRAY_WIDTHS, FEW, LONGEST, VALUES,
};
use crate::packing::rooms::{end_rooms, few_end_rooms};
use crate::picture::Planes;
use crate::planes::{Earlier, PlaneKind};
use crate::rng::Rng;
use crate::tally::Kind;
use std::ops::Range;

pub fn run(comparer: &mut Comparer) -> Outcome {
    let earlier = &mut Earlier::new();
    let widths = FEW.chain(15..=17).chain(31..=33).chain(60..=70).chain(124..=132).chain(ARRAY_WIDTHS);
    for width in widths {
        noise(comparer, earlier, width)?;
    }
    for width in FEW {
        runs(comparer, earlier, width, &every_run(width).collect::<Vec<_>>())?;
    }
    for width in (15..=17).chain(31..=33).chain(63..=66).chain(127..=129).chain(ARRAY_WIDTHS) {
        let all = (1..=12).chain(LENGTHS).flat_map(|length| outer_runs(width, length));
        // A seventh of them, in which every length is at some places.
        runs(comparer, earlier, width, &all.step_by(7).collect::<Vec<_>>())?;
    }
    for width in LONGEST {
        longest(comparer, earlier, width)?;
    }
    Ok(())
}

/// Bodies alone: that a stream has the same body is seen with the other pictures.
const BLOCKS: (Kind, Extent) = (Kind::EncodingBlocks, Extent::Body);

/// How many segments' ends a destination is tried around.
const SEGMENTS: usize = 6;

/// One to three rows in which hardly a sample is like the one beside it, or like that of another channel.
fn noise(comparer: &mut Comparer, earlier: &mut Earlier, width: usize) -> Outcome {
    let rng = &mut Rng::new(width as u64);
    for (height, alpha) in (1..=3).flat_map(|height| ALPHAS.map(|alpha| (height, alpha))) {
        let planes = Planes::with_kinds(rng, given::form(alpha), (width, height), &[PlaneKind::Noise]);
        let rooms = |case: Encoding<&[u8]>| case.rooms(SEGMENTS);
        in_rooms(comparer, earlier, BLOCKS, (width, height), &planes, rooms)?;
    }
    Ok(())
}

/// Rooms around the end of a packing; of a raw one the first has no meaning but that it is too short.
fn around_the_end(case: Encoding<&[u8]>) -> [usize; 5] {
    end_rooms(&case.packing())
}

/// The planes of R, G, B and, perhaps, A.
fn planes_of(mut plane: impl FnMut(usize) -> Vec<u8>, alpha: bool) -> Planes {
    Planes { colours: [plane(0), plane(1), plane(2)], alpha: alpha.then(|| plane(3)) }
}

/// Pictures with these runs, each channel with another one.
fn runs(comparer: &mut Comparer, earlier: &mut Earlier, width: usize, all: &[Range<usize>]) -> Outcome {
    for at in 0..all.len() {
        let plane = |channel: usize| {
            let run = all[(at + channel * (all.len() / 4 + 1)) % all.len()].clone();
            let value = VALUES[channel % 2];
            let planes = planes_with(&with_run(width, run, value), value);
            planes[at % 4].1.clone()
        };
        let planes = planes_of(plane, at % 8 < 4);
        let height = planes.colours[0].len() / width;
        in_rooms(comparer, earlier, (Kind::EncodingPlaces, Extent::Body), (width, height), &planes, around_the_end)?;
    }
    Ok(())
}

/// The longest rows: noise, and with runs in the last word.
fn longest(comparer: &mut Comparer, earlier: &mut Earlier, width: usize) -> Outcome {
    let rng = &mut Rng::new(width as u64);
    let noise = Planes::with_kinds(rng, given::form(true), (width, 1), &[PlaneKind::Noise]);
    let with_runs = ALPHAS.map(|flat| {
        let plane = |channel| longest_row(width, width - (width + channel) % 4, 3 + channel, flat);
        planes_of(plane, !flat)
    });
    for planes in with_runs.iter().chain([&noise]) {
        let rooms = |case: Encoding<&[u8]>| few_end_rooms(&case.packing());
        in_rooms(comparer, earlier, BLOCKS, (width, 1), planes, rooms)?;
    }
    Ok(())
}
