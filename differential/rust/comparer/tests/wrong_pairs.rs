//! The cases of the prefix theorem alone must find each of these mistakes, and none in a right pair.

mod support;

use comparer::planes::{counts, segment_starts};
use comparer::prefix::random::Random;
use comparer::prefix::{fixed, Model};
use comparer::{Function, Library};
use support::{exported, undelta, Call, RightPack, Search, Slices, RIGHT_LIBRARY, RIGHT_UNPACK};

const ALWAYS_7: u8 = 1;
const SEVEN_IF_TRUNCATED: u8 = 2;
const INVENTED_COUNT: u8 = 3;
const COUNT_IS_ALL: u8 = 4;
const NEXT_ROW_AS_SAMPLES: u8 = 5;
const NEXT_ROW_UNCHANGED: u8 = 6;
const NEXT_ROW_CLEARED: u8 = 7;
const HALF_A_SEGMENT: u8 = 8;
const LAST_ROW_CODED: u8 = 9;
const REST_CLEARED: u8 = 10;
const FIRST_ROW_COPIED: u8 = 11;
const TRUNCATED_TAKEN: u8 = 12;
const EIGHT_FOR_SEVEN: u8 = 13;
const FOLLOWING_REFUSED: u8 = 14;

/// The right answer and destination.
fn right(slices: &Slices, width: usize, height: usize) -> i64 {
    // SAFETY: the slices of this call.
    unsafe { RIGHT_UNPACK(slices.src, slices.src_len, slices.dst, slices.dst_len, width, height) }
}

/// The samples of all complete segments of the source.
fn filled(slices: &Slices) -> usize {
    let source = slices.source();
    let fits = |&at: &usize| at + 1 + counts(source[at]).0 <= source.len();
    let complete = segment_starts(source).into_iter().filter(fits);
    complete.map(|at| counts(source[at])).map(|(raw, run)| raw + run).sum()
}

/// An unpacker that is right but for one mistake.
struct Unpacker<const MISTAKE: u8>;

impl<const MISTAKE: u8> Call for Unpacker<MISTAKE> {
    fn call(mut slices: Slices, width: usize, height: usize) -> i64 {
        let before = slices.destination().to_vec();
        if MISTAKE == ALWAYS_7 {
            return -7;
        }
        let answer = right(&slices, width, height);
        if answer < 0 {
            spoil_truncated::<MISTAKE>(&mut slices, &before, width, answer)
        } else {
            spoil_complete::<MISTAKE>(&mut slices, width, height, answer)
        }
    }
}

/// What is done wrong with a truncated packing.
fn spoil_truncated<const MISTAKE: u8>(slices: &mut Slices, before: &[u8], width: usize, answer: i64) -> i64 {
    let filled = filled(slices);
    let next = filled / width * width;
    match MISTAKE {
        SEVEN_IF_TRUNCATED => slices.destination().copy_from_slice(before),
        NEXT_ROW_UNCHANGED => slices.destination()[next..].copy_from_slice(&before[next..]),
        NEXT_ROW_CLEARED => slices.destination()[filled..next + width].fill(0),
        NEXT_ROW_AS_SAMPLES if next > 0 => (next..filled)
            .for_each(|at| slices.write(at, slices.sample(at - width).wrapping_add(undelta(slices.sample(at))))),
        LAST_ROW_CODED if next > width && filled == next => {
            let row: Vec<u8> =
                (next - width..next).map(|at| slices.sample(at).wrapping_sub(slices.sample(at - width))).collect();
            slices.destination()[next - width..next].copy_from_slice(&row);
        }
        HALF_A_SEGMENT => put_half(slices, filled, next + width),
        TRUNCATED_TAKEN => return slices.src_len as i64,
        EIGHT_FOR_SEVEN => return -8,
        _ => {}
    }
    answer
}

/// The raw bytes of the incomplete segment, as far as there are any.
fn put_half(slices: &mut Slices, from: usize, to: usize) {
    let source = slices.source().to_vec();
    let last = segment_starts(&source).pop().filter(|&at| at + 1 + counts(source[at]).0 > source.len());
    if let Some(at) = last {
        (from..to).zip(&source[at + 1..]).for_each(|(to, &byte)| slices.write(to, byte));
    }
}

/// What is done wrong with a complete packing.
fn spoil_complete<const MISTAKE: u8>(slices: &mut Slices, width: usize, height: usize, answer: i64) -> i64 {
    match MISTAKE {
        INVENTED_COUNT => return (width * height) as i64,
        COUNT_IS_ALL => return slices.src_len as i64,
        FOLLOWING_REFUSED if answer < slices.src_len as i64 => return -7,
        REST_CLEARED => slices.destination()[width * height..].fill(0),
        FIRST_ROW_COPIED => {
            let first = slices.destination()[..width].to_vec();
            slices.destination()[..width * height].chunks_mut(width).for_each(|row| row.copy_from_slice(&first));
        }
        _ => {}
    }
    answer
}

/// A packer and an unpacker that are wrong in the same way: they take every sample's complement for the sample. What is
/// packed is unpacked to the same samples.
struct PackComplements;

impl Call for PackComplements {
    fn call(slices: Slices, width: usize, height: usize) -> i64 {
        let samples: Vec<u8> = slices.source().iter().map(|sample| !sample).collect();
        RightPack::call(Slices { src: samples.as_ptr(), ..slices }, width, height)
    }
}

struct UnpackComplements;

impl Call for UnpackComplements {
    fn call(mut slices: Slices, width: usize, height: usize) -> i64 {
        let answer = right(&slices, width, height);
        let filled = filled(&slices).min(slices.dst_len);
        slices.destination()[..filled].iter_mut().for_each(|sample| *sample = !*sample);
        answer
    }
}

/// A packer that writes every coded value as a segment of its own. Every unpacker restores what it packs, and the complete
/// segments of a prefix.
struct PackSingly;

impl Call for PackSingly {
    fn call(mut slices: Slices, width: usize, height: usize) -> i64 {
        for at in 0..width * height {
            let sample = slices.read(at);
            let column = [slices.read(at.saturating_sub(width)), sample];
            let coded = if at < width { sample } else { Model::of(&column, 1, 2).packing[3] };
            match slices.destination().get_mut(2 * at..2 * at + 2) {
                Some(segment) => segment.copy_from_slice(&[0x10, coded]),
                None => return -12,
            }
        }
        2 * (width * height) as i64
    }
}

const SEARCH: Search = Search {
    fixed: fixed::run,
    random: |seed| {
        let mut random = Random::new(seed);
        Box::new(move |comparer| random.round(comparer))
    },
    rounds: 500,
    alone: 5_000,
};

fn pair_is_found(library: Library, smallest: &str) {
    SEARCH.finds(library, smallest);
}

fn is_found(unpack: Function, smallest: &str) {
    pair_is_found(Library { unpack, ..RIGHT_LIBRARY }, smallest);
}

#[test]
fn a_right_pair_has_no_difference() {
    SEARCH.finds_nothing(RIGHT_LIBRARY);
}

#[test]
fn complements_packed_and_unpacked() {
    pair_is_found(
        Library { unpack: exported::<UnpackComplements>, pack: exported::<PackComplements>, ..RIGHT_LIBRARY },
        "px 1 1 00 0 - EE",
    );
}

#[test]
fn every_value_a_segment_of_its_own() {
    pair_is_found(Library { pack: exported::<PackSingly>, ..RIGHT_LIBRARY }, "px 2 1 0000 0 - EEEE");
}

#[test]
fn an_unpacker_that_always_answers_7() {
    is_found(exported::<Unpacker<ALWAYS_7>>, "px 1 1 00 2 - EE");
}

#[test]
fn nothing_unpacked_if_bytes_are_missing() {
    is_found(exported::<Unpacker<SEVEN_IF_TRUNCATED>>, "px 1 2 0000 2 - EEEE");
}

#[test]
fn an_invented_read_count() {
    is_found(exported::<Unpacker<INVENTED_COUNT>>, "px 1 1 00 2 - EE");
}

#[test]
fn following_bytes_counted() {
    is_found(exported::<Unpacker<COUNT_IS_ALL>>, "px 1 1 00 2 00 EE");
}

#[test]
fn the_next_row_as_samples() {
    is_found(exported::<Unpacker<NEXT_ROW_AS_SAMPLES>>, "px 5 2 00000100010000010000 8 - EE*10");
}

#[test]
fn the_next_row_unchanged() {
    is_found(exported::<Unpacker<NEXT_ROW_UNCHANGED>>, "px 5 1 00*4,01 2 - EE*5");
}

#[test]
fn the_rest_of_the_next_row_cleared() {
    is_found(exported::<Unpacker<NEXT_ROW_CLEARED>>, "px 1 1 00 0 - EE");
}

#[test]
fn part_of_a_segment_unpacked() {
    is_found(exported::<Unpacker<HALF_A_SEGMENT>>, "px 2 1 0000 2 - EEEE");
}

#[test]
fn a_finished_row_left_coded() {
    is_found(exported::<Unpacker<LAST_ROW_CODED>>, "px 1 3 010000 4 - EEEEEE");
}

#[test]
fn bytes_beyond_the_plane_cleared() {
    is_found(exported::<Unpacker<REST_CLEARED>>, "px 1 1 00 2 - EEEE");
}

#[test]
fn the_first_row_copied_down() {
    is_found(exported::<Unpacker<FIRST_ROW_COPIED>>, "px 1 2 0001 4 - EEEE");
}

#[test]
fn a_truncated_packing_taken_for_complete() {
    is_found(exported::<Unpacker<TRUNCATED_TAKEN>>, "px 1 1 00 0 - EE");
}

#[test]
fn refusal_8_for_7() {
    is_found(exported::<Unpacker<EIGHT_FOR_SEVEN>>, "px 1 1 00 0 - EE");
}

#[test]
fn following_bytes_refused() {
    is_found(exported::<Unpacker<FOLLOWING_REFUSED>>, "px 1 1 00 2 00 EE");
}
