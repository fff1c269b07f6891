//! Which streams are stored: small ones with every header byte, around their limits, truncated and damaged.

use crate::streams::{is_kept, Streams};
use crate::BEFORE;
use comparer::picture::refused::few_forms;
use comparer::picture::{Form, Planes};
use comparer::planes::PlaneKind;
use comparer::stream::examples::Example;
use comparer::stream::header::{form_of, joined};
use comparer::stream::OwnedStream;
use comparer::Rng;

/// All parts, each with random numbers of its own, so that a change in one leaves the others as they are.
pub fn keep_all(stored: &mut Streams, known: &[Example]) {
    examples(stored, known);
    every_header(stored, &mut Rng::new(1));
    lengths(stored, &mut Rng::new(2));
    truncated_and_damaged(stored, &mut Rng::new(3));
}

/// Small streams with known answers, as far as they can be stored, with buffers that hold `EE`.
fn examples(stored: &mut Streams, known: &[Example]) {
    let cases = known.iter().map(|example| OwnedStream::parse(example.0).expect("the table's own text"));
    for mut case in cases.filter(is_kept) {
        case.work.fill(BEFORE);
        case.image.fill(BEFORE);
        stored.keep_case(&case);
    }
}

/// A stream of planes of this kind, with any pad byte.
fn stream(rng: &mut Rng, form: Form, byte: u8, sides: (usize, usize), kind: PlaneKind) -> Vec<u8> {
    let body = Planes::with_kinds(rng, form, sides, &[kind]).body(form, sides.0, sides.1);
    joined(form, byte, &body, rng.byte()).expect("a form that has a header byte")
}

/// Every header byte, at sides that change from one to the next.
fn every_header(stored: &mut Streams, rng: &mut Rng) {
    const SIDES: [(usize, usize); 5] = [(3, 3), (2, 1), (1, 1), (5, 2), (1, 4)];
    for byte in 0..=255 {
        let sides = SIDES[usize::from(byte) % SIDES.len()];
        let stream = stream(rng, form_of(byte), byte, sides, PlaneKind::FewValues);
        stored.keep(sides, &stream);
    }
}

/// Streams around their minimum size and their end, and with bytes following; of one byte and of two.
fn lengths(stored: &mut Streams, rng: &mut Rng) {
    for form in few_forms() {
        let sides = *rng.pick(&[(2, 2), (3, 2), (48, 1)]);
        let mut stream = stream(rng, form, 0, sides, PlaneKind::Runs);
        let complete = stream.len();
        stream.extend(rng.bytes(3));
        for end in [1, 2, complete - 1, complete, complete + 3] {
            stored.keep(sides, &stream[..end]);
        }
    }
}

/// Some RLE streams truncated everywhere; with one byte changed, the header byte too.
fn truncated_and_damaged(stored: &mut Streams, rng: &mut Rng) {
    for form in few_forms().filter(|form| form.rle).step_by(2) {
        let sides = *rng.pick(&[(1, 1), (2, 1), (2, 2)]);
        let stream = stream(rng, form, 0, sides, PlaneKind::Noise);
        for end in 1..stream.len() {
            stored.keep(sides, &stream[..end]);
        }
        for at in 0..stream.len().min(4) {
            let mut damaged = stream.clone();
            damaged[at] = *rng.pick(&[0, 0x10, 0x03, stream[at] ^ 0x20, stream[at].wrapping_add(16), 0xFF]);
            stored.keep(sides, &damaged);
        }
    }
}
