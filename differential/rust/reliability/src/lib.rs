//! Cases made from bytes, for a fuzzer and for runs of hours, and calls on buffers that are used again and again.

pub mod calls;
pub mod case_from_bytes;
pub mod entry;
pub mod mix;
pub mod system;

use comparer::tally::{Group, Kind};
use comparer::{Comparer, Extent, Format, Input, Outcome};

pub use ours::LIBRARY;

/// The group and the kind under which the comparer counts a case.
pub fn counted_as(input: &Input) -> (Group, Kind) {
    match input {
        Input::Call(case) if case.operation == comparer::case::Operation::Unpack => (Group::Bodies, Kind::Noise),
        Input::Call(_) => (Group::Bodies, Kind::RandomPlanes),
        Input::Picture(case) => (Group::of(Extent::Body, case.format), Kind::RandomBodies),
        Input::Sizes(case) if case.alpha.is_some() => (Group::Pixels, Kind::SizesTable),
        Input::Sizes(_) => (Group::Bodies, Kind::SizesTable),
        Input::Stream(case) => (Group::of(Extent::Stream, case.format), Kind::RandomStreams),
        Input::StreamSize(case) if case.four_bytes => (Group::StreamPixels, Kind::SizesTable),
        Input::StreamSize(_) => (Group::Streams, Kind::SizesTable),
        Input::Encoding(case) => (Group::of(case.extent, Format::Rgb24), Kind::RandomEncodings),
        Input::Prefix(_) => (Group::Bodies, Kind::PrefixRandom),
    }
}

/// Compares a case, on buffers at either end of guarded pages, and counts it.
pub fn compare(comparer: &mut Comparer, input: &Input) -> Outcome {
    let (_, kind) = counted_as(input);
    match input {
        Input::Call(case) => comparer.compare(kind, case.view()),
        Input::Picture(case) => comparer.compare_picture(kind, case.view()),
        Input::Sizes(case) => comparer.compare_sizes(kind, *case),
        Input::Stream(case) => comparer.compare_stream(kind, case.view()),
        Input::StreamSize(case) => comparer.compare_stream_size(kind, case.view()),
        Input::Encoding(case) => comparer.compare_encoding(kind, case.view()),
        Input::Prefix(case) => comparer.check(&Input::Prefix(case.clone())),
    }
}
