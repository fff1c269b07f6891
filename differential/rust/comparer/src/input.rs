//! What can differ: one call of a plane coder, of a picture decoder, of a stream decoder or of a picture encoder, the two sizes of a
//! picture, that of a stream, or one case of the prefix theorem.

use crate::case::{Case, Owned};
use crate::encoding::{Encoding, OwnedEncoding};
use crate::picture::{OwnedPicture, Picture, Sizes};
use crate::prefix::PrefixCase;
use crate::stream::{OwnedStream, OwnedStreamSize, Stream, StreamSize};
use std::fmt;

/// A case that holds its own bytes, of whatever form.
#[derive(Clone, Debug, PartialEq, Eq)]
pub enum Input {
    Call(Owned),
    Picture(OwnedPicture),
    Sizes(Sizes),
    Stream(OwnedStream),
    StreamSize(OwnedStreamSize),
    Encoding(OwnedEncoding),
    Prefix(PrefixCase),
}

/// A call that borrows its bytes.
#[derive(Clone, Copy)]
pub enum View<'a> {
    Call(Case<'a>),
    Picture(Picture<'a>),
    Stream(Stream<&'a [u8]>),
    StreamSize(StreamSize<&'a [u8]>),
    Encoding(Encoding<&'a [u8]>),
}

impl View<'_> {
    pub fn to_owned(&self) -> Input {
        match self {
            View::Call(case) => Input::Call(case.to_owned()),
            View::Picture(case) => Input::Picture(case.to_owned()),
            View::Stream(case) => Input::Stream(case.to_owned()),
            View::StreamSize(case) => Input::StreamSize(case.to_owned()),
            View::Encoding(case) => Input::Encoding(case.to_owned()),
        }
    }
}

impl Input {
    /// Reads a case that begins with `pu`, `pp`, `iu`, `is`, `su`, `ss`, `xu`, `xw`, `xs`, `xz`, `pc`, `pb`, `sc`, `sb` or `px`.
    pub fn parse(text: &str) -> Option<Input> {
        Owned::parse(text)
            .map(Input::Call)
            .or_else(|| OwnedPicture::parse(text).map(Input::Picture))
            .or_else(|| Sizes::parse(text).map(Input::Sizes))
            .or_else(|| OwnedStream::parse(text).map(Input::Stream))
            .or_else(|| OwnedStreamSize::parse(text).map(Input::StreamSize))
            .or_else(|| OwnedEncoding::parse(text).map(Input::Encoding))
            .or_else(|| PrefixCase::parse(text).map(Input::Prefix))
    }

    /// The number of bytes of all its buffers.
    pub fn byte_count(&self) -> usize {
        match self {
            Input::Call(case) => case.source.len() + case.before.len(),
            Input::Picture(case) => case.body.len() + case.work.len() + case.image.len(),
            Input::Sizes(_) => 0,
            Input::Stream(case) => case.stream.len() + case.work.len() + case.image.len(),
            Input::StreamSize(case) => case.stream.len(),
            Input::Encoding(case) => {
                let sources: usize = case.sources.slices().iter().map(|(slice, _)| slice.len()).sum();
                sources + case.before.len()
            }
            Input::Prefix(case) => case.samples.len() + case.following.len() + case.before.len(),
        }
    }

    /// Whether there is such a case: the prefix theorem has conditions, a call has none.
    pub fn is_valid(&self) -> bool {
        match self {
            Input::Prefix(case) => case.is_valid(),
            _ => true,
        }
    }

    /// The reference of this case, as a report names it.
    pub fn reference(&self) -> &'static str {
        let inside = match self {
            Input::Call(case) => case.view().refused_at_entry().is_none(),
            Input::Picture(case) => case.view().refused_outside().is_none(),
            Input::Sizes(_) | Input::StreamSize(_) => false,
            Input::Stream(case) => case.view().refused_outside().is_none(),
            Input::Encoding(case) => case.is_inside(),
            Input::Prefix(_) => return "the model",
        };
        let four_bytes = match self {
            Input::Picture(case) => case.format.keeps_alpha(),
            Input::Stream(case) => case.format.keeps_alpha(),
            _ => false,
        };
        if inside && four_bytes {
            "IronRDP's three bytes and its alpha plane"
        } else if inside {
            "IronRDP"
        } else {
            "FORMAT"
        }
    }
}

impl fmt::Display for Input {
    fn fmt(&self, f: &mut fmt::Formatter<'_>) -> fmt::Result {
        match self {
            Input::Call(case) => case.fmt(f),
            Input::Picture(case) => case.fmt(f),
            Input::Sizes(case) => case.fmt(f),
            Input::Stream(case) => case.fmt(f),
            Input::StreamSize(case) => case.fmt(f),
            Input::Encoding(case) => case.fmt(f),
            Input::Prefix(case) => case.fmt(f),
        }
    }
}
