//! The cases of unpacking whole streams. Whole streams are packed by the cases of `encoding`, whose extent is then the stream.

pub mod case;
pub mod check;
pub mod examples;
pub mod fixed;
pub mod header;
pub mod random;

pub use case::{OwnedStream, OwnedStreamSize, Stream, StreamSize};
