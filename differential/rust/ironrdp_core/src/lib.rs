//! Stands in for the crate `ironrdp_core`. Of it the plane coder uses `WriteCursor`: a slice and how far it is written. The
//! picture decoder has its stream parsed by `decode`; the comparison of bodies enters it behind that. The picture encoder writes its
//! header through `encode_cursor`, and refuses what has no room with `not_enough_bytes_err`.

use std::convert::Infallible;
use std::fmt;

/// What a parser could not read. The reasons are those of the only parser here, which is ours (`ironrdp_pdu`).
#[derive(Clone, Copy, Debug, PartialEq, Eq)]
pub enum DecodeError {
    /// The stream is empty.
    NoHeader,
    /// A raw stream has nothing behind its header byte.
    NoPad,
}

impl fmt::Display for DecodeError {
    fn fmt(&self, f: &mut fmt::Formatter<'_>) -> fmt::Result {
        write!(f, "not parsed")
    }
}

impl std::error::Error for DecodeError {}

/// What has a parser.
pub trait Decode<'de>: Sized {
    fn decode(src: &'de [u8]) -> Result<Self, DecodeError>;
}

pub fn decode<'de, T: Decode<'de>>(src: &'de [u8]) -> Result<T, DecodeError> {
    T::decode(src)
}

/// What could not be written, without its reasons.
#[derive(Debug)]
pub struct EncodeError;

impl fmt::Display for EncodeError {
    fn fmt(&self, f: &mut fmt::Formatter<'_>) -> fmt::Result {
        write!(f, "not written")
    }
}

impl std::error::Error for EncodeError {}

/// What can be written.
pub trait Encode {
    fn encode(&self, dst: &mut WriteCursor<'_>) -> Result<(), EncodeError>;
}

pub fn encode_cursor<T: Encode>(pdu: &T, dst: &mut WriteCursor<'_>) -> Result<(), EncodeError> {
    pdu.encode(dst)
}

/// The error of a destination that is too short. What its last argument can hold is not known here; only `None` is given.
pub fn not_enough_bytes_err(_: &'static str, _received: usize, _expected: usize, _: Option<Infallible>) -> EncodeError {
    EncodeError
}

pub struct WriteCursor<'a> {
    inner: &'a mut [u8],
    pos: usize,
}

impl<'a> WriteCursor<'a> {
    #[inline]
    pub fn new(inner: &'a mut [u8]) -> Self {
        Self { inner, pos: 0 }
    }

    /// How many bytes are left, not how many the slice has: the encoder tests its room with this.
    #[inline]
    pub fn len(&self) -> usize {
        self.inner.len() - self.pos
    }

    #[inline]
    pub fn is_empty(&self) -> bool {
        self.len() == 0
    }

    /// How many bytes are written.
    #[inline]
    pub fn pos(&self) -> usize {
        self.pos
    }

    /// Panics if no byte is left: it has no error to give.
    #[inline]
    #[track_caller]
    pub fn write_u8(&mut self, value: u8) {
        self.write_slice(&[value]);
    }

    /// Panics if fewer bytes are left.
    #[inline]
    #[track_caller]
    pub fn write_slice(&mut self, bytes: &[u8]) {
        self.inner[self.pos..self.pos + bytes.len()].copy_from_slice(bytes);
        self.pos += bytes.len();
    }
}

#[cfg(test)]
mod tests {
    use super::WriteCursor;

    #[test]
    fn len_is_what_is_left() {
        let mut bytes = [0xEE; 4];
        let mut cursor = WriteCursor::new(&mut bytes);
        cursor.write_u8(1);
        cursor.write_slice(&[2, 3]);
        assert_eq!((cursor.pos(), cursor.len(), cursor.is_empty()), (3, 1, false));
        assert_eq!(bytes, [1, 2, 3, 0xEE]);
    }
}
