//! Stands in for the crate `byteorder`. Of it the plane coder uses one thing: `read_u8` on a slice that is read from.

use std::io;

pub trait ReadBytesExt: io::Read {
    /// The next byte, or an error if there is none.
    #[inline]
    fn read_u8(&mut self) -> io::Result<u8> {
        let mut byte = [0];
        self.read_exact(&mut byte)?;
        Ok(byte[0])
    }
}

impl<R: io::Read + ?Sized> ReadBytesExt for R {}
