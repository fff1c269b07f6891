//! Pictures of planes (MS-RDPEGDI 2.2.2.5.1).

pub mod decoder;
pub mod encoder;
mod layout;
