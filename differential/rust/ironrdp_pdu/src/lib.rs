//! Stands in for the crate `ironrdp_pdu`. Of it the picture decoder uses the record of a picture: the header's settings and
//! the body. The picture encoder writes the header's settings.
//!
//! IronRDP's own code of the header byte, its parser and its writer, is not among the sources. What is here is ours, written from the
//! layout of MS-RDPEGDI 2.2.2.5.1 as FORMAT 1.2 has it. So the comparison shows that both decoders do the same with the same header and
//! body; it does not show how IronRDP takes a stream apart.

pub mod bitmap {
    pub mod rdp6 {
        use ironrdp_core::{Decode, DecodeError, Encode, EncodeError, WriteCursor};

        #[derive(Clone, Copy, Debug, PartialEq, Eq)]
        pub enum ColorPlaneDefinition {
            Argb,
            AYCoCg { color_loss_level: u8, use_chroma_subsampling: bool },
        }

        #[derive(Clone, Copy, Debug, PartialEq, Eq)]
        pub struct BitmapStreamHeader {
            pub enable_rle_compression: bool,
            pub use_alpha: bool,
            pub color_plane_definition: ColorPlaneDefinition,
        }

        const RLE: u8 = 0x10;
        const NO_ALPHA: u8 = 0x20;
        const SUBSAMPLED: u8 = 0x08;
        const LOSS_LEVEL: u8 = 0x07;

        impl BitmapStreamHeader {
            /// The settings in one byte. Level 0 there is ARGB, so AYCoCg has a level of 1 to 7.
            fn byte(&self) -> Option<u8> {
                let rle = if self.enable_rle_compression { RLE } else { 0 };
                let alpha = if self.use_alpha { 0 } else { NO_ALPHA };
                let definition = match self.color_plane_definition {
                    ColorPlaneDefinition::Argb => 0,
                    ColorPlaneDefinition::AYCoCg { color_loss_level: level @ 1..=7, use_chroma_subsampling } => {
                        level | if use_chroma_subsampling { SUBSAMPLED } else { 0 }
                    }
                    ColorPlaneDefinition::AYCoCg { .. } => return None,
                };
                Some(rle | alpha | definition)
            }

            /// The settings that were written as this byte, if any were.
            pub fn of_byte(byte: u8) -> Option<Self> {
                Some(Self::read(byte)).filter(|header| header.byte() == Some(byte))
            }

            /// What a header byte says. Bits 6 and 7 are ignored, and so is bit 3 of ARGB.
            fn read(byte: u8) -> Self {
                let color_plane_definition = match byte & LOSS_LEVEL {
                    0 => ColorPlaneDefinition::Argb,
                    color_loss_level => {
                        let use_chroma_subsampling = byte & SUBSAMPLED != 0;
                        ColorPlaneDefinition::AYCoCg { color_loss_level, use_chroma_subsampling }
                    }
                };
                let (enable_rle_compression, use_alpha) = (byte & RLE != 0, byte & NO_ALPHA == 0);
                Self { enable_rle_compression, use_alpha, color_plane_definition }
            }
        }

        impl Encode for BitmapStreamHeader {
            fn encode(&self, dst: &mut WriteCursor<'_>) -> Result<(), EncodeError> {
                let byte = self.byte().filter(|_| !dst.is_empty()).ok_or(EncodeError)?;
                dst.write_u8(byte);
                Ok(())
            }
        }

        #[derive(Clone, Copy, Debug)]
        pub struct BitmapStream<'a> {
            pub header: BitmapStreamHeader,
            color_planes: &'a [u8],
        }

        impl<'a> BitmapStream<'a> {
            /// What a parser would have made of a header and the bytes behind it.
            pub fn new(header: BitmapStreamHeader, color_planes: &'a [u8]) -> Self {
                Self { header, color_planes }
            }

            #[inline]
            pub fn color_panes_data(&self) -> &'a [u8] {
                self.color_planes
            }

            #[inline]
            pub fn has_subsampled_chroma(&self) -> bool {
                match self.header.color_plane_definition {
                    ColorPlaneDefinition::Argb => false,
                    ColorPlaneDefinition::AYCoCg { use_chroma_subsampling, .. } => use_chroma_subsampling,
                }
            }
        }

        /// Our stand-in for the parser: the header byte, then the body. The last byte of a raw stream is the pad byte, which is not part
        /// of the body.
        impl<'de> Decode<'de> for BitmapStream<'de> {
            fn decode(src: &'de [u8]) -> Result<Self, DecodeError> {
                let (&byte, behind) = src.split_first().ok_or(DecodeError::NoHeader)?;
                let header = BitmapStreamHeader::read(byte);
                let color_planes = match behind {
                    body if header.enable_rle_compression => body,
                    [body @ .., _pad] => body,
                    [] => return Err(DecodeError::NoPad),
                };
                Ok(Self { header, color_planes })
            }
        }

        #[cfg(test)]
        mod tests {
            use super::{BitmapStream, BitmapStreamHeader, ColorPlaneDefinition};
            use ironrdp_core::{decode, DecodeError};

            #[test]
            fn settings_are_told_from_their_byte() {
                for byte in (0..=255).filter(|byte| byte & 0xC0 == 0 && byte & 0x0F != 0x08) {
                    let header = BitmapStreamHeader::of_byte(byte).unwrap();
                    assert_eq!(header.byte(), Some(byte));
                }
                assert_eq!(BitmapStreamHeader::of_byte(0xEE), None);
                let (rle, argb) = (true, ColorPlaneDefinition::Argb);
                let none =
                    BitmapStreamHeader { enable_rle_compression: rle, use_alpha: false, color_plane_definition: argb };
                assert_eq!(none.byte(), Some(0x30));
            }

            #[test]
            fn streams_are_taken_apart() {
                let parsed = |stream: &'static [u8]| {
                    decode::<BitmapStream<'_>>(stream).map(|bitmap| (bitmap.header.byte(), bitmap.color_panes_data()))
                };
                assert_eq!(parsed(&[]), Err(DecodeError::NoHeader));
                assert_eq!(parsed(&[0x20]), Err(DecodeError::NoPad));
                assert_eq!(parsed(&[0x20, 9]), Ok((Some(0x20), &[][..])));
                assert_eq!(parsed(&[0x0B, 1, 2, 9]), Ok((Some(0x0B), &[1, 2][..])));
                assert_eq!(parsed(&[0x30]), Ok((Some(0x30), &[][..])));
                // Bits that are ignored: 6 and 7, and 3 of ARGB.
                assert_eq!(parsed(&[0xF8, 1, 2]), Ok((Some(0x30), &[1, 2][..])));
            }
        }
    }
}
