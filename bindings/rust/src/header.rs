//! The header record of a picture.

/// What the colour planes of a picture are.
#[derive(Clone, Copy, Debug, PartialEq, Eq, Hash)]
pub enum ColorPlaneDefinition {
    /// R, G and B.
    Argb,
    /// Y, Co and Cg.
    AYCoCg {
        /// 1 to 7; other levels are refusal 3.
        color_loss_level: u8,
        /// Whether the chroma planes have half the sides, rounded up.
        use_chroma_subsampling: bool,
    },
}

/// What the header byte of a picture says. Only the body forms take or return it: [`decode`](crate::decode),
/// [`decode_pixels`](crate::decode_pixels) and the methods with `body` in their names. The stream forms read and write the byte itself (MS-RDPEGDI 2.2.2.5.1):
///
/// | Bits | Meaning |
/// |---|---|
/// | 0 to 2 (`0x07`) | the loss level; 0 is ARGB, 1 to 7 are AYCoCg |
/// | 3 (`0x08`) | AYCoCg: the chroma planes are subsampled. ARGB: 0 when written, ignored when read |
/// | 4 (`0x10`) | the planes are RLE planes, else raw samples |
/// | 5 (`0x20`) | there is *no* alpha plane |
/// | 6 and 7 | 0 when written, ignored when read |
///
/// The record of a byte, for a caller of the body forms:
///
/// ```
/// use rdp6::{BitmapStreamHeader, ColorPlaneDefinition};
///
/// fn header_of(byte: u8) -> BitmapStreamHeader {
///     let color_plane_definition = match byte & 0x07 {
///         0 => ColorPlaneDefinition::Argb,
///         level => ColorPlaneDefinition::AYCoCg { color_loss_level: level, use_chroma_subsampling: byte & 0x08 != 0 },
///     };
///     BitmapStreamHeader {
///         enable_rle_compression: byte & 0x10 != 0,
///         use_alpha: byte & 0x20 == 0,
///         color_plane_definition,
///     }
/// }
///
/// let header = header_of(0x10);
/// assert!(header.enable_rle_compression && header.use_alpha);
/// # assert_eq!(header.color_plane_definition, ColorPlaneDefinition::Argb);
/// ```
#[derive(Clone, Copy, Debug, PartialEq, Eq, Hash)]
pub struct BitmapStreamHeader {
    /// Whether the planes are RLE planes; else they are raw samples.
    pub enable_rle_compression: bool,
    /// Whether there is an alpha plane before the colour planes: true for four planes.
    pub use_alpha: bool,
    /// What the colour planes are.
    pub color_plane_definition: ColorPlaneDefinition,
}

/// `enum rdp6_definition` of include/rdp6.h.
const RDP6_ARGB: u32 = 0;
const RDP6_AYCOCG: u32 = 1;

/// A definition as the C functions take it.
pub(crate) struct Definition {
    pub(crate) number: u32,
    pub(crate) color_loss_level: u32,
    pub(crate) chroma_subsampling: bool,
}

impl From<ColorPlaneDefinition> for Definition {
    fn from(definition: ColorPlaneDefinition) -> Definition {
        match definition {
            // Loss level and subsampling are ignored for ARGB.
            ColorPlaneDefinition::Argb => {
                Definition { number: RDP6_ARGB, color_loss_level: 0, chroma_subsampling: false }
            }
            ColorPlaneDefinition::AYCoCg { color_loss_level, use_chroma_subsampling } => Definition {
                number: RDP6_AYCOCG,
                color_loss_level: u32::from(color_loss_level),
                chroma_subsampling: use_chroma_subsampling,
            },
        }
    }
}
