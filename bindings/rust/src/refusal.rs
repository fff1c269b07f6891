//! Why a call is refused.

use std::error::Error;
use std::fmt;

/// Why a call is refused: one of fourteen numbers, which are the values of the variants.
///
/// Each function lists its refusals in the order in which they are checked, with what each leaves in the slices. The names are
/// those of IronRDP's errors where it has one. Later versions may add numbers.
///
/// ```
/// use rdp6::Refusal;
///
/// let mut plane = [0; 3];
/// let refusal = rdp6::decompress_8bpp_plane(&[0x04], &mut plane, 3, 1).unwrap_err();
/// assert_eq!(refusal, Refusal::SegmentDoNotFitScanline);
/// assert_eq!(refusal.number(), 9);
/// assert_eq!(refusal.to_string(), "refusal 9: a segment overruns its row");
/// ```
#[derive(Clone, Copy, Debug, PartialEq, Eq, PartialOrd, Ord, Hash)]
#[non_exhaustive]
#[repr(u8)]
pub enum Refusal {
    /// The width or the height is 0.
    ZeroSize = 1,
    /// The width or the height is over 8,192.
    TooLarge = 2,
    /// The loss level of AYCoCg is not 1 to 7. In C also an unknown plane definition or an unknown layout; the types of this crate have none.
    LossLevel = 3,
    /// The body of a picture is shorter than its minimum size.
    InvalidUncompressedDataSize = 4,
    /// The work area is shorter than its minimum size: the three colour planes and, if alpha is unpacked with them, the alpha plane.
    ShortWork = 5,
    /// The image is shorter than its minimum size: 3 × width × height bytes, or 4 × width × height with alpha.
    ShortImage = 6,
    /// A control byte or a raw byte is missing.
    ReadCompressedData = 7,
    /// A control byte is 0.
    InvalidSegmentHeader = 8,
    /// A segment overruns its row.
    SegmentDoNotFitScanline = 9,
    /// The destination is shorter than width × height bytes.
    ShortPlane = 10,
    /// A source has fewer than width × height samples or complete pixels.
    NotEnoughBytes = 11,
    /// The next segment, or the raw body, does not fit into the destination.
    BufferTooSmall = 12,
    /// The stream is empty.
    EmptyStream = 13,
    /// A raw stream has no pad byte.
    MissingPad = 14,
}

const ALL: [Refusal; 14] = [
    Refusal::ZeroSize,
    Refusal::TooLarge,
    Refusal::LossLevel,
    Refusal::InvalidUncompressedDataSize,
    Refusal::ShortWork,
    Refusal::ShortImage,
    Refusal::ReadCompressedData,
    Refusal::InvalidSegmentHeader,
    Refusal::SegmentDoNotFitScanline,
    Refusal::ShortPlane,
    Refusal::NotEnoughBytes,
    Refusal::BufferTooSmall,
    Refusal::EmptyStream,
    Refusal::MissingPad,
];

impl Refusal {
    /// The number, 1 to 14. The C functions return it negated.
    pub const fn number(self) -> u8 {
        self as u8
    }

    /// What `rdp6_refusal_text` of include/rdp6.h returns for the number. `Display` writes it after the number.
    const fn text(self) -> &'static str {
        match self {
            Refusal::ZeroSize => "the width or the height is 0",
            Refusal::TooLarge => "the width or the height is over 8192",
            Refusal::LossLevel => {
                "the loss level of AYCoCg is not 1 to 7, or the plane definition or the layout is unknown"
            }
            Refusal::InvalidUncompressedDataSize => "the body is shorter than its minimum size",
            Refusal::ShortWork => "the work area is shorter than its minimum size",
            Refusal::ShortImage => "the image is shorter than its minimum size",
            Refusal::ReadCompressedData => "a control byte or a raw byte is missing",
            Refusal::InvalidSegmentHeader => "a control byte is 0",
            Refusal::SegmentDoNotFitScanline => "a segment overruns its row",
            Refusal::ShortPlane => "the destination is shorter than width * height bytes",
            Refusal::NotEnoughBytes => "a source has fewer than width * height samples or complete pixels",
            Refusal::BufferTooSmall => "the next segment, or the raw body, does not fit into the destination",
            Refusal::EmptyStream => "the stream is empty",
            Refusal::MissingPad => "a raw stream has no pad byte",
        }
    }
}

impl fmt::Display for Refusal {
    fn fmt(&self, f: &mut fmt::Formatter<'_>) -> fmt::Result {
        write!(f, "refusal {}: {}", self.number(), self.text())
    }
}

impl Error for Refusal {}

impl From<Refusal> for u8 {
    fn from(refusal: Refusal) -> u8 {
        refusal.number()
    }
}

/// From the number, for one that was stored or sent.
///
/// ```
/// use rdp6::Refusal;
///
/// assert_eq!(Refusal::try_from(7), Ok(Refusal::ReadCompressedData));
/// assert!(Refusal::try_from(15).is_err());
/// ```
impl TryFrom<u8> for Refusal {
    type Error = UnknownNumber;

    fn try_from(number: u8) -> Result<Refusal, UnknownNumber> {
        ALL.into_iter().find(|refusal| refusal.number() == number).ok_or(UnknownNumber(number))
    }
}

/// A number that is not the number of a refusal.
#[derive(Clone, Copy, Debug, PartialEq, Eq)]
pub struct UnknownNumber(
    /// The number.
    pub u8,
);

impl fmt::Display for UnknownNumber {
    fn fmt(&self, f: &mut fmt::Formatter<'_>) -> fmt::Result {
        write!(f, "unknown refusal number {}", self.0)
    }
}

impl Error for UnknownNumber {}
