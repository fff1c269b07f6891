//! The header byte, and a stream divided into its parts (FORMAT 1.1, 1.2).

use crate::picture::case::{ARGB, AYCOCG};
use crate::picture::Form;

const LEVEL: u8 = 0x07;
const SUBSAMPLED: u8 = 0x08;
const RLE: u8 = 0x10;
const NO_ALPHA: u8 = 0x20;
/// The bits that are ignored.
pub const SPARE: u8 = 0xC0;

/// What a header byte says. Level 0 is ARGB, which keeps bit 3 as a flag that has no effect.
pub fn form_of(byte: u8) -> Form {
    let level = u32::from(byte & LEVEL);
    Form {
        rle: byte & RLE != 0,
        alpha: byte & NO_ALPHA == 0,
        definition: if level == 0 { ARGB } else { AYCOCG },
        level,
        subsampled: byte & SUBSAMPLED != 0,
    }
}

/// The header byte of a form, with these bits in the place of those that are ignored. There is none for a level of AYCoCg outside 1 to 7,
/// nor for an unknown definition.
pub fn byte_of(form: Form, spare: u8) -> Option<u8> {
    let level = match form.definition {
        ARGB => 0,
        AYCOCG => u8::try_from(form.level).ok().filter(|level| (1..=7).contains(level))?,
        _ => return None,
    };
    let bit = |set: bool, bit: u8| if set { bit } else { 0 };
    let flags = bit(form.subsampled, SUBSAMPLED) | bit(form.rle, RLE) | bit(!form.alpha, NO_ALPHA);
    Some(level | flags | spare & SPARE)
}

/// The header byte and the body of a stream.
#[derive(Clone, Copy, Debug, PartialEq, Eq)]
pub struct Parts<'a> {
    pub form: Form,
    pub body: &'a [u8],
}

/// The parts of a stream, or the number of the refusal: 13 if it is empty, 14 if it is raw and has no pad byte.
pub fn split(stream: &[u8]) -> Result<Parts<'_>, u8> {
    let (&byte, behind) = stream.split_first().ok_or(13)?;
    let form = form_of(byte);
    let body = if form.rle { behind } else { behind.split_last().ok_or(14)?.1 };
    Ok(Parts { form, body })
}

/// The stream of a form and a body, if the form has a header byte. A raw stream ends in this pad byte.
pub fn joined(form: Form, spare: u8, body: &[u8], pad: u8) -> Option<Vec<u8>> {
    let mut stream = vec![byte_of(form, spare)?];
    stream.extend_from_slice(body);
    if !form.rle {
        stream.push(pad);
    }
    Some(stream)
}

#[cfg(test)]
mod tests {
    use super::{byte_of, form_of, joined, split, Parts, SPARE};
    use crate::picture::Form;

    #[test]
    fn every_byte_is_a_form_and_back() {
        for byte in 0..=255 {
            assert_eq!(byte_of(form_of(byte), byte), Some(byte));
            assert_eq!(byte_of(form_of(byte), 0), Some(byte & !SPARE));
        }
        assert_eq!(form_of(0x20), Form::argb(false, false));
        assert_eq!(form_of(0x10), Form::argb(true, true));
        assert_eq!(form_of(0xFF), Form::aycocg(true, false, 7, true));
        assert_eq!(form_of(0x01), Form::aycocg(false, true, 1, false));
        assert_eq!(byte_of(Form::aycocg(true, true, 0, false), 0), None);
        assert_eq!(byte_of(Form::aycocg(true, true, 8, false), 0), None);
        assert_eq!(byte_of(Form { definition: 2, ..Form::aycocg(true, true, 1, false) }, 0), None);
    }

    #[test]
    fn streams_and_their_parts() {
        assert_eq!(split(&[]), Err(13));
        assert_eq!(split(&[0x20]), Err(14));
        assert_eq!(split(&[0x20, 9]), Ok(Parts { form: Form::argb(false, false), body: &[] }));
        assert_eq!(split(&[0x30]), Ok(Parts { form: Form::argb(true, false), body: &[] }));
        assert_eq!(split(&[0x30, 9]), Ok(Parts { form: Form::argb(true, false), body: &[9] }));
        let form = Form::aycocg(false, true, 3, true);
        assert_eq!(joined(form, 0xFF, &[1, 2], 9), Some(vec![0xCB, 1, 2, 9]));
        assert_eq!(split(&[0xCB, 1, 2, 9]), Ok(Parts { form, body: &[1, 2] }));
    }
}
