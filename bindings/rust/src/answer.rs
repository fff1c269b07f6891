//! Results of the C functions as `Result`s.

use crate::Refusal;

/// A number of bytes, or the refusal whose negated number it is.
pub fn to_result(answer: i64) -> Result<usize, Refusal> {
    usize::try_from(answer).map_err(|_| refusal_of(answer))
}

fn refusal_of(answer: i64) -> Refusal {
    let refusal = u8::try_from(answer.unsigned_abs()).ok().and_then(|number| Refusal::try_from(number).ok());
    // The contracts allow no other result, so this is a library with another interface.
    refusal.unwrap_or_else(|| {
        panic!(
            "librdp6.a returned {answer}, which this crate does not know: use the library and the crate of the same version"
        )
    })
}

#[cfg(test)]
mod tests {
    use super::*;

    #[test]
    fn counts_and_refusals() {
        assert_eq!(to_result(0), Ok(0));
        assert_eq!(to_result(201_326_592), Ok(201_326_592));
        assert_eq!(to_result(-1), Err(Refusal::ZeroSize));
        assert_eq!(to_result(-14), Err(Refusal::MissingPad));
    }

    #[test]
    #[should_panic(expected = "librdp6.a returned -100")]
    fn an_unknown_number_is_no_refusal() {
        let _ = to_result(-100);
    }

    #[test]
    #[should_panic(expected = "librdp6.a returned -257")]
    fn nor_is_one_whose_last_byte_is_a_known_number() {
        let _ = to_result(-257);
    }
}
