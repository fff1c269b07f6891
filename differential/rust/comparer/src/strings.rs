//! All strings of bytes over some alphabet.

use crate::check::Outcome;

/// Counts through the strings of a length, as a number whose digits are the alphabet.
pub fn each_string(alphabet: &[u8], len: usize, visit: &mut dyn FnMut(&[u8]) -> Outcome) -> Outcome {
    let mut digits = vec![0; len];
    let mut string = vec![alphabet[0]; len];
    loop {
        visit(&string)?;
        let mut at = len;
        loop {
            if at == 0 {
                return Ok(());
            }
            at -= 1;
            digits[at] = (digits[at] + 1) % alphabet.len();
            string[at] = alphabet[digits[at]];
            if digits[at] != 0 {
                break;
            }
        }
    }
}
