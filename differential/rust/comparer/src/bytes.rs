//! Bytes as text: two hexadecimal digits each, `HH*N` for N equal ones, `-` for none.

use std::fmt::Write as _;

/// Runs of at least so many equal bytes are written as `HH*N`.
const SHORTENED: usize = 4;

/// The text of some bytes. A run is followed by a comma if more bytes follow, so that its count has an end.
pub fn text(bytes: &[u8]) -> String {
    if bytes.is_empty() {
        return "-".to_owned();
    }
    let mut out = String::new();
    let mut rest = bytes;
    while let Some(&first) = rest.first() {
        let run = rest.iter().take_while(|&&byte| byte == first).count();
        rest = &rest[run..];
        if run < SHORTENED {
            out.extend(std::iter::repeat_n(format!("{first:02X}"), run));
        } else {
            let comma = if rest.is_empty() { "" } else { "," };
            let _ = write!(out, "{first:02X}*{run}{comma}");
        }
    }
    out
}

/// The bytes of a text, or `None` if it is not one.
pub fn parse(text: &str) -> Option<Vec<u8>> {
    let mut out = Vec::new();
    if text == "-" {
        return Some(out);
    }
    let mut rest = text;
    while !rest.is_empty() {
        let byte = u8::from_str_radix(rest.get(..2)?, 16).ok()?;
        rest = &rest[2..];
        let Some(counted) = rest.strip_prefix('*') else {
            out.push(byte);
            continue;
        };
        let (count, behind) = counted.split_once(',').unwrap_or((counted, ""));
        out.extend(std::iter::repeat_n(byte, count.parse().ok()?));
        rest = behind;
    }
    Some(out)
}

#[cfg(test)]
mod tests {
    use super::{parse, text};

    #[test]
    fn there_and_back() {
        for (bytes, written) in [
            (vec![], "-"),
            (vec![0x1F], "1F"),
            (vec![7; 3], "070707"),
            (vec![0x1F, 7, 7, 7, 7], "1F07*4"),
            (vec![7, 7, 7, 7, 9], "07*4,09"),
            (vec![7, 7, 7, 7, 9, 9, 9, 9, 9], "07*4,09*5"),
        ] {
            assert_eq!(text(&bytes), written);
            assert_eq!(parse(written), Some(bytes));
        }
        assert_eq!(parse("1F*3,09"), Some(vec![0x1F, 0x1F, 0x1F, 9]));
        assert_eq!(parse("1"), None);
        assert_eq!(parse("zz"), None);
    }
}
