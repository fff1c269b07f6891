//! Texts of cases that differ: short ones to print, and a file with the complete text where bytes are left out.

use crate::bytes;
use std::fmt::Display;
use std::fs;
use std::path::Path;

/// A text of at most so many characters is printed complete.
const PRINTED_COMPLETE: usize = 2_000;

/// The bytes that are kept of a long string: the first and the last ones.
const FIRST: usize = 32;
const LAST: usize = 8;

/// A string of bytes whose text has at most so many characters is left as it is: shortened it would not be shorter.
const SHORT_WORD: usize = 110;

/// The folder of this workspace's build, and its path from the top of the repository.
const TARGET: &str = concat!(env!("CARGO_MANIFEST_DIR"), "/../../target");
const TARGET_FROM_TOP: &str = "differential/target";

/// The text to print of what differs. A long one is shortened, and the complete text is written to a file of this name, whose path
/// from the top of the repository is added.
pub fn report(difference: &dyn Display, file: &str) -> String {
    let complete = difference.to_string();
    if complete.len() <= PRINTED_COMPLETE {
        return complete;
    }
    let short = shortened(&complete);
    match fs::write(Path::new(TARGET).join(file), complete) {
        Ok(()) => format!("{short}\n  the complete case: {TARGET_FROM_TOP}/{file}"),
        Err(why) => format!("{short}\n  the complete case could not be written to {TARGET_FROM_TOP}/{file}: {why}"),
    }
}

/// The text with every long string of bytes as its first and last bytes and its length.
pub fn shortened(text: &str) -> String {
    let lines = text.split('\n').map(|line| line.split(' ').map(shortened_word).collect::<Vec<_>>().join(" "));
    lines.collect::<Vec<_>>().join("\n")
}

fn shortened_word(word: &str) -> String {
    if word.len() <= SHORT_WORD {
        return word.to_owned();
    }
    match bytes::parse(word) {
        Some(bytes) if bytes.len() > FIRST + LAST => {
            let (first, last) = (&bytes[..FIRST], &bytes[bytes.len() - LAST..]);
            format!("{}...{}({} bytes)", bytes::text(first), bytes::text(last), bytes.len())
        }
        _ => word.to_owned(),
    }
}

#[cfg(test)]
mod tests {
    use super::{report, shortened, TARGET};
    use crate::bytes;
    use crate::{Input, Rng};
    use std::fs;
    use std::path::Path;

    #[test]
    fn long_strings_are_shortened_and_short_ones_are_not() {
        let noise = Rng::new(1).bytes(1000);
        let text = bytes::text(&noise);
        let short = format!("{}...{}(1000 bytes)", &text[..64], &text[text.len() - 16..]);
        assert_eq!(shortened(&format!("pu 5 200 {text} EE*1000\n  x")), format!("pu 5 200 {short} EE*1000\n  x"));
        let noise = [vec![7; 100], noise, vec![9; 100]].concat();
        assert_eq!(shortened(&bytes::text(&noise)), "07*32...09*8(1200 bytes)");
        let forty = bytes::text(&Rng::new(2).bytes(40));
        assert_eq!(shortened(&forty), forty);
        let no_bytes = "x".repeat(500);
        assert_eq!(shortened(&no_bytes), no_bytes);
    }

    /// The largest text has five buffers in its case and two with each answer.
    #[test]
    fn a_report_of_long_buffers_is_short_and_its_file_is_complete() {
        let noise = bytes::text(&Rng::new(3).bytes(5000));
        let case = format!("pc 50 100 1 {noise} {noise} {noise} {noise} {noise}");
        let text = format!("different: the answer\n  {case}\n  IronRDP: {noise} {noise}\n  rdp6: {noise} {noise}");
        let file = "report-test.txt";
        let printed = report(&text, file);
        assert!(printed.lines().count() <= 20 && printed.len() <= 20 * 200, "{} characters", printed.len());
        assert!(printed.ends_with("\n  the complete case: differential/target/report-test.txt"), "{printed}");
        let path = Path::new(TARGET).join(file);
        let written = fs::read_to_string(&path).unwrap();
        fs::remove_file(path).unwrap();
        assert_eq!(written, text);
        let line = written.lines().nth(1).unwrap();
        assert_eq!(Input::parse(line).map(|input| input.to_string()), Some(case));
    }

    #[test]
    fn a_short_report_is_complete() {
        let noise = bytes::text(&Rng::new(4).bytes(300));
        assert_eq!(report(&noise, "no-file.txt"), noise);
        assert!(!Path::new(TARGET).join("no-file.txt").exists());
    }
}
