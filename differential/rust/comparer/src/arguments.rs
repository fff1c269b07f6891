//! The words of a command line, as the programs of this workspace read them.

use std::process::ExitCode;

/// The largest number of seconds, some thirty years: more could not be added to the clock's time.
const MAX_SECONDS: u64 = 1_000_000_000;

/// Whether the usage is asked for.
pub fn asks_for_help(words: &[&str]) -> bool {
    words.iter().any(|word| ["-h", "--help"].contains(word))
}

pub fn seconds(word: &str) -> Result<u64, String> {
    match word.parse() {
        Ok(seconds) if seconds <= MAX_SECONDS => Ok(seconds),
        _ => Err(format!("SECONDS must be a number from 0 to {MAX_SECONDS}: {word}")),
    }
}

pub fn seed(word: &str) -> Result<u64, String> {
    word.parse().map_err(|_| format!("SEED must be a number from 0 to {}: {word}", u64::MAX))
}

/// What is wrong with a word that has no meaning in its place.
pub fn unexpected(word: &str) -> String {
    if word.starts_with('-') {
        format!("unknown option: {word}")
    } else {
        format!("unexpected word: {word}")
    }
}

/// The status of a program whose words are wrong, which are named on the error stream.
pub fn refused(program: &str, why: &str) -> ExitCode {
    eprintln!("{program}: {why} (--help shows the usage)");
    ExitCode::from(2)
}

#[cfg(test)]
mod tests {
    use super::{asks_for_help, seconds, seed, unexpected};

    #[test]
    fn numbers_are_read_and_other_words_are_named() {
        assert_eq!(seconds("10"), Ok(10));
        assert_eq!(seed("18446744073709551615"), Ok(u64::MAX));
        for word in ["ten", "-1", "1.5", "", "10s", "1000000001", "18446744073709551616"] {
            let why = seconds(word).unwrap_err();
            assert!(why.ends_with(&format!(": {word}")), "{why}");
        }
        assert!(seed("18446744073709551616").unwrap_err().ends_with(": 18446744073709551616"));
        assert_eq!(unexpected("--fast"), "unknown option: --fast");
        assert_eq!(unexpected("more"), "unexpected word: more");
    }

    #[test]
    fn help_is_asked_for_by_two_words() {
        assert!(asks_for_help(&["5", "--help"]));
        assert!(asks_for_help(&["-h"]));
        assert!(!asks_for_help(&["help"]));
    }
}
