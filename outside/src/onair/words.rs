//! A command line of options and files.

use std::fmt::Display;
use std::str::FromStr;

/// The words that are left, the next one first.
pub struct Words {
    words: std::vec::IntoIter<String>,
}

impl Words {
    /// The words behind the program's name. A word that is no text is one that no option allows.
    pub fn of_command() -> Self {
        Words::of(std::env::args_os().skip(1).map(|word| word.to_string_lossy().into_owned()).collect())
    }

    pub fn of(words: Vec<String>) -> Self {
        Words { words: words.into_iter() }
    }

    pub fn next_word(&mut self) -> Option<String> {
        self.words.next()
    }

    /// The word behind an option.
    pub fn value(&mut self, option: &str) -> Result<String, String> {
        self.next_word().ok_or_else(|| format!("{option} wants a word behind it"))
    }

    /// The word behind an option, as a number in a range; `allowed` says what it may be.
    pub fn number<T: FromStr>(&mut self, option: &str, allowed: impl Display) -> Result<T, String> {
        let word = self.value(option)?;
        word.parse().map_err(|_| format!("{option} {word}: it may be {allowed}"))
    }
}
