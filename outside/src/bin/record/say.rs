//! Words on standard error.

use std::fmt::Display;
use std::io::{stderr, Write};

/// Says a line. Where standard error is gone (a terminal that was closed), the recording goes on without words: `eprintln!`
/// would end it.
pub fn say(line: impl Display) {
    let _ = writeln!(stderr().lock(), "record: {line}");
}
