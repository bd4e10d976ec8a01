//! Words on standard error.

use std::fmt::Display;
use std::io::{self, Write};

/// One line. A log that cannot be written is no reason to stop sending, so nothing comes of it.
pub fn say(words: impl Display) {
    // in one piece, since more than one thread has something to say
    let line = format!("air: {words}\n");
    if cfg!(test) {
        // which shows it only where the test fails, but panics where it cannot be written
        eprint!("{line}");
    } else {
        let _ = io::stderr().write_all(line.as_bytes());
    }
}
