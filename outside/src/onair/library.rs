//! The library that decides: the proved one where it was linked in.

use crate::boundary::Library;

#[cfg(proved)]
static DECIDES: crate::proved::Proved = crate::proved::Proved;
#[cfg(not(proved))]
static DECIDES: crate::boundary::Plain = crate::boundary::Plain;

/// The proved library. Without it the programs build all the same, for their tests, and the plain one decides: see
/// [`is_proved`].
pub fn library() -> &'static (dyn Library + Sync) {
    &DECIDES
}

/// Whether what [`library`] answers is proved; a program that is not built so says it when it starts.
pub const fn is_proved() -> bool {
    cfg!(proved)
}

/// What the library answers where a call did what was asked.
pub const DONE: u8 = 1;
