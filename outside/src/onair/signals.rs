//! Ctrl-C, and a polite request to end: noted, for the program to end in its own time.

use std::sync::atomic::{AtomicBool, Ordering};

use super::c::{ignore_signal, on_signal, SIGHUP, SIGINT, SIGTERM};

static ASKED: AtomicBool = AtomicBool::new(false);

/// Does nothing but store into an atomic, which a handler may.
extern "C" fn note(_number: i32) {
    ASKED.store(true, Ordering::Relaxed);
}

/// From now on these signals are noted, and no longer end the process. A terminal that goes is heeded too, but not where
/// the program was started so that it outlives one (nohup).
pub fn heed() {
    on_signal(SIGINT, note);
    on_signal(SIGTERM, note);
    if on_signal(SIGHUP, note) {
        ignore_signal(SIGHUP);
    }
}

/// Whether the program has been asked to end.
pub fn asked_to_end() -> bool {
    ASKED.load(Ordering::Relaxed)
}
