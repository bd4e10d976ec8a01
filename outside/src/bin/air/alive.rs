//! Whether a silent client is still there: where its machine is switched off or its network is gone, no end ever comes.

use std::io;
use std::net::TcpStream;

use outside::onair::c::{
    set_option, KEEP_ALIVE, KEEP_ALIVE_BETWEEN, KEEP_ALIVE_IDLE, KEEP_ALIVE_TIMES, UNACKNOWLEDGED,
};

/// A client that says nothing is asked after ten seconds, and is gone where it does not answer four times, or where it does
/// not acknowledge a reply for half a minute.
pub fn ask_after(stream: &TcpStream) -> io::Result<()> {
    set_option(stream, KEEP_ALIVE_IDLE, 10)?;
    set_option(stream, KEEP_ALIVE_BETWEEN, 5)?;
    set_option(stream, KEEP_ALIVE_TIMES, 4)?;
    set_option(stream, UNACKNOWLEDGED, 30_000)?;
    set_option(stream, KEEP_ALIVE, 1)
}
