//! What the two programs on the air share: `air`, the station, and `record`, the night recorder.
//!
//! They move bytes between sockets, files and the library, and know no rule of the protocol themselves: what a message
//! is, what the box answers, how a packet is cut and read, how long a sample takes is for the library to say.

/// Where a NetSDR listens for control, unless it is told otherwise.
pub const CONTROL_PORT: u16 = 50_000;

pub mod c;
pub mod library;
pub mod signals;
pub mod words;
