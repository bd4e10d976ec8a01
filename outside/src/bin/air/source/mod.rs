//! What samples are made of.

pub mod capture;
pub mod looped;
pub mod silence;
pub mod tone;
pub mod wave;

use outside::boundary::Library;
use outside::station::{Channel, Settings};

use crate::args::Kind;
use looped::Looped;

/// The greatest and the least sample that the library cuts packets from, and how many bits that takes.
pub const GREATEST: i32 = 8_388_607;
pub const LEAST: i32 = -8_388_608;
pub const BITS: u64 = 24;

/// I and Q of a pair.
pub const PAIR: usize = 2;

/// What a source is told of the box for the samples of one packet.
pub struct Tuned<'a> {
    /// those that are open, in their order in a packet
    pub channels: &'a [Channel],
    /// samples a second
    pub rate: f64,
}

pub trait Source {
    /// A capture begins, of a box with these settings and this rate.
    fn start(&mut self, settings: &Settings, rate: f64);

    /// The next samples, a packet's numbers: pair by pair, of each channel in turn, each from LEAST to GREATEST.
    fn fill(&mut self, tuned: &Tuned, numbers: &mut [i32]);
}

/// Opens what the command line names, or says why it is no source.
pub fn open(kind: Kind, library: &'static (dyn Library + Sync)) -> Result<Box<dyn Source>, String> {
    Ok(match kind {
        Kind::Silence => Box::new(silence::Silence),
        Kind::Tones(tones) => Box::new(tone::Tones::new(tones)),
        Kind::Capture(path) => Box::new(Looped::open(&path, |file| capture::CaptureTape::of(library, file))?),
        Kind::Wave(path) => Box::new(Looped::open(&path, wave::WaveTape::of)?),
    })
}
