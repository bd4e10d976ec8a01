//! The box, as the library has it: in bytes that only the library changes.

use outside::boundary::{station_in, Library, Shape, StationBytes, RUNNING_AT, STATION_BYTES};
use outside::onair::library::DONE;
use outside::station::Settings;

/// Room for any reply.
const ROOM: usize = 4096;

pub struct Unit {
    library: &'static (dyn Library + Sync),
    fresh: StationBytes,
    state: StationBytes,
    room: [u8; ROOM],
}

/// What one call of feeding came to.
pub struct Fed<'a> {
    pub code: u8,
    pub consumed: usize,
    /// empty where none is due
    pub reply: &'a [u8],
}

impl Unit {
    /// A fresh box, or the library's code where the serial is none.
    pub fn new(library: &'static (dyn Library + Sync), serial: &str) -> Result<Self, u8> {
        let mut fresh = [0; STATION_BYTES];
        match library.fresh(serial.as_bytes(), &mut fresh) {
            DONE => Ok(Unit { library, fresh, state: fresh, room: [0; ROOM] }),
            code => Err(code),
        }
    }

    pub fn library(&self) -> &'static (dyn Library + Sync) {
        self.library
    }

    /// The box is fresh again.
    pub fn renew(&mut self) {
        self.state = self.fresh;
    }

    pub fn settings(&self) -> Settings {
        station_in(&self.state).settings
    }

    /// The same as its settings have it, without reading the others.
    pub fn is_running(&self) -> bool {
        self.state[RUNNING_AT] != 0
    }

    pub fn feed(&mut self, host: &[u8]) -> Fed<'_> {
        let (code, consumed, wrote) = self.library.feed(&mut self.state, host, &mut self.room);
        Fed { code, consumed, reply: self.room.get(..wrote).unwrap_or(&[]) }
    }

    /// How its packets are laid out, or the library's code where it has no answer.
    pub fn shape(&self) -> Result<Shape, u8> {
        let settings = self.settings();
        let mode = match self.library.head_mode(settings.mode, settings.setup) {
            (DONE, mode) => mode,
            (code, _) => return Err(code),
        };
        match self.library.shape(mode, settings.size) {
            (DONE, shape) => Ok(shape),
            (code, _) => Err(code),
        }
    }

    /// Cuts the next packet; how many bytes it has, or the library's code.
    pub fn cut(&mut self, numbers: &[i32], packet: &mut [u8]) -> Result<usize, u8> {
        match self.library.cut(&mut self.state, numbers, packet) {
            (DONE, wrote) => Ok(wrote),
            (code, _) => Err(code),
        }
    }
}
