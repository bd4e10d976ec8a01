//! The capture head: 14 bytes of version 1, or 26 of version 2, which names the box and its measured clock too.

use crate::code::Code;
use crate::packet::Form;
use crate::{item, rate, tuning};

pub const VERSION_1: u32 = 1;
pub const VERSION_2: u32 = 2;

/// Bytes of a head of version 1, and of those fields in version 2.
pub const LENGTH_1: usize = 14;
pub const LENGTH_2: usize = 26;

const MARK: &[u8; 3] = b"SPN";

/// The serial of a box that is not known.
pub const UNKNOWN: [u8; 8] = [0; 8];

/// The clock of a head that names none.
pub const USUAL_CLOCK: u32 = 80_000_000;

/// Bit 6 of the mode byte: the packets hold two channels.
pub const TWO_CHANNELS: u8 = 0x40;

#[derive(Clone, Copy, Debug, Default, PartialEq, Eq)]
pub struct Head {
    pub version: u32,
    pub divisor: u32,
    pub frequency: u64,
    /// the capture mode, and TWO_CHANNELS
    pub mode: u8,
    pub size: u8,
    /// of version 1 UNKNOWN
    pub serial: [u8; 8],
    /// Hz, of version 1 USUAL_CLOCK
    pub clock: u32,
}

impl Head {
    #[inline(always)] // this and `read` into all callers: a head that is handed on in memory takes twice as long
    pub fn is_allowed(&self) -> bool {
        let named = match self.version {
            VERSION_1 => self.serial == UNKNOWN && self.clock == USUAL_CLOCK,
            VERSION_2 => serial_allowed(self.serial) && item::clock_allowed(self.clock),
            _ => false,
        };
        named
            && rate::divisor_allowed(self.divisor)
            && tuning::frequency_allowed(self.frequency)
            && item::mode_allowed(self.capture_mode())
            && item::size_allowed(self.size)
    }

    /// The mode byte without bit 6.
    fn capture_mode(&self) -> u8 {
        self.mode & !TWO_CHANNELS
    }

    pub fn form(&self) -> Form {
        Form::of_settings(self.capture_mode(), self.size)
    }

    /// How many channels a packet holds.
    pub fn channels(&self) -> u8 {
        if self.mode & TWO_CHANNELS == 0 {
            1
        } else {
            2
        }
    }

    /// Bytes of an allowed head, behind which the packets begin.
    pub fn length(&self) -> usize {
        if self.version == VERSION_2 {
            LENGTH_2
        } else {
            LENGTH_1
        }
    }

    /// Writes the head into the first bytes of the buffer; answers how many.
    pub fn write(&self, buffer: &mut [u8]) -> Result<usize, Code> {
        if !self.is_allowed() {
            return Err(Code::ValueNotAllowed);
        }
        self.put(buffer)
    }

    /// The same for a head that is allowed.
    fn put(&self, buffer: &mut [u8]) -> Result<usize, Code> {
        let head = buffer.get_mut(..self.length()).ok_or(Code::NoRoom)?;
        head[..3].copy_from_slice(MARK);
        head[3..5].copy_from_slice(&(self.version as u16).to_le_bytes());
        head[5..7].copy_from_slice(&(self.divisor as u16).to_le_bytes());
        head[7..12].copy_from_slice(&tuning::frequency_bytes(self.frequency));
        head[12..14].copy_from_slice(&[self.mode, self.size]);
        if self.version == VERSION_2 {
            head[14..22].copy_from_slice(&self.serial);
            head[22..26].copy_from_slice(&self.clock.to_le_bytes());
        }
        Ok(head.len())
    }

    /// Reads a head from the first 14 or 26 bytes given.
    #[inline(always)]
    pub fn read(bytes: &[u8]) -> Result<Head, Code> {
        let &[b'S', b'P', b'N', v0, v1, d0, d1, f0, f1, f2, f3, f4, mode, size, ref rest @ ..] = bytes else {
            return Err(Code::NotAHead);
        };
        let version = u16::from_le_bytes([v0, v1]).into();
        if version != VERSION_1 && version != VERSION_2 {
            return Err(Code::OtherVersion);
        }
        let (serial, clock) = if version == VERSION_2 {
            let &[serial @ .., c0, c1, c2, c3] = rest.first_chunk::<12>().ok_or(Code::NotAHead)?;
            (serial, u32::from_le_bytes([c0, c1, c2, c3]))
        } else {
            (UNKNOWN, USUAL_CLOCK)
        };
        let head = Head {
            version,
            divisor: u16::from_le_bytes([d0, d1]).into(),
            frequency: tuning::frequency_from([f0, f1, f2, f3, f4]),
            mode,
            size,
            serial,
            clock,
        };
        if !head.is_allowed() {
            return Err(Code::NotAHead);
        }
        Ok(head)
    }

    /// The same head in version 2.
    pub fn newer(self) -> Head {
        Head { version: VERSION_2, ..self }
    }

    /// The same head in version 1, which has no place for a serial or a clock.
    pub fn older(self) -> Result<Head, Code> {
        if self.serial != UNKNOWN || self.clock != USUAL_CLOCK {
            return Err(Code::WouldLose);
        }
        Ok(Head { version: VERSION_1, ..self })
    }
}

/// By value: a head whose serial is lent has to lie in memory.
fn serial_allowed(serial: [u8; 8]) -> bool {
    serial == UNKNOWN || item::serial_allowed(&serial)
}

/// Reads a head of either version and writes it in version 2; answers how many bytes that is.
pub fn newer(bytes: &[u8], buffer: &mut [u8]) -> Result<usize, Code> {
    Head::read(bytes)?.newer().put(buffer)
}

/// Reads a head of either version and writes it in version 1; answers how many bytes that is.
pub fn older(bytes: &[u8], buffer: &mut [u8]) -> Result<usize, Code> {
    Head::read(bytes)?.older()?.put(buffer)
}
