//! The packet reader: positions, and unpacking.

use crate::code::Code;
use crate::packet::{number_at, Form};

pub const LAST_POSITION: u64 = 3_999_999_999;

/// The longest step from one packet that is heard to the next: a full turn of the number.
const TURN: u64 = 65_535;

/// What a reader has heard of the capture so far; before the first packet all is zero.
#[derive(Clone, Copy, Debug, PartialEq, Eq)]
pub struct Reader {
    pub heard: bool,
    pub position: u64,
    /// packets missed up to that position
    pub total: u64,
    pub form: Form,
    /// how many channels a packet holds, 1 or 2, as it was told when made
    pub channels: u8,
}

/// Where a packet stands in its capture, and what is missing there. A capture starts where all is zero.
#[derive(Clone, Copy, Debug, Default, PartialEq, Eq)]
pub struct Place {
    pub position: u64,
    /// the position of its first sample, of each channel
    pub sample: u64,
    /// packets missed just before it
    pub missed: u64,
    /// packets missed in the capture so far
    pub total: u64,
}

impl Reader {
    /// A reader of captures with so many channels, which has heard nothing yet.
    pub fn new(channels: u8) -> Self {
        Reader { heard: false, position: 0, total: 0, form: Form { bits: 0, pairs: 0 }, channels }
    }

    pub fn is_sound(&self) -> bool {
        if !matches!(self.channels, 1 | 2) {
            return false;
        }
        if self.heard {
            self.position <= LAST_POSITION && self.steps_give_total() && self.form.is_listed()
        } else {
            *self == Reader::new(self.channels)
        }
    }

    /// Of each step all but one packet is missed: the rest is how many steps there were, and none leads further than a turn.
    fn steps_give_total(&self) -> bool {
        self.position.checked_sub(self.total).is_some_and(|steps| self.position <= steps * TURN)
    }

    pub fn read(&mut self, packet: &[u8]) -> Result<Place, Code> {
        if !self.is_sound() {
            return Err(Code::Broken);
        }
        let form = Form::of_packet(packet).ok_or(Code::NotAPacket)?;
        let number = u16::from_le_bytes([packet[2], packet[3]]);
        let place = if number == 0 { Place::default() } else { self.next(form, number)? };
        *self = Reader { heard: true, position: place.position, total: place.total, form, ..*self };
        Ok(place)
    }

    /// The place of a packet numbered above 0 within the capture.
    fn next(&self, form: Form, number: u16) -> Result<Place, Code> {
        if !self.heard {
            return Err(Code::NoFirstPacket);
        }
        if form != self.form {
            return Err(Code::FormChanged);
        }
        let last = number_at(self.position);
        let turn = if number > last { 0 } else { TURN };
        let step = turn + u64::from(number) - u64::from(last);
        let position = self.position + step;
        if position > LAST_POSITION {
            return Err(Code::PastLast);
        }
        let missed = step - 1;
        Ok(Place { position, sample: position * form.pairs_each(self.channels), missed, total: self.total + missed })
    }
}

/// Writes a packet's I and Q in turn, those of two channels as they stand in it, as signed numbers of the width sent; answers
/// how many.
pub fn unpack(packet: &[u8], numbers: &mut [i32]) -> Result<usize, Code> {
    let form = Form::of_packet(packet).ok_or(Code::NotAPacket)?;
    let numbers = numbers.get_mut(..form.samples()).ok_or(Code::NoRoom)?;
    let body = &packet[4..];
    if form.bits == 24 {
        for (number, &[a, b, c]) in numbers.iter_mut().zip(body.as_chunks::<3>().0) {
            *number = i32::from_le_bytes([0, a, b, c]) >> 8;
        }
    } else {
        for (number, &b) in numbers.iter_mut().zip(body.as_chunks::<2>().0) {
            *number = i16::from_le_bytes(b).into();
        }
    }
    Ok(numbers.len())
}

/// The same by `chunks_exact`; `as_chunks` is newer (Rust 1.88), and at 16 bits more than twice as fast. Kept for the
/// benchmarks.
pub fn unpack_by_chunks(packet: &[u8], numbers: &mut [i32]) -> Result<usize, Code> {
    let form = Form::of_packet(packet).ok_or(Code::NotAPacket)?;
    let numbers = numbers.get_mut(..form.samples()).ok_or(Code::NoRoom)?;
    let body = &packet[4..];
    if form.bits == 24 {
        for (number, b) in numbers.iter_mut().zip(body.chunks_exact(3)) {
            *number = i32::from_le_bytes([0, b[0], b[1], b[2]]) >> 8;
        }
    } else {
        for (number, b) in numbers.iter_mut().zip(body.chunks_exact(2)) {
            *number = i16::from_le_bytes([b[0], b[1]]).into();
        }
    }
    Ok(numbers.len())
}

/// Reads packets of `each` bytes one after another by a new reader of so many channels, to the first that is refused: the
/// position of the last packet's first sample, and how many packets were missed in its capture up to it.
#[inline(never)]
pub fn read_run(channels: u8, packets: &[u8], each: usize) -> (u64, u64) {
    let mut reader = Reader::new(channels);
    let mut sample = 0;
    for packet in packets.chunks_exact(each) {
        match reader.read(packet) {
            Ok(place) => sample = place.sample,
            Err(_) => break,
        }
    }
    (sample, reader.total)
}
