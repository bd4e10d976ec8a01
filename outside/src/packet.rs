//! Packets and numbers: the four forms, the number at each position, the samples' bytes.

use crate::item;
use crate::message::Header;

/// How a packet is laid out.
#[derive(Clone, Copy, Debug, PartialEq, Eq)]
pub struct Form {
    /// bits of a sample
    pub bits: u64,
    /// I/Q pairs in a packet, of all channels together
    pub pairs: u64,
}

impl Form {
    pub const LARGE_24: Form = Form { bits: 24, pairs: 240 };
    pub const SMALL_24: Form = Form { bits: 24, pairs: 64 };
    pub const LARGE_16: Form = Form { bits: 16, pairs: 256 };
    pub const SMALL_16: Form = Form { bits: 16, pairs: 128 };
    pub const LISTED: [Form; 4] = [Form::LARGE_24, Form::SMALL_24, Form::LARGE_16, Form::SMALL_16];

    pub fn of_settings(mode: u8, size: u8) -> Form {
        match (mode == item::MODE_24, size == item::SIZE_LARGE) {
            (true, true) => Form::LARGE_24,
            (true, false) => Form::SMALL_24,
            (false, true) => Form::LARGE_16,
            (false, false) => Form::SMALL_16,
        }
    }

    /// The form that a packet's two header bytes name.
    pub fn of_header(header: [u8; 2]) -> Option<Form> {
        match header {
            [0xA4, 0x85] => Some(Form::LARGE_24),
            [0x84, 0x81] => Some(Form::SMALL_24),
            [0x04, 0x84] => Some(Form::LARGE_16),
            [0x04, 0x82] => Some(Form::SMALL_16),
            _ => None,
        }
    }

    /// The form of a slice that is one whole packet.
    pub fn of_packet(packet: &[u8]) -> Option<Form> {
        let &[low, high, ..] = packet else { return None };
        Form::of_header([low, high]).filter(|form| form.total() == packet.len())
    }

    pub fn is_listed(self) -> bool {
        Form::LISTED.contains(&self)
    }

    /// I/Q pairs of each channel, where a packet holds one or two.
    pub fn pairs_each(self, channels: u8) -> u64 {
        if channels == 2 {
            self.pairs / 2
        } else {
            self.pairs
        }
    }

    /// Numbers in a packet: I and Q of each pair.
    pub fn samples(self) -> usize {
        2 * self.pairs as usize
    }

    /// Bytes of a packet in all.
    pub fn total(self) -> usize {
        4 + self.samples() * self.bits as usize / 8
    }

    pub fn header(self) -> [u8; 2] {
        Header { kind: 4, length: self.total() as u16 }.bytes()
    }
}

/// The number of the packet at a position.
pub fn number_at(position: u64) -> u16 {
    match position {
        0 => 0,
        _ => ((position - 1) % 65_535 + 1) as u16,
    }
}

pub fn samples_fit(samples: &[i32]) -> bool {
    // one pass without an early exit: it is made of vector instructions
    !samples.iter().fold(false, |bad, x| bad | !(-8_388_608..=8_388_607).contains(x))
}

/// What is sent of a sample at 16 bits: a 256th of it to the nearest whole number, halves up, but none above 32,767.
pub fn to_sixteen(sample: i32) -> i16 {
    ((sample + 128) >> 8).clamp(-32_768, 32_767) as i16
}

/// Writes a packet into a slice of exactly the form's length.
pub fn write(form: Form, position: u64, samples: &[i32], packet: &mut [u8]) {
    packet[..2].copy_from_slice(&form.header());
    packet[2..4].copy_from_slice(&number_at(position).to_le_bytes());
    let body = &mut packet[4..];
    if form.bits == 24 {
        for (place, sample) in body.as_chunks_mut::<3>().0.iter_mut().zip(samples) {
            let [a, b, c, _] = sample.to_le_bytes();
            *place = [a, b, c];
        }
    } else {
        for (place, sample) in body.as_chunks_mut::<2>().0.iter_mut().zip(samples) {
            *place = to_sixteen(*sample).to_le_bytes();
        }
    }
}

/// The sample bytes of a packet, or nothing where the slice is no packet.
pub fn sample_bytes(packet: &[u8]) -> &[u8] {
    match Form::of_packet(packet) {
        Some(_) => &packet[4..],
        None => &[],
    }
}
