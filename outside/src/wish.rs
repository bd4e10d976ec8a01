//! The harvester's wishes: one for each kind and item, with a channel byte where the message has one.

use crate::code::Code;
use crate::item::{self, Item};
use crate::message::{Header, Kind};
use crate::{rate, tuning};

/// The state to be set. Idle is run byte 1, and its mode is not looked at.
#[derive(Clone, Copy, Debug, PartialEq, Eq)]
pub struct StateWish {
    pub run: u8,
    pub mode: u8,
}

#[derive(Clone, Copy, Debug, PartialEq, Eq)]
pub enum Wish {
    Name,
    Serial,
    Interface,
    Version(u8),
    Status,
    State,
    ChannelSetup,
    /// the channel byte, which comes first in all that have one
    Frequency(u8),
    Gain(u8),
    Clock(u8),
    Rate(u8),
    PacketSize,
    FrequencyRange(u8),
    SetState(StateWish),
    SetChannelSetup(u8),
    SetFrequency(u8, u64),
    SetGain(u8, i8),
    SetClock(u8, u32),
    SetRate(u8, u32),
    SetPacketSize(u8),
}

impl Wish {
    pub fn kind(self) -> Kind {
        match self {
            Wish::SetState(_)
            | Wish::SetChannelSetup(_)
            | Wish::SetFrequency(..)
            | Wish::SetGain(..)
            | Wish::SetClock(..)
            | Wish::SetRate(..)
            | Wish::SetPacketSize(_) => Kind::Set,
            Wish::FrequencyRange(_) => Kind::Range,
            _ => Kind::Request,
        }
    }

    pub fn item(self) -> Item {
        match self {
            Wish::Name => Item::Name,
            Wish::Serial => Item::Serial,
            Wish::Interface => Item::Interface,
            Wish::Version(_) => Item::Versions,
            Wish::Status => Item::Status,
            Wish::State | Wish::SetState(_) => Item::State,
            Wish::ChannelSetup | Wish::SetChannelSetup(_) => Item::ChannelSetup,
            Wish::Frequency(_) | Wish::SetFrequency(..) | Wish::FrequencyRange(_) => Item::Frequency,
            Wish::Gain(_) | Wish::SetGain(..) => Item::Gain,
            Wish::Clock(_) | Wish::SetClock(..) => Item::Clock,
            Wish::Rate(_) | Wish::SetRate(..) => Item::Rate,
            Wish::PacketSize | Wish::SetPacketSize(_) => Item::PacketSize,
        }
    }

    /// The byte that a reply repeats: the channel, or the id of a version.
    pub fn echo(self) -> Option<u8> {
        match self {
            Wish::Version(byte)
            | Wish::Frequency(byte)
            | Wish::Gain(byte)
            | Wish::Clock(byte)
            | Wish::Rate(byte)
            | Wish::FrequencyRange(byte)
            | Wish::SetFrequency(byte, _)
            | Wish::SetGain(byte, _)
            | Wish::SetClock(byte, _)
            | Wish::SetRate(byte, _) => Some(byte),
            _ => None,
        }
    }

    /// Why the writer refuses: 15 or 16, for what no box would take, running or not.
    #[inline(always)] // into both callers: a wish that is handed on in memory takes longer
    pub fn check(self) -> Result<(), Code> {
        if !self.channel_allowed() {
            return Err(Code::ChannelNotAllowed);
        }
        if !self.value_allowed() {
            return Err(Code::ValueNotAllowed);
        }
        Ok(())
    }

    /// Whether some box takes the channel byte, if there is one, for this kind and item.
    fn channel_allowed(self) -> bool {
        match self {
            Wish::SetFrequency(channel, _) | Wish::SetGain(channel, _) => {
                matches!(channel, item::CHANNEL_1 | item::CHANNEL_2 | item::ALL_CHANNELS)
            }
            Wish::Frequency(channel) | Wish::FrequencyRange(channel) | Wish::Gain(channel) => {
                matches!(channel, item::CHANNEL_1 | item::CHANNEL_2)
            }
            _ => true,
        }
    }

    fn value_allowed(self) -> bool {
        match self {
            Wish::Version(id) => item::version(id).is_some(),
            Wish::SetState(StateWish { run: item::RUN_IDLE, .. }) => true,
            Wish::SetState(StateWish { run, mode }) => run == item::RUN_START && item::mode_allowed(mode),
            Wish::SetChannelSetup(setup) => item::setup_allowed(setup),
            Wish::SetFrequency(_, frequency) => tuning::frequency_allowed(frequency),
            Wish::SetGain(_, gain) => item::gain_allowed(gain),
            Wish::SetClock(_, clock) => item::clock_allowed(clock),
            Wish::SetRate(_, rate) => rate::rate_allowed(rate),
            Wish::SetPacketSize(size) => item::size_allowed(size),
            _ => true,
        }
    }

    /// Writes the wish's message; answers its length.
    pub fn write(self, buffer: &mut [u8]) -> Result<usize, Code> {
        self.check()?;
        if buffer.len() < 16 {
            return Err(Code::NoRoom);
        }
        // every kind and item that a wish has is offered
        let length = self.item().expected(self.kind()).unwrap_or(4);
        let message = &mut buffer[..length];
        let header = Header { kind: self.kind() as u8, length: length as u16 };
        message[..2].copy_from_slice(&header.bytes());
        message[2..4].copy_from_slice(&(self.item() as u16).to_le_bytes());
        let parameters = &mut message[4..];
        if let Some(echo) = self.echo() {
            parameters[0] = echo;
        }
        match self {
            Wish::SetState(StateWish { run: item::RUN_IDLE, .. }) => {
                parameters.copy_from_slice(&[0x00, item::RUN_IDLE, 0x00, 0x00]);
            }
            Wish::SetState(StateWish { run, mode }) => {
                parameters.copy_from_slice(&[item::COMPLEX, run, mode, 0x00]);
            }
            Wish::SetFrequency(_, frequency) => {
                parameters[1..].copy_from_slice(&tuning::frequency_bytes(frequency));
            }
            Wish::SetGain(_, gain) => parameters[1] = gain as u8,
            Wish::SetClock(_, hertz) | Wish::SetRate(_, hertz) => {
                parameters[1..].copy_from_slice(&hertz.to_le_bytes());
            }
            Wish::SetChannelSetup(byte) | Wish::SetPacketSize(byte) => parameters[0] = byte,
            _ => {}
        }
        Ok(length)
    }
}
