//! The table of items, and the rules for each value.

use crate::message::Kind;

#[derive(Clone, Copy, Debug, PartialEq, Eq)]
#[repr(u16)]
pub enum Item {
    Name = 0x0001,
    Serial = 0x0002,
    Interface = 0x0003,
    Versions = 0x0004,
    Status = 0x0005,
    State = 0x0018,
    ChannelSetup = 0x0019,
    Frequency = 0x0020,
    Gain = 0x0038,
    Clock = 0x00B0,
    Rate = 0x00B8,
    PacketSize = 0x00C4,
}

impl Item {
    pub fn from_code(code: u16) -> Option<Self> {
        Some(match code {
            0x0001 => Item::Name,
            0x0002 => Item::Serial,
            0x0003 => Item::Interface,
            0x0004 => Item::Versions,
            0x0005 => Item::Status,
            0x0018 => Item::State,
            0x0019 => Item::ChannelSetup,
            0x0020 => Item::Frequency,
            0x0038 => Item::Gain,
            0x00B0 => Item::Clock,
            0x00B8 => Item::Rate,
            0x00C4 => Item::PacketSize,
            _ => return None,
        })
    }

    /// The total length that the table gives for this kind; `None` where it has a dash.
    pub fn expected(self, kind: Kind) -> Option<usize> {
        match (self, kind) {
            (Item::State, Kind::Set) => Some(8),
            (Item::Frequency, Kind::Set) => Some(10),
            (Item::Gain, Kind::Set) => Some(6),
            (Item::Clock | Item::Rate, Kind::Set) => Some(9),
            (Item::ChannelSetup | Item::PacketSize, Kind::Set) => Some(5),
            (_, Kind::Set) => None,
            (Item::Versions | Item::Frequency | Item::Gain | Item::Clock | Item::Rate, Kind::Request) => Some(5),
            (_, Kind::Request) => Some(4),
            (Item::Frequency, Kind::Range) => Some(5),
            (_, Kind::Range) => None,
        }
    }

    /// The total length of the reply to a set or a request: the item's set layout with the current value.
    pub fn reply_length(self) -> usize {
        match self {
            Item::Name => 11,
            Item::Serial => 13,
            Item::Interface | Item::Gain => 6,
            Item::Versions => 7,
            Item::Status | Item::ChannelSetup | Item::PacketSize => 5,
            Item::State => 8,
            Item::Frequency => 10,
            Item::Clock | Item::Rate => 9,
        }
    }
}

pub const NAME: &[u8; 7] = b"NetSDR\0";
pub const INTERFACE: u16 = 105;
pub const STATUS_IDLE: u8 = 0x0B;
pub const STATUS_RUNNING: u8 = 0x0C;

pub const COMPLEX: u8 = 0x80;
pub const RUN_IDLE: u8 = 1;
pub const RUN_START: u8 = 2;
pub const MODE_24: u8 = 0x80;
pub const MODE_16: u8 = 0x00;

/// Channel setup: one channel, or two from one converter.
pub const SETUP_SINGLE: u8 = 0;
pub const SETUP_DUAL: u8 = 4;

/// Channel bytes: the first channel, the second, and all that are open, where a set sets them to the same value.
pub const CHANNEL_1: u8 = 0x00;
pub const CHANNEL_2: u8 = 0x02;
pub const ALL_CHANNELS: u8 = 0xFF;

pub const SIZE_LARGE: u8 = 0;
pub const SIZE_SMALL: u8 = 1;

/// The two bytes of a version, by its id.
pub fn version(id: u8) -> Option<[u8; 2]> {
    const VERSIONS: [[u8; 2]; 4] = [[0x64, 0x00], [0x6B, 0x00], [0x66, 0x00], [0x01, 0x07]];
    VERSIONS.get(usize::from(id)).copied()
}

pub fn gain_allowed(gain: i8) -> bool {
    matches!(gain, 0 | -10 | -20 | -30)
}

pub fn clock_allowed(clock: u32) -> bool {
    (79_992_000..=80_008_000).contains(&clock)
}

pub fn mode_allowed(mode: u8) -> bool {
    matches!(mode, MODE_24 | MODE_16)
}

pub fn setup_allowed(setup: u8) -> bool {
    matches!(setup, SETUP_SINGLE | SETUP_DUAL)
}

pub fn size_allowed(size: u8) -> bool {
    matches!(size, SIZE_LARGE | SIZE_SMALL)
}

#[inline(always)] // as the test of a box, which it is a part of
pub fn serial_allowed(serial: &[u8]) -> bool {
    serial.len() == 8 && serial.iter().all(|c| c.is_ascii_uppercase() || c.is_ascii_digit())
}
