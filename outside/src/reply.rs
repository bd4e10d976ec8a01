//! The reply reader: which bytes some valid box could have answered to a wish.

use crate::code::Code;
use crate::item::{self, Item};
use crate::message::{Header, Kind, NAK};
use crate::wish::{StateWish, Wish};
use crate::{rate, tuning};

/// What a reply says.
#[derive(Clone, Copy, Debug, PartialEq, Eq)]
pub enum Reply {
    Nak,
    Name,
    Serial([u8; 8]),
    Interface(u16),
    Version([u8; 2]),
    Status { running: bool },
    State { running: bool, mode: u8 },
    ChannelSetup(u8),
    Frequency(u64),
    Gain(i8),
    Clock(u32),
    Rate(u32),
    PacketSize(u8),
    FrequencyRange,
}

/// Reads the bytes that came for a wish: the writer's code where it would refuse the wish, 28 where no valid box answers so.
pub fn read(wish: Wish, bytes: &[u8]) -> Result<Reply, Code> {
    wish.check()?;
    if bytes == NAK {
        return Ok(Reply::Nak);
    }
    body_of(wish, bytes).and_then(|body| value(wish, body)).ok_or(Code::NotAReply)
}

/// What follows header, item code and the byte that is repeated, where these are those of a reply to the wish.
fn body_of(wish: Wish, bytes: &[u8]) -> Option<&[u8]> {
    let (kind, length) = match wish.kind() {
        Kind::Range => (2, 36),
        _ => (0, wish.item().reply_length()),
    };
    let body = bytes
        .strip_prefix(&Header { kind, length: length as u16 }.bytes())?
        .strip_prefix(&(wish.item() as u16).to_le_bytes())?;
    if bytes.len() != length {
        return None;
    }
    match wish.echo() {
        Some(echo) => body.strip_prefix(&[echo]),
        None => Some(body),
    }
}

fn value(wish: Wish, body: &[u8]) -> Option<Reply> {
    if wish.kind() == Kind::Range {
        return (body == RANGES).then_some(Reply::FrequencyRange);
    }
    let reply = any_value(wish, body)?;
    let as_set = match (wish, reply) {
        (Wish::SetState(StateWish { run: item::RUN_IDLE, .. }), Reply::State { running, .. }) => !running,
        (Wish::SetState(wished), Reply::State { running, mode }) => running && mode == wished.mode,
        (Wish::SetChannelSetup(wished), Reply::ChannelSetup(setup)) => setup == wished,
        (Wish::SetFrequency(_, wished), Reply::Frequency(frequency)) => frequency == wished,
        (Wish::SetGain(_, wished), Reply::Gain(gain)) => gain == wished,
        (Wish::SetClock(_, wished), Reply::Clock(clock)) => clock == wished,
        (Wish::SetRate(_, wished), Reply::Rate(rate)) => rate == rate::achieved(rate::nearest(wished)),
        (Wish::SetPacketSize(wished), Reply::PacketSize(size)) => size == wished,
        _ => wish.kind() == Kind::Request,
    };
    as_set.then_some(reply)
}

/// The value in a reply's body, of any valid box.
fn any_value(wish: Wish, body: &[u8]) -> Option<Reply> {
    match (wish.item(), body) {
        (Item::Name, body) => (body == item::NAME).then_some(Reply::Name),
        (Item::Serial, [serial @ .., 0]) if item::serial_allowed(serial) => {
            Some(Reply::Serial(serial.try_into().ok()?))
        }
        (Item::Interface, &[low, high]) => match u16::from_le_bytes([low, high]) {
            item::INTERFACE => Some(Reply::Interface(item::INTERFACE)),
            _ => None,
        },
        (Item::Versions, &[a, b]) => {
            let version = wish.echo().and_then(item::version);
            (version == Some([a, b])).then_some(Reply::Version([a, b]))
        }
        (Item::Status, &[item::STATUS_IDLE]) => Some(Reply::Status { running: false }),
        (Item::Status, &[item::STATUS_RUNNING]) => Some(Reply::Status { running: true }),
        (Item::State, &[item::COMPLEX, run, mode, 0]) if item::mode_allowed(mode) => match run {
            item::RUN_IDLE => Some(Reply::State { running: false, mode }),
            item::RUN_START => Some(Reply::State { running: true, mode }),
            _ => None,
        },
        (Item::ChannelSetup, &[setup]) => item::setup_allowed(setup).then_some(Reply::ChannelSetup(setup)),
        (Item::Frequency, &[a, b, c, d, e]) => {
            let frequency = tuning::frequency_from([a, b, c, d, e]);
            tuning::frequency_allowed(frequency).then_some(Reply::Frequency(frequency))
        }
        (Item::Gain, &[gain]) => item::gain_allowed(gain as i8).then_some(Reply::Gain(gain as i8)),
        (Item::Clock, &[a, b, c, d]) => {
            let clock = u32::from_le_bytes([a, b, c, d]);
            item::clock_allowed(clock).then_some(Reply::Clock(clock))
        }
        (Item::Rate, &[a, b, c, d]) => {
            let rate = u32::from_le_bytes([a, b, c, d]);
            rate::divisor_of(rate).map(|_| Reply::Rate(rate))
        }
        (Item::PacketSize, &[size]) => item::size_allowed(size).then_some(Reply::PacketSize(size)),
        _ => None,
    }
}

/// What follows the channel byte in the range reply, as source document 003 prints it.
const RANGES: [u8; 31] = [
    0x02, //
    0xA0, 0x86, 0x01, 0x00, 0x00, 0x80, 0xCC, 0x06, 0x02, 0x00, 0x00, 0x00, 0x00, 0x00, 0x00, //
    0x00, 0x3B, 0x58, 0x08, 0x00, 0x80, 0xD1, 0xF0, 0x08, 0x00, 0x00, 0x68, 0x89, 0x09, 0x00,
];
