//! Inputs: values at every edge, messages, boxes, readers, packets, captures; sound ones and damaged ones.

use outside::boundary::{reader_bytes, station_bytes, WishFields, HEARD_AT, READER_BYTES, RUNNING_AT, STATION_BYTES};
use outside::boundary::{
    ASK_VERSION, SET_CLOCK, SET_FREQUENCY, SET_GAIN, SET_RATE, SET_SETUP, SET_SIZE, SET_STATE, WISHES,
};
use outside::packet::number_at;
use outside::random::Random;
use outside::station::{Channel, Settings};
use outside::{head, rate, Form, Head, Reader, Station};

pub const FREQUENCIES: [u64; 14] = [
    99_999,
    100_000,
    100_001,
    33_999_999,
    34_000_000,
    34_000_001,
    139_999_999,
    140_000_000,
    140_000_001,
    149_999_999,
    150_000_000,
    150_000_001,
    4_308_977_296,
    0xFF_FFFF_FFFF,
];
/// Some that are allowed: the edges of both bands, those beside them and 01's two.
pub const TUNED: [u64; 10] = [
    100_000,
    100_001,
    14_010_000,
    33_999_999,
    34_000_000,
    140_000_000,
    140_000_001,
    145_000_000,
    149_999_999,
    150_000_000,
];
pub const CLOCKS: [u64; 9] =
    [0, 79_991_999, 79_992_000, 79_992_001, 80_000_000, 80_007_999, 80_008_000, 80_008_001, 0xFFFF_FFFF];
pub const RATES: [u64; 13] = [
    0,
    31_999,
    32_000,
    32_001,
    55_556,
    1_904_761,
    1_904_762,
    1_907_000,
    1_909_090,
    1_999_999,
    2_000_000,
    2_000_001,
    0xFFFF_FFFF,
];
/// Clocks that a head of version 2 can name: the edges, the usual one and those beside them.
pub const HEAD_CLOCKS: [u32; 7] = [79_992_000, 79_992_001, 79_999_999, 80_000_000, 80_000_001, 80_007_999, 80_008_000];
/// Versions of a head: both, those beside them, their bytes changed over, and what 16 bits do not hold.
pub const VERSIONS: [u32; 14] = [0, 1, 2, 3, 255, 256, 257, 258, 512, 513, 65_535, 65_536 + 1, 65_536 + 2, u32::MAX];
/// Bytes at the edges of what a serial has.
pub const SERIAL_BYTES: [u8; 12] = *b"\0\x01/09:@AZ[a\xFF";
pub const GAINS: [u8; 8] = [0x00, 0xF6, 0xEC, 0xE2, 0x01, 0xF0, 0x80, 0xFF];
/// Channel bytes: those that some box allows, and those beside them.
pub const CHANNELS: [u8; 8] = [0x00, 0x01, 0x02, 0x03, 0x7F, 0x80, 0xFE, 0xFF];
/// Counts of channels: both that a reader can be told, and others.
pub const COUNTS: [u8; 6] = [0, 1, 2, 3, 4, 255];
/// Channel setups: both, those that document 003 has besides, and others.
pub const SETUPS: [u8; 11] = [0, 1, 2, 3, 4, 5, 6, 7, 8, 0x80, 0xFF];
pub const ITEMS: [u16; 12] = [0x01, 0x02, 0x03, 0x04, 0x05, 0x18, 0x19, 0x20, 0x38, 0xB0, 0xB8, 0xC4];
/// The items of which two sets may come in either order.
const IN_ANY_ORDER: [u16; 6] = [0x19, 0x20, 0x38, 0xB0, 0xB8, 0xC4];

pub fn frequency(r: &mut Random) -> u64 {
    match r.below(4) {
        0 => r.of(&FREQUENCIES),
        1 => r.within(100_000, 34_000_000),
        2 => r.within(140_000_000, 150_000_000),
        _ => r.bits(40),
    }
}

pub fn clock(r: &mut Random) -> u64 {
    match r.below(3) {
        0 => r.of(&CLOCKS),
        1 => r.within(79_992_000, 80_008_000),
        _ => r.below(1 << 32),
    }
}

pub fn sample_rate(r: &mut Random) -> u64 {
    match r.below(4) {
        0 => r.of(&RATES),
        1 => rate::ACHIEVED[r.size(616)].into(),
        2 => r.within(32_000, 2_000_000),
        _ => r.bits(32),
    }
}

pub fn run_byte(r: &mut Random) -> u8 {
    if r.once_in(6) {
        r.byte()
    } else {
        r.of(&[1, 2, 2, 2, 0, 3])
    }
}

pub fn mode(r: &mut Random) -> u8 {
    if r.once_in(6) {
        r.byte()
    } else {
        r.of(&[0x80, 0x00, 0x80, 0x00, 0x80, 0x00, 0x01, 0x83, 0x40, 0xC0])
    }
}

pub fn channel(r: &mut Random) -> u8 {
    if r.once_in(6) {
        r.byte()
    } else {
        r.of(&[0, 0, 2, 2, 0xFF, 0xFF, 1, 3])
    }
}

/// One of the two that are allowed.
pub fn setup(r: &mut Random) -> u8 {
    r.of(&[0, 4])
}

/// A count of channels, most often one of the two that a reader can be told.
pub fn count(r: &mut Random) -> u8 {
    match r.below(20) {
        0 => r.of(&COUNTS),
        1 => r.byte(),
        _ => r.of(&[1, 2]),
    }
}

/// The parameters of a set of this item, of its length and with a value that may be allowed.
fn set_parameters(r: &mut Random, item: u16) -> Vec<u8> {
    match item {
        0x18 => vec![r.of(&[0x80, 0x80, 0x80, 0x00, 0x81]), run_byte(r), mode(r), r.byte()],
        0x19 => vec![if r.once_in(4) { r.of(&SETUPS) } else { setup(r) }],
        0x20 => {
            let mut p = vec![channel(r)];
            p.extend(&frequency(r).to_le_bytes()[..5]);
            p
        }
        0x38 => vec![channel(r), if r.once_in(4) { r.byte() } else { r.of(&GAINS) }],
        0xB0 => {
            let mut p = vec![channel(r)];
            p.extend(&clock(r).to_le_bytes()[..4]);
            p
        }
        0xB8 => {
            let mut p = vec![channel(r)];
            p.extend(&sample_rate(r).to_le_bytes()[..4]);
            p
        }
        0xC4 => vec![r.of(&[0, 1, 0, 1, 2, 0xFF])],
        _ => vec![0; r.size(5)],
    }
}

/// The message of this kind and item with these parameters.
fn message_of(kind: u16, item: u16, parameters: &[u8]) -> Vec<u8> {
    let header = (4 + parameters.len()) as u16 | kind << 13;
    [&header.to_le_bytes(), &item.to_le_bytes(), parameters].concat()
}

/// A control message, most often of the right length for its item and kind.
fn control(r: &mut Random) -> Vec<u8> {
    let item = match r.below(12) {
        0 => r.of(&[0x00, 0x06, 0x09, 0x17, 0x1A, 0x21, 0x44, 0xC5, 0x0119, 0x0120, 0x1800, 0x1900]),
        1 => r.any() as u16,
        _ => r.of(&ITEMS),
    };
    let kind = r.of(&[0u16, 0, 0, 0, 1, 1, 2]);
    let mut parameters = if kind == 0 {
        set_parameters(r, item)
    } else {
        match item {
            0x04 => vec![r.of(&[0, 1, 2, 3, 4, 0xFF])],
            0x20 | 0x38 | 0xB0 | 0xB8 => vec![channel(r)],
            _ => vec![],
        }
    };
    if r.once_in(8) {
        let count = r.size(10);
        parameters.resize(count, 0x80);
    }
    message_of(kind, item, &parameters)
}

/// A whole set of this item, most often of its length and with a value that may be allowed.
fn set(r: &mut Random, item: u16) -> Vec<u8> {
    let mut parameters = set_parameters(r, item);
    match r.below(32) {
        0 => {
            // broken off, and filled up to its length
            let length = parameters.len();
            parameters.truncate(r.size(length));
            parameters.resize(length, 0x55);
        }
        1 => parameters.resize(r.size(10), 0x80),
        // as long as a message that a box keeps, longer, and the longest
        2 => parameters.resize(r.of(&[59, 60, 61, 62, 500, 0x1FFF - 4]), 0x55),
        3 => r.fill(&mut parameters),
        4 => {
            let count = r.size(80);
            parameters = r.bytes(count);
        }
        _ => {}
    }
    message_of(0, item, &parameters)
}

/// What a set names: its item, and the byte behind the item's code, which is the channel byte where the item has one.
fn named(set: &[u8]) -> (u16, u8) {
    (u16::from_le_bytes([set[2], set[3]]), set.get(4).copied().unwrap_or(0))
}

/// Whether sets that name these may come in either order: two items of those that may, but not the setup and a frequency or
/// gain of all channels or of the second; or the frequency, or the gain, of the one channel and of the other.
fn exchangeable(one: (u16, u8), other: (u16, u8)) -> bool {
    let excepted = |a, b| matches!((a, b), ((0x19, _), (0x20 | 0x38, 0xFF | 0x02)));
    match (one, other) {
        ((0x20, 0x00), (0x20, 0x02)) | ((0x20, 0x02), (0x20, 0x00)) => true,
        ((0x38, 0x00), (0x38, 0x02)) | ((0x38, 0x02), (0x38, 0x00)) => true,
        _ => one.0 != other.0 && !excepted(one, other) && !excepted(other, one),
    }
}

/// Two sets that may come in either order.
pub fn exchangeable_sets(r: &mut Random) -> [Vec<u8>; 2] {
    loop {
        let item = r.of(&IN_ANY_ORDER);
        // often the same item: few such pairs are of both channels
        let other = if r.once_in(2) { item } else { r.of(&IN_ANY_ORDER) };
        let sets = [set(r, item), set(r, other)];
        if exchangeable(named(&sets[0]), named(&sets[1])) {
            return sets;
        }
    }
}

/// One message of any kind, whole.
pub fn message(r: &mut Random) -> Vec<u8> {
    match r.below(16) {
        0 => vec![0x02, 0x00],
        1 => vec![0x03, 0x60, r.of(&[0, 1, 2, 3, 4, 0xFF])],
        2 => {
            // a data item, now and then the longest
            let length = match r.below(40) {
                0 => 0u16,
                1 => 0x1FFF,
                _ => r.of(&[1, 2, 3, 4, 63, 64, 65, 66, 100]),
            };
            let header = length | (4 + r.below(4) as u16) << 13;
            whole(r, header)
        }
        3 => {
            // short and long headers of types 0 to 3
            let length = r.of(&[0u16, 1, 2, 3, 4, 5, 63, 64, 65, 66, 200]);
            let header = length | (r.below(4) as u16) << 13;
            whole(r, header)
        }
        4 => {
            // a control message that is longer than any item's
            let mut m = control(r);
            let length = r.of(&[63u16, 64, 65, 66, 500]);
            m.resize(length.into(), 0x55);
            m[..2].copy_from_slice(&(length | (r.below(3) as u16) << 13).to_le_bytes());
            m
        }
        _ => control(r),
    }
}

/// A message with this header and random contents.
pub fn whole(r: &mut Random, header: u16) -> Vec<u8> {
    let total = outside::message::Header::parse(header.to_le_bytes()).total();
    let mut bytes = r.bytes(total);
    bytes[..2].copy_from_slice(&header.to_le_bytes());
    bytes
}

/// A message that may be damaged: a bit turned over, a byte too many or too few.
pub fn damaged(r: &mut Random) -> Vec<u8> {
    let mut bytes = message(r);
    match r.below(6) {
        0 => {
            let at = r.size(bytes.len());
            bytes[at] ^= 1 << r.below(8);
        }
        1 => {
            bytes.pop();
        }
        2 => bytes.push(r.byte()),
        _ => {}
    }
    bytes
}

pub fn serial(r: &mut Random) -> [u8; 8] {
    let mut serial = [0; 8];
    serial.iter_mut().for_each(|c| *c = r.of(b"ABCMTYZ0123456789"));
    serial
}

/// A frequency that is allowed.
pub fn tuned(r: &mut Random) -> u64 {
    match r.below(3) {
        0 => r.of(&[100_000, 34_000_000, 140_000_000, 150_000_000]),
        1 => r.within(100_000, 34_000_000),
        _ => r.within(140_000_000, 150_000_000),
    }
}

/// The words that the rule would give to any frequency and clock, allowed or not: by the frequency, and by how far it lies
/// from the second band's oscillator.
fn words_by_rule(frequency: u64, clock: u32) -> [u32; 2] {
    let clock = u64::from(clock.max(1));
    [frequency, frequency.abs_diff(160_000_000)].map(|offset| (((offset << 33) + clock) / (2 * clock)) as u32)
}

/// Words for a box to hold: those by the rule, those beside them and one bit away, the least, the greatest and any.
pub fn words(r: &mut Random, frequency: u64, clock: u32) -> Vec<u32> {
    let mut words = vec![0, 1, u32::MAX, r.any() as u32];
    for word in words_by_rule(frequency, clock) {
        words.extend([word, word.wrapping_sub(1), word.wrapping_add(1)]);
        words.extend((0..32).map(|bit| word ^ 1 << bit));
    }
    words
}

/// A sound box between messages.
pub fn sound(r: &mut Random) -> Station {
    let mut station = Station::fresh(&serial(r)).0;
    let s: &mut Settings = &mut station.settings;
    let frequencies = (tuned(r), tuned(r));
    s.count = match r.below(4) {
        0 => r.of(&[0, 1, 65_534, 65_535, 65_536, 131_070, 131_071, 3_999_999_999, 4_000_000_000]),
        _ => r.below(4_000_000_001),
    };
    s.clock = if r.once_in(2) { 80_000_000 } else { r.within(79_992_000, 80_008_000) as u32 };
    s.divisor = if r.once_in(4) { r.of(&[10, 11, 624, 625]) } else { r.within(10, 625) as u32 };
    s.running = r.once_in(2);
    s.mode = r.of(&[0x80, 0x00]);
    s.size = r.of(&[0, 1]);
    s.setup = setup(r);
    s.first.gain = r.of(&[0, -10, -20, -30]);
    s.second.gain = r.of(&[0, -10, -20, -30]);
    s.first.tune(frequencies.0, s.clock);
    s.second.tune(frequencies.1, s.clock);
    station
}

/// Leaves an unfinished message in a box.
pub fn interrupt(r: &mut Random, station: &mut Station) {
    let bytes = damaged(r);
    let taken = r.size(bytes.len() + 1);
    station.feed(&bytes[..taken], &mut [0; 64]);
}

/// One of a box's channels.
fn either<'a>(r: &mut Random, settings: &'a mut Settings) -> &'a mut Channel {
    if r.once_in(2) {
        &mut settings.first
    } else {
        &mut settings.second
    }
}

/// Puts one field of a box out of its range, or its unfinished message beyond what bytes could leave. With a frequency or a
/// clock out of its range the word at times goes along.
pub fn harm(r: &mut Random, station: &mut Station) {
    let s = &mut station.settings;
    let clock = s.clock;
    match r.below(14) {
        0 => harm_frequency(r, s),
        1 => s.count = r.of(&[4_000_000_001, 1 << 32, u64::MAX]),
        2 => harm_clock(r, s),
        3 => s.divisor = r.of(&[0, 9, 626, u32::MAX]),
        4 => s.mode = r.of(&[0x01, 0x40, 0x7F, 0x81, 0xC0, 0xFF]),
        5 => either(r, s).gain = r.of(&[1, -1, -11, -29, 127, -128]),
        6 => s.size = r.of(&[2, 0xFF]),
        7 => s.serial[r.size(8)] = r.of(b"@[/:az\x00\xFF"),
        8 => station.held[r.size(64)] ^= 1 << r.below(8),
        9 => station.taken = r.of(&[0, 1, 2, 3, 63, 64, 65, 8193, 8194, 8195, usize::MAX]),
        10 => {
            // a finished message, or one that is further than its length
            let bytes = message(r);
            let kept = bytes.len().min(64);
            station.held = [0; 64];
            station.held[..kept].copy_from_slice(&bytes[..kept]);
            station.taken = bytes.len() + r.size(2);
        }
        11 => {
            let channel = either(r, s);
            let words = words(r, channel.frequency, clock);
            channel.word = r.of(&words);
        }
        12 => s.setup = if r.once_in(2) { r.byte() } else { r.of(&SETUPS) },
        _ => {
            station.taken = r.size(70);
            r.fill(&mut station.held);
        }
    }
}

fn harm_frequency(r: &mut Random, settings: &mut Settings) {
    let clock = settings.clock;
    let channel = either(r, settings);
    channel.frequency = r.of(&[0, 99_999, 34_000_001, 139_999_999, 150_000_001, u64::MAX]);
    if r.once_in(2) {
        channel.word = r.of(&words_by_rule(channel.frequency, clock));
    }
}

fn harm_clock(r: &mut Random, settings: &mut Settings) {
    settings.clock = r.of(&[0, 79_991_999, 80_008_001, u32::MAX]);
    if r.once_in(2) {
        for channel in [&mut settings.first, &mut settings.second] {
            channel.word = r.of(&words_by_rule(channel.frequency, settings.clock));
        }
    }
}

/// A box in bytes: mostly sound, often in the midst of a message, sometimes broken, rarely not a box at all.
pub fn station_state(r: &mut Random) -> Vec<u8> {
    let mut station = sound(r);
    if r.once_in(2) {
        interrupt(r, &mut station);
    }
    if r.once_in(5) {
        harm(r, &mut station);
    }
    let mut bytes = station_bytes(&station).to_vec();
    match r.below(200) {
        0 => bytes.truncate(r.size(STATION_BYTES)),
        1 => bytes.push(0),
        2 => r.fill(&mut bytes),
        // running: 0 is no, any other byte is yes
        3 => bytes[RUNNING_AT] = r.byte(),
        _ => {}
    }
    bytes
}

/// A box in bytes that is most often ready to cut.
pub fn cutting_state(r: &mut Random) -> Vec<u8> {
    let mut station = sound(r);
    station.settings.running = !r.once_in(8);
    if r.once_in(4) {
        interrupt(r, &mut station);
    }
    if r.once_in(8) {
        harm(r, &mut station);
    }
    let mut bytes = station_bytes(&station).to_vec();
    if r.once_in(100) {
        bytes.truncate(r.size(STATION_BYTES));
    }
    bytes
}

pub fn sample(r: &mut Random) -> i32 {
    match r.below(8) {
        0 => r.of(&[-8_388_608, -8_388_607, -65_537, -257, -256, -255, -1, 0, 1, 255, 256, 257, 8_388_606, 8_388_607]),
        // where 16 bits step from one number to the next, and from where on they are held
        1 => r.of(&[
            -8_388_481, -8_388_480, -385, -384, -129, -128, 127, 128, 383, 384, 8_388_223, 8_388_224, 8_388_479,
            8_388_480,
        ]),
        _ => (r.any() as i32) >> 8,
    }
}

/// Samples for a box, most often as many as its form wants and within 24 bits.
pub fn samples(r: &mut Random, form: Form) -> Vec<i32> {
    let count = match r.below(12) {
        0 => r.of(&[0, 1, 127, 128, 129, 479, 480, 481, 511, 512, 513, 256, 255]),
        1 => form.samples() - 1,
        2 => form.samples() + 1,
        _ => form.samples(),
    };
    let mut samples: Vec<i32> = (0..count).map(|_| sample(r)).collect();
    if count > 0 && r.once_in(6) {
        let anywhere = r.size(count);
        let at = r.of(&[0, count - 1, anywhere]);
        samples[at] = r.of(&[-8_388_609, 8_388_608, i32::MIN, i32::MAX, 1 << 24]);
    }
    samples
}

/// A room that is now and then too short.
pub fn room(r: &mut Random, needed: usize) -> usize {
    match r.below(8) {
        0 => needed.saturating_sub(1),
        1 => r.size(needed + 1),
        2 => 0,
        3 => needed + 1,
        4 => needed + r.size(80),
        _ => needed,
    }
}

pub fn form(r: &mut Random) -> Form {
    r.of(&Form::LISTED)
}

/// One packet, or a slice that is not quite one.
pub fn packet(r: &mut Random, form: Form, number: u16) -> Vec<u8> {
    let mut packet = r.bytes(form.total());
    packet[..2].copy_from_slice(&form.header());
    packet[2..4].copy_from_slice(&number.to_le_bytes());
    match r.below(24) {
        0 => {
            packet.pop();
        }
        1 => packet.push(r.byte()),
        2 => packet[r.size(2)] ^= 1 << r.below(8),
        3 => packet.truncate(r.size(6)),
        4 => {
            let other = self::form(r);
            packet.resize(other.total(), 0);
        }
        _ => {}
    }
    packet
}

/// The most packets that can be missed up to a position: those that the fewest steps there pass over.
pub fn most_missed(position: u64) -> u64 {
    position - position.div_ceil(65_535)
}

/// A total that some steps to a position give.
fn total(r: &mut Random, position: u64) -> u64 {
    let most = most_missed(position);
    match r.below(4) {
        0 => 0,
        1 => most - r.below(3).min(most),
        _ => r.below(most + 1),
    }
}

/// A reader in bytes and a packet for it to read.
pub fn reading(r: &mut Random) -> (Vec<u8>, Vec<u8>) {
    let mut reader = Reader::new(count(r));
    if !r.once_in(8) {
        reader.heard = true;
        reader.form = form(r);
        reader.position = match r.below(4) {
            0 => r.of(&[
                0,
                1,
                65_534,
                65_535,
                65_536,
                131_070,
                131_071,
                3_999_934_464,
                3_999_934_465,
                3_999_999_998,
                3_999_999_999,
            ]),
            1 => r.within(3_999_930_000, 3_999_999_999),
            _ => r.below(4_000_000_000),
        };
        reader.total = total(r, reader.position);
    }
    let last = number_at(reader.position);
    let number = match r.below(6) {
        0 => 0,
        1 => r.of(&[1, 2, 7, 65_534, 65_535]),
        2 => last,
        3 => last.wrapping_add(1),
        4 => last.wrapping_sub(1),
        _ => r.any() as u16,
    };
    let of_packet = if reader.heard && !r.once_in(8) { reader.form } else { form(r) };
    if r.once_in(8) {
        let (position, most) = (reader.position, most_missed(reader.position));
        match r.below(8) {
            0 => reader.position = r.of(&[4_000_000_000, 4_000_000_001, u64::MAX]),
            1 => reader.form.bits = r.of(&[0, 8, 16, 24, 32]),
            2 => reader.form.pairs = r.of(&[0, 63, 64, 128, 240, 256, u64::MAX]),
            3 => reader.heard = !reader.heard,
            4 => reader = Reader { heard: false, position: r.below(2), total: r.below(2), ..reader },
            5 => reader.total = r.of(&[most + 1, most + 2, position, position + 1, 4_000_000_000, u64::MAX]),
            6 => reader = Reader { heard: true, ..Reader::new(reader.channels) },
            _ => reader.channels = if r.once_in(2) { r.byte() } else { r.of(&COUNTS) },
        }
    }
    let mut bytes = reader_bytes(&reader).to_vec();
    match r.below(200) {
        0 => bytes.truncate(r.size(READER_BYTES)),
        1 => bytes.push(0),
        2 => bytes[HEARD_AT] = r.byte(),
        _ => {}
    }
    (bytes, packet(r, of_packet, number))
}

/// A wish as number, channel byte and value.
pub fn wish_numbers(r: &mut Random) -> (u64, u8, u64) {
    let which = if r.once_in(50) { r.of(&[WISHES, WISHES + 1, u64::MAX]) } else { r.below(WISHES) };
    let value = match which {
        ASK_VERSION => r.of(&[0, 1, 2, 3, 3, 4, 0xFF, 0x100]),
        SET_STATE => u64::from(run_byte(r)) + 256 * u64::from(mode(r)) + if r.once_in(40) { 1 << 16 } else { 0 },
        SET_FREQUENCY => match r.below(20) {
            0 => r.of(&[(1 << 40) + 14_010_000, u64::MAX]),
            _ => frequency(r),
        },
        SET_GAIN => match r.below(20) {
            0 => 0x1EC,
            _ => r.of(&GAINS).into(),
        },
        SET_CLOCK => clock(r) + if r.once_in(40) { 1 << 32 } else { 0 },
        SET_RATE => sample_rate(r) + if r.once_in(40) { 1 << 32 } else { 0 },
        SET_SETUP => r.of(&[0, 4, 0, 4, 1, 2, 3, 5, 6, 0xFF, 0x100, 0x104]),
        SET_SIZE => r.of(&[0, 1, 0, 1, 2, 0xFF, 0x100, 0x101]),
        _ => r.below(3),
    };
    (which, channel(r), value)
}

/// What a box answers to a wish, or something that is no answer to it.
pub fn answer(r: &mut Random, (which, channel, value): (u64, u8, u64)) -> Vec<u8> {
    let mut station = sound(r);
    let fields = match r.below(12) {
        // at times the answer belongs to another wish, or to the same for another channel
        0 => {
            let (which, channel, value) = wish_numbers(r);
            WishFields::of(which, channel, value)
        }
        1 => WishFields::of(which, self::channel(r), value),
        _ => WishFields::of(which, channel, value),
    };
    let wished = fields.wish();
    let mut message = [0; 16];
    let mut reply = [0; 64];
    let wrote = match wished.map(|w| w.write(&mut message)) {
        Some(Ok(length)) => station.feed(&message[..length], &mut reply).wrote,
        _ => 0,
    };
    let mut bytes = reply[..wrote].to_vec();
    match r.below(10) {
        0 if !bytes.is_empty() => {
            let at = r.size(bytes.len());
            bytes[at] ^= 1 << r.below(8);
        }
        1 => {
            bytes.pop();
        }
        2 => bytes.push(r.of(&[0, 0xFF])),
        3 if bytes.len() > 5 => {
            // a value next to the right one
            let at = r.within(4, bytes.len() as u64 - 1) as usize;
            bytes[at] = bytes[at].wrapping_add(r.of(&[1, 0xFF]));
        }
        4 => bytes = vec![0x02, 0x00],
        5 if bytes.len() > 4 && r.once_in(2) => {
            let at = 4 + r.size(bytes.len() - 4);
            bytes[at] = r.byte();
        }
        _ => {}
    }
    bytes
}

/// A head of either version that is allowed; of those of version 2 about every fifth can go back to version 1.
pub fn head(r: &mut Random) -> Head {
    let s = sound(r).settings;
    let old = Head {
        version: head::VERSION_1,
        divisor: s.divisor,
        frequency: s.first.frequency,
        mode: s.mode | if s.channels() == 2 { head::TWO_CHANNELS } else { 0 },
        size: s.size,
        serial: head::UNKNOWN,
        clock: head::USUAL_CLOCK,
    };
    if r.once_in(2) {
        return old;
    }
    let serial = if r.once_in(2) { head::UNKNOWN } else { s.serial };
    let clock = if r.once_in(4) { r.of(&HEAD_CLOCKS) } else { s.clock };
    Head { version: head::VERSION_2, serial, clock, ..old }
}

/// Puts one field of a head out of its range, or beside what its version can have.
pub fn harm_head(r: &mut Random, head: &mut Head) {
    match r.below(7) {
        0 => head.divisor = r.of(&[0, 9, 626, 65_535, 65_536 + 100, u32::MAX]),
        1 => head.frequency = frequency(r),
        2 => head.mode = if r.once_in(2) { head.mode ^ 1 << r.below(8) } else { mode(r) },
        3 => head.size = r.byte(),
        4 => head.version = r.of(&VERSIONS),
        5 => head.serial[r.size(8)] = if r.once_in(4) { r.byte() } else { r.of(&SERIAL_BYTES) },
        _ => head.clock = clock(r) as u32,
    }
}

/// The bytes of an allowed head.
pub fn head_bytes(head: &Head) -> Vec<u8> {
    let mut bytes = vec![0; head.length()];
    let _ = head.write(&mut bytes);
    bytes
}

/// Damages a head's bytes: too few of them, another version, a bit turned over, a serial or a clock at an edge, or noise.
pub fn harm_bytes(r: &mut Random, bytes: &mut Vec<u8>) {
    match r.below(7) {
        0 => bytes.truncate(r.size(bytes.len())),
        1 => bytes[r.size(5)] ^= 1 << r.below(8),
        2 => {
            let at = 5 + r.size(bytes.len() - 5);
            bytes[at] ^= 1 << r.below(8);
        }
        3 => bytes[3..5].copy_from_slice(&(r.of(&VERSIONS) as u16).to_le_bytes()),
        4 if bytes.len() == head::LENGTH_2 => bytes[14 + r.size(8)] = r.of(&SERIAL_BYTES),
        5 if bytes.len() == head::LENGTH_2 => bytes[22..].copy_from_slice(&clock(r).to_le_bytes()[..4]),
        _ => r.fill(bytes),
    }
}

/// A capture as the span program gets it: a head of either version, losses, restarts, and at times what breaks it off.
pub fn capture(r: &mut Random) -> Vec<u8> {
    let head = head(r);
    let mut bytes = head_bytes(&head);
    if r.once_in(12) {
        harm_bytes(r, &mut bytes);
    }
    bytes.extend(packets(r, head.form()));
    match r.below(12) {
        0 => bytes.truncate(r.size(bytes.len() + 1)),
        1 => bytes.extend(r.bytes(3)),
        _ => {}
    }
    bytes
}

/// The packets of a capture, most of them of the form given.
pub fn packets(r: &mut Random, usual: Form) -> Vec<u8> {
    let mut bytes = Vec::new();
    let mut number: u16 = if r.once_in(10) { r.any() as u16 } else { 0 };
    for _ in 0..r.size(12) {
        let form = if r.once_in(40) { form(r) } else { usual };
        let packet = if r.once_in(3) { packet(r, form, number) } else { plain_packet(r, form, number) };
        bytes.extend(packet);
        number = match r.below(8) {
            0 => 0,
            1 => r.any() as u16,
            2 => number,
            3 => r.of(&[1, 65_535]),
            _ => number_at(u64::from(number) + r.within(1, 3)),
        };
    }
    bytes
}

pub fn plain_packet(r: &mut Random, form: Form, number: u16) -> Vec<u8> {
    let mut packet = vec![r.byte(); form.total()];
    packet[..2].copy_from_slice(&form.header());
    packet[2..4].copy_from_slice(&number.to_le_bytes());
    packet
}
