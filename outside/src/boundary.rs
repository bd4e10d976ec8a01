//! The boundary over which two implementations of document 01 are compared: numbers and lent slices.
//!
//! A box, a reader and a wish cross it as plain bytes or numbers, so that every state can be handed over, sound or broken.

use std::mem::take;

use crate::code::Code;
use crate::message::Header;
use crate::reader::Place;
use crate::station::{Channel, Settings};
use crate::wish::StateWish;
use crate::{head, item, rate, reader, reply, span, station, Form, Head, Reader, Reply, Station, Wish};

/// A box in bytes: channel 00 (frequency 8, word 4, gain 1), channel 02 (the same), count 8, clock 4, D 4, running 1, mode 1,
/// size 1, setup 1, serial 8, held 64, taken 8.
pub const STATION_BYTES: usize = 126;
pub type StationBytes = [u8; STATION_BYTES];

/// Where a box's flag is, and its setup.
pub const RUNNING_AT: usize = 42;
pub const SETUP_AT: usize = 45;

/// A reader in bytes: position 8, bits 8, pairs 8, total 8, heard 1, channels 1.
pub const READER_BYTES: usize = 34;
pub type ReaderBytes = [u8; READER_BYTES];

/// Where a reader's flag is.
pub const HEARD_AT: usize = 32;

/// Wishes are numbered from 0 on, in the order of the table of items, and in it sets before requests; those whose value
/// or channel counts have names.
pub const WISHES: u64 = 20;
pub const ASK_NAME: u64 = 0;
pub const ASK_SERIAL: u64 = 1;
pub const ASK_VERSION: u64 = 3;
pub const SET_STATE: u64 = 5;
pub const SET_SETUP: u64 = 7;
pub const ASK_SETUP: u64 = 8;
pub const SET_FREQUENCY: u64 = 9;
pub const ASK_FREQUENCY: u64 = 10;
pub const ASK_RANGE: u64 = 11;
pub const SET_GAIN: u64 = 12;
pub const ASK_GAIN: u64 = 13;
pub const SET_CLOCK: u64 = 14;
pub const ASK_CLOCK: u64 = 15;
pub const SET_RATE: u64 = 16;
pub const ASK_RATE: u64 = 17;
pub const SET_SIZE: u64 = 18;

/// The calls of document 01. Each first result is the code.
pub trait Library {
    /// Code; the fresh box in `state`.
    fn fresh(&self, serial: &[u8], state: &mut [u8]) -> u8;
    /// Code, bytes consumed, bytes written.
    fn feed(&self, state: &mut [u8], host: &[u8], reply: &mut [u8]) -> (u8, usize, usize);
    /// Code, tuning word of a channel.
    fn word(&self, state: &[u8], channel: u8) -> (u8, u64);
    /// Code, bytes written.
    fn cut(&self, state: &mut [u8], samples: &[i32], packet: &mut [u8]) -> (u8, usize);
    /// Code; a reader of so many channels that has heard nothing in `reader`.
    fn silent(&self, channels: u8, reader: &mut [u8]) -> u8;
    /// Code, and the packet's place, zeros where it has none.
    fn read(&self, reader: &mut [u8], packet: &[u8]) -> (u8, Place);
    /// How many sample bytes a packet has, and the one at a place (0 past the end).
    fn sample_byte(&self, packet: &[u8], place: usize) -> (usize, u8);
    /// Code, numbers written.
    fn unpack(&self, packet: &[u8], numbers: &mut [i32]) -> (u8, usize);
    /// Code, bytes written.
    fn write_wish(&self, fields: WishFields, buffer: &mut [u8]) -> (u8, usize);
    /// Code, and what the bytes say.
    fn read_reply(&self, fields: WishFields, bytes: &[u8]) -> (u8, Said);
    /// Code.
    fn write_head(&self, head: Head, buffer: &mut [u8]) -> u8;
    /// Code, and the head, zeros where there is none.
    fn read_head(&self, bytes: &[u8]) -> (u8, Head);
    /// Code; the head in version 2 in `buffer`.
    fn newer(&self, bytes: &[u8], buffer: &mut [u8]) -> u8;
    /// Code; the head in version 1 in `buffer`.
    fn older(&self, bytes: &[u8], buffer: &mut [u8]) -> u8;
    /// Bytes of reply written.
    fn serve(&self, host: &[u8], replies: &mut [u8]) -> usize;
    /// How many packets a box cuts that has just been started in this mode, size and setup.
    fn cut_run(&self, mode: u8, size: u8, setup: u8, samples: &[i32], packets: &mut [u8]) -> usize;
    /// The position of the first sample of the last packet that a reader of so many channels heard, and how many were missed
    /// in its capture up to it.
    fn read_run(&self, channels: u8, packets: &[u8], each: usize) -> (u64, u64);
    /// What the span program prints, where it is there to be asked.
    fn span(&self, input: &[u8]) -> Option<Vec<u8>>;
    /// Code, and the mode byte that a head has for captures of a box in this mode and setup, 0 where refused.
    fn head_mode(&self, mode: u8, setup: u8) -> (u8, u8);
    /// How many bytes a head of a version has, 0 where there is none.
    fn head_length(&self, version: u32) -> usize;
    /// Code, and the shape of packets behind a head with this mode byte and size, zeros where refused.
    fn shape(&self, mode: u8, size: u8) -> (u8, Shape);
    /// The D whose achieved rate this is, 0 where there is none.
    fn divisor(&self, rate: u32) -> u32;
    /// How many bytes the message has in all that begins with these; 0 while its header is not whole.
    fn message(&self, bytes: &[u8]) -> usize;
    /// Code, and how many microseconds so many samples of a channel take at a D and a clock, rounded down, 0 where refused.
    fn end_time(&self, samples: u64, divisor: u32, clock: u32) -> (u8, u64);
}

/// The shape of packets: how they are laid out.
#[derive(Clone, Copy, Debug, Default, PartialEq, Eq)]
pub struct Shape {
    /// channels in a packet
    pub channels: u8,
    /// bits of a sample
    pub bits: u64,
    /// I/Q pairs of each channel in a packet
    pub pairs: u64,
    /// numbers in a packet, I and Q of every channel
    pub numbers: usize,
    /// bytes of a packet in all
    pub total: usize,
}

/// A wish as it crosses: its number, and the fields of every case.
#[derive(Clone, Copy, Debug, Default, PartialEq, Eq)]
pub struct WishFields {
    pub which: u8,
    pub byte: u8,
    pub mode: u8,
    pub gain: i8,
    pub word: u32,
    pub hertz: u64,
    pub channel: u8,
}

impl WishFields {
    /// The wish of a number, a channel byte and a value. A state is its run byte and 256 times its mode. A number that names no
    /// wish where the value does not fit its field: such a value is one that the box would refuse.
    pub fn of(which: u64, channel: u8, value: u64) -> Self {
        let none = WishFields { which: u8::MAX, channel, ..WishFields::default() };
        let Ok(which) = u8::try_from(which) else { return none };
        let fields = WishFields { which, channel, ..WishFields::default() };
        let byte = u8::try_from(value);
        let word = u32::try_from(value);
        match u64::from(which) {
            ASK_VERSION | SET_SETUP | SET_SIZE => byte.map_or(none, |byte| WishFields { byte, ..fields }),
            SET_STATE => u16::try_from(value).map_or(none, |state| {
                let [byte, mode] = state.to_le_bytes();
                WishFields { byte, mode, ..fields }
            }),
            SET_FREQUENCY => WishFields { hertz: value, ..fields },
            SET_GAIN => byte.map_or(none, |byte| WishFields { gain: byte as i8, ..fields }),
            SET_CLOCK | SET_RATE => word.map_or(none, |word| WishFields { word, ..fields }),
            _ => fields,
        }
    }

    /// `None` where the number names no wish.
    pub fn wish(self) -> Option<Wish> {
        Some(match u64::from(self.which) {
            ASK_NAME => Wish::Name,
            ASK_SERIAL => Wish::Serial,
            2 => Wish::Interface,
            ASK_VERSION => Wish::Version(self.byte),
            4 => Wish::Status,
            SET_STATE => Wish::SetState(StateWish { run: self.byte, mode: self.mode }),
            6 => Wish::State,
            SET_SETUP => Wish::SetChannelSetup(self.byte),
            ASK_SETUP => Wish::ChannelSetup,
            SET_FREQUENCY => Wish::SetFrequency(self.channel, self.hertz),
            ASK_FREQUENCY => Wish::Frequency(self.channel),
            ASK_RANGE => Wish::FrequencyRange(self.channel),
            SET_GAIN => Wish::SetGain(self.channel, self.gain),
            ASK_GAIN => Wish::Gain(self.channel),
            SET_CLOCK => Wish::SetClock(self.channel, self.word),
            ASK_CLOCK => Wish::Clock(self.channel),
            SET_RATE => Wish::SetRate(self.channel, self.word),
            ASK_RATE => Wish::Rate(self.channel),
            SET_SIZE => Wish::SetPacketSize(self.byte),
            19 => Wish::PacketSize,
            _ => return None,
        })
    }
}

/// What a reply says, as numbers: the item's code, how many values it has, the first two of them, and a gain, which is
/// signed, in a place of its own. Zeros for what is not there.
#[derive(Clone, Copy, Debug, Default, PartialEq, Eq)]
pub struct Said {
    pub item: u16,
    pub count: usize,
    pub first: u64,
    pub second: u64,
    pub gain: i8,
}

impl Said {
    /// Whether a reply that was read is NAK, which says nothing of any item.
    pub fn is_nak(&self) -> bool {
        *self == Said::default()
    }
}

/// The version's id is the wish's, and it counts as a value of its reply.
pub fn said(wish: Wish, reply: Reply) -> Said {
    let item = wish.item() as u16;
    let one = |first: u64| Said { item, count: 1, first, ..Said::default() };
    let two = |first: u64, second: u64| Said { count: 2, second, ..one(first) };
    match reply {
        Reply::Nak => Said::default(),
        // seven bytes, of which N and e are the first
        Reply::Name => Said { count: 7, ..two(0x4E, 0x65) },
        Reply::Serial(serial) => one(u64::from_le_bytes(serial)),
        Reply::Interface(version) => one(version.into()),
        Reply::Version(bytes) => {
            let Wish::Version(id) = wish else { panic!("a version that was not wished for") };
            two(id.into(), u16::from_le_bytes(bytes).into())
        }
        Reply::Status { running } => one(if running { 0x0C } else { 0x0B }),
        Reply::State { running, mode } => two(if running { 2 } else { 1 }, mode.into()),
        Reply::ChannelSetup(setup) => one(setup.into()),
        Reply::Frequency(frequency) => one(frequency),
        Reply::Gain(gain) => Said { gain, ..one(0) },
        Reply::Clock(hertz) | Reply::Rate(hertz) => one(hertz.into()),
        Reply::PacketSize(size) => one(size.into()),
        // minimum, maximum, oscillator of each band
        Reply::FrequencyRange => Said { count: 6, ..two(100_000, 34_000_000) },
    }
}

/// Takes fields off the front of a state's bytes.
struct Fields<'a>(&'a [u8]);

impl Fields<'_> {
    fn array<const N: usize>(&mut self) -> [u8; N] {
        let (field, rest) = self.0.split_first_chunk().expect("a state of the right length");
        self.0 = rest;
        *field
    }

    fn channel(&mut self) -> Channel {
        Channel {
            frequency: u64::from_le_bytes(self.array()),
            word: u32::from_le_bytes(self.array()),
            gain: i8::from_le_bytes(self.array()),
        }
    }
}

pub fn station_in(bytes: &StationBytes) -> Station {
    let mut fields = Fields(bytes);
    let settings = Settings {
        first: fields.channel(),
        second: fields.channel(),
        count: u64::from_le_bytes(fields.array()),
        clock: u32::from_le_bytes(fields.array()),
        divisor: u32::from_le_bytes(fields.array()),
        running: fields.array() != [0],
        mode: u8::from_le_bytes(fields.array()),
        size: u8::from_le_bytes(fields.array()),
        setup: u8::from_le_bytes(fields.array()),
        serial: fields.array(),
    };
    let held = fields.array();
    Station { settings, held, taken: usize::from_le_bytes(fields.array()) }
}

/// Writes fields into a state's bytes, from the front on.
struct Places<'a>(&'a mut [u8]);

impl Places<'_> {
    fn put(&mut self, field: &[u8]) {
        let (place, rest) = take(&mut self.0).split_at_mut(field.len());
        place.copy_from_slice(field);
        self.0 = rest;
    }

    fn put_channel(&mut self, channel: &Channel) {
        self.put(&channel.frequency.to_le_bytes());
        self.put(&channel.word.to_le_bytes());
        self.put(&channel.gain.to_le_bytes());
    }
}

/// Straight into the lent bytes, which saves a copy at each call.
fn put_station(station: &Station, bytes: &mut StationBytes) {
    let settings = &station.settings;
    let mut places = Places(bytes);
    places.put_channel(&settings.first);
    places.put_channel(&settings.second);
    places.put(&settings.count.to_le_bytes());
    places.put(&settings.clock.to_le_bytes());
    places.put(&settings.divisor.to_le_bytes());
    places.put(&[settings.running.into(), settings.mode, settings.size, settings.setup]);
    places.put(&settings.serial);
    places.put(&station.held);
    places.put(&station.taken.to_le_bytes());
}

pub fn station_bytes(station: &Station) -> StationBytes {
    let mut bytes = [0; STATION_BYTES];
    put_station(station, &mut bytes);
    bytes
}

pub fn reader_in(bytes: &ReaderBytes) -> Reader {
    let mut fields = Fields(bytes);
    Reader {
        position: u64::from_le_bytes(fields.array()),
        form: Form { bits: u64::from_le_bytes(fields.array()), pairs: u64::from_le_bytes(fields.array()) },
        total: u64::from_le_bytes(fields.array()),
        heard: fields.array() != [0],
        channels: u8::from_le_bytes(fields.array()),
    }
}

fn put_reader(reader: &Reader, bytes: &mut ReaderBytes) {
    let mut places = Places(bytes);
    places.put(&reader.position.to_le_bytes());
    places.put(&reader.form.bits.to_le_bytes());
    places.put(&reader.form.pairs.to_le_bytes());
    places.put(&reader.total.to_le_bytes());
    places.put(&[reader.heard.into(), reader.channels]);
}

pub fn reader_bytes(reader: &Reader) -> ReaderBytes {
    let mut bytes = [0; READER_BYTES];
    put_reader(reader, &mut bytes);
    bytes
}

/// The implementation of this folder. As over the other side of the boundary, a state of another length is 21 with nothing
/// written, and a state is written back only where the call was not refused. The calls stand apart from their callers, as
/// those of a linked library do: so a benchmark times the same call of both.
pub struct Plain;

/// "Capture holds 4,000,000,000 packets", none of more than 256 pairs.
pub const MOST_SAMPLES: u64 = 1_024_000_000_000;

const BROKEN: u8 = 21;
const BAD_VALUE: u8 = 16;

/// The code alone, where the head's version tells how many bytes are written.
fn done(written: Result<usize, Code>) -> u8 {
    written.map_or_else(|code| code as u8, |_| 1)
}

impl Library for Plain {
    #[inline(never)]
    fn fresh(&self, serial: &[u8], state: &mut [u8]) -> u8 {
        let Ok(state) = <&mut StationBytes>::try_from(state) else { return BROKEN };
        let (station, code) = Station::fresh(serial);
        put_station(&station, state);
        code as u8
    }

    #[inline(never)]
    fn feed(&self, state: &mut [u8], host: &[u8], reply: &mut [u8]) -> (u8, usize, usize) {
        let Ok(state) = <&mut StationBytes>::try_from(state) else { return (BROKEN, 0, 0) };
        let mut station = station_in(state);
        let fed = station.feed(host, reply);
        if (fed.code as u8) < 20 {
            put_station(&station, state);
        }
        (fed.code as u8, fed.consumed, fed.wrote)
    }

    #[inline(never)]
    fn word(&self, state: &[u8], channel: u8) -> (u8, u64) {
        let Ok(state) = <&StationBytes>::try_from(state) else { return (BROKEN, 0) };
        match station_in(state).word(channel) {
            Ok(word) => (1, word.into()),
            Err(code) => (code as u8, 0),
        }
    }

    #[inline(never)]
    fn cut(&self, state: &mut [u8], samples: &[i32], packet: &mut [u8]) -> (u8, usize) {
        let Ok(state) = <&mut StationBytes>::try_from(state) else { return (BROKEN, 0) };
        let mut station = station_in(state);
        let cut = station.cut(samples, packet);
        if (cut.code as u8) < 20 {
            put_station(&station, state);
        }
        (cut.code as u8, cut.wrote)
    }

    #[inline(never)]
    fn silent(&self, channels: u8, reader: &mut [u8]) -> u8 {
        let silent = Reader::new(channels);
        match <&mut ReaderBytes>::try_from(reader) {
            Ok(bytes) if silent.is_sound() => {
                put_reader(&silent, bytes);
                1
            }
            _ => BROKEN,
        }
    }

    #[inline(never)]
    fn read(&self, reader: &mut [u8], packet: &[u8]) -> (u8, Place) {
        let Ok(bytes) = <&mut ReaderBytes>::try_from(reader) else { return (BROKEN, Place::default()) };
        let mut state = reader_in(bytes);
        match state.read(packet) {
            Ok(place) => {
                put_reader(&state, bytes);
                (1, place)
            }
            Err(code) => (code as u8, Place::default()),
        }
    }

    #[inline(never)]
    fn sample_byte(&self, packet: &[u8], place: usize) -> (usize, u8) {
        let part = crate::packet::sample_bytes(packet);
        (part.len(), part.get(place).copied().unwrap_or(0))
    }

    #[inline(never)]
    fn unpack(&self, packet: &[u8], numbers: &mut [i32]) -> (u8, usize) {
        match reader::unpack(packet, numbers) {
            Ok(count) => (1, count),
            Err(code) => (code as u8, 0),
        }
    }

    #[inline(never)]
    fn write_wish(&self, fields: WishFields, buffer: &mut [u8]) -> (u8, usize) {
        let Some(wish) = fields.wish() else { return (BAD_VALUE, 0) };
        match wish.write(buffer) {
            Ok(length) => (1, length),
            Err(code) => (code as u8, 0),
        }
    }

    #[inline(never)]
    fn read_reply(&self, fields: WishFields, bytes: &[u8]) -> (u8, Said) {
        let Some(wish) = fields.wish() else { return (BAD_VALUE, Said::default()) };
        match reply::read(wish, bytes) {
            Ok(reply) => (1, said(wish, reply)),
            Err(code) => (code as u8, Said::default()),
        }
    }

    #[inline(never)]
    fn write_head(&self, head: Head, buffer: &mut [u8]) -> u8 {
        done(head.write(buffer))
    }

    #[inline(never)]
    fn read_head(&self, bytes: &[u8]) -> (u8, Head) {
        match Head::read(bytes) {
            Ok(head) => (1, head),
            Err(code) => (code as u8, Head::default()),
        }
    }

    #[inline(never)]
    fn newer(&self, bytes: &[u8], buffer: &mut [u8]) -> u8 {
        done(head::newer(bytes, buffer))
    }

    #[inline(never)]
    fn older(&self, bytes: &[u8], buffer: &mut [u8]) -> u8 {
        done(head::older(bytes, buffer))
    }

    fn serve(&self, host: &[u8], replies: &mut [u8]) -> usize {
        station::serve(host, replies)
    }

    fn cut_run(&self, mode: u8, size: u8, setup: u8, samples: &[i32], packets: &mut [u8]) -> usize {
        station::cut_run(mode, size, setup, samples, packets)
    }

    fn read_run(&self, channels: u8, packets: &[u8], each: usize) -> (u64, u64) {
        if each == 0 {
            return (0, 0);
        }
        reader::read_run(channels, packets, each)
    }

    fn span(&self, input: &[u8]) -> Option<Vec<u8>> {
        Some(span::text(input).into_bytes())
    }

    #[inline(never)]
    fn head_mode(&self, mode: u8, setup: u8) -> (u8, u8) {
        match setup {
            item::SETUP_SINGLE if item::mode_allowed(mode) => (1, mode),
            item::SETUP_DUAL if item::mode_allowed(mode) => (1, mode | head::TWO_CHANNELS),
            _ => (BAD_VALUE, 0),
        }
    }

    #[inline(never)]
    fn head_length(&self, version: u32) -> usize {
        match version {
            head::VERSION_1 | head::VERSION_2 => Head { version, ..Head::default() }.length(),
            _ => 0,
        }
    }

    #[inline(never)]
    fn shape(&self, mode: u8, size: u8) -> (u8, Shape) {
        let head = Head { mode, size, ..Head::default() };
        if !item::mode_allowed(mode & !head::TWO_CHANNELS) || !item::size_allowed(size) {
            return (BAD_VALUE, Shape::default());
        }
        let (form, channels) = (head.form(), head.channels());
        let pairs = form.pairs_each(channels);
        (1, Shape { channels, bits: form.bits, pairs, numbers: form.samples(), total: form.total() })
    }

    #[inline(never)]
    fn divisor(&self, rate: u32) -> u32 {
        rate::divisor_of(rate).unwrap_or(0)
    }

    #[inline(never)]
    fn message(&self, bytes: &[u8]) -> usize {
        let &[low, high, ..] = bytes else { return 0 };
        Header::parse([low, high]).total()
    }

    #[inline(never)]
    fn end_time(&self, samples: u64, divisor: u32, clock: u32) -> (u8, u64) {
        if samples > MOST_SAMPLES || !rate::divisor_allowed(divisor) || !item::clock_allowed(clock) {
            return (BAD_VALUE, 0);
        }
        (1, span::end_time(samples, divisor, clock))
    }
}
