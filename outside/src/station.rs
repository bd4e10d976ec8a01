//! The box: its settings, feeding it the host's bytes, and what it answers.

use crate::code::Code;
use crate::item::{self, Item};
use crate::message::{classify, Class, Header, Kind, HELD, NAK};
use crate::packet::{self, Form};
use crate::rate;
use crate::tuning::{self, BANDS};

/// "Capture holds 4,000,000,000 packets."
pub const CAPTURE_LIMIT: u64 = 4_000_000_000;

/// A tuning channel.
#[derive(Clone, Debug, PartialEq, Eq)]
pub struct Channel {
    /// Hz
    pub frequency: u64,
    /// the tuning word of this frequency at the box's clock
    pub word: u32,
    pub gain: i8,
}

#[derive(Clone, Debug, PartialEq, Eq)]
pub struct Settings {
    /// channel 00
    pub first: Channel,
    /// channel 02, which keeps its values while it is closed
    pub second: Channel,
    /// packets cut in this capture
    pub count: u64,
    /// Hz
    pub clock: u32,
    /// the D of the rate, 20,000,000 / D
    pub divisor: u32,
    pub running: bool,
    /// 80 for 24 bits, 00 for 16
    pub mode: u8,
    /// 0 large, 1 small
    pub size: u8,
    /// 0 one channel, 4 two
    pub setup: u8,
    pub serial: [u8; 8],
}

#[derive(Clone, Debug, PartialEq, Eq)]
pub struct Station {
    pub settings: Settings,
    /// the first 64 bytes of an unfinished message, unused places zero
    pub held: [u8; HELD],
    /// how many bytes of it were taken
    pub taken: usize,
}

/// What one call of feeding did.
#[derive(Clone, Copy, Debug, PartialEq, Eq)]
pub struct Fed {
    pub code: Code,
    pub consumed: usize,
    pub wrote: usize,
}

/// What one call of cutting did.
#[derive(Clone, Copy, Debug, PartialEq, Eq)]
pub struct Cut {
    pub code: Code,
    pub wrote: usize,
}

/// What an accepted message changes.
#[derive(Clone, Copy)]
enum Change {
    Nothing,
    Idle,
    Start { mode: u8 },
    Setup(u8),
    Frequency { channel: u8, frequency: u64 },
    Gain { channel: u8, gain: i8 },
    Clock(u32),
    Divisor(u32),
    Size(u8),
}

/// What an accepted message is answered with.
#[derive(Clone, Copy)]
enum Answer {
    Value { item: Item, echo: u8 },
    Range { channel: u8 },
}

impl Answer {
    fn length(self) -> usize {
        match self {
            Answer::Value { item, .. } => item.reply_length(),
            Answer::Range { .. } => 6 + 15 * BANDS.len(),
        }
    }
}

impl Channel {
    fn fresh() -> Self {
        Channel { frequency: 10_000_000, word: 536_870_912, gain: 0 }
    }

    /// Whether its fields are in order in a box with this clock, which is in order.
    fn is_sound(&self, clock: u32) -> bool {
        tuning::agree(self.frequency, clock, self.word) && item::gain_allowed(self.gain)
    }

    /// Tunes to a frequency in a box with this clock, both of them allowed: the word follows.
    pub fn tune(&mut self, frequency: u64, clock: u32) {
        self.frequency = frequency;
        self.word = tuning::word(frequency, clock);
    }
}

impl Settings {
    pub fn fresh(serial: [u8; 8]) -> Self {
        Settings {
            first: Channel::fresh(),
            second: Channel::fresh(),
            count: 0,
            clock: 80_000_000,
            divisor: 100,
            running: false,
            mode: item::MODE_24,
            size: item::SIZE_LARGE,
            setup: item::SETUP_SINGLE,
            serial,
        }
    }

    #[inline(always)] // into all of its callers, or each call takes 5 ns more
    pub fn is_sound(&self) -> bool {
        item::clock_allowed(self.clock)
            && self.first.is_sound(self.clock)
            && self.second.is_sound(self.clock)
            && self.count <= CAPTURE_LIMIT
            && rate::divisor_allowed(self.divisor)
            && item::mode_allowed(self.mode)
            && item::size_allowed(self.size)
            && item::setup_allowed(self.setup)
            && item::serial_allowed(&self.serial)
    }

    /// The packet form of the mode and size set.
    pub fn form(&self) -> Form {
        Form::of_settings(self.mode, self.size)
    }

    /// How many channels are open, and so how many a packet holds.
    pub fn channels(&self) -> u8 {
        if self.setup == item::SETUP_DUAL {
            2
        } else {
            1
        }
    }

    /// Whether this byte names a channel that is open.
    fn is_open(&self, channel: u8) -> bool {
        channel == item::CHANNEL_1 || channel == item::CHANNEL_2 && self.setup == item::SETUP_DUAL
    }

    /// The channel whose values a reply shows that repeats this byte.
    fn channel(&self, byte: u8) -> &Channel {
        if byte == item::CHANNEL_2 {
            &self.second
        } else {
            &self.first
        }
    }

    /// Sets the channels that a set with this byte covers, which was allowed.
    fn set_channels(&mut self, byte: u8, set: impl Fn(&mut Channel)) {
        if byte != item::CHANNEL_2 {
            set(&mut self.first);
        }
        if byte == item::CHANNEL_2 || byte == item::ALL_CHANNELS && self.setup == item::SETUP_DUAL {
            set(&mut self.second);
        }
    }

    /// What a control message of 4 to 64 bytes asks for, or why it is refused. Codes 12, 14, 13, 15, 16, 17.
    fn judge(&self, kind: Kind, message: &[u8]) -> Result<(Answer, Change), Code> {
        let code = u16::from_le_bytes([message[2], message[3]]);
        let item = Item::from_code(code).ok_or(Code::NotListed)?;
        let expected = item.expected(kind).ok_or(Code::NotOffered)?;
        if message.len() != expected {
            return Err(Code::WrongLength);
        }
        let parameters = &message[4..];
        match kind {
            Kind::Set => self.judge_set(item, parameters),
            Kind::Request => {
                let echo = parameters.first().copied().unwrap_or(0);
                match item {
                    Item::Frequency | Item::Gain if !self.is_open(echo) => return Err(Code::ChannelNotAllowed),
                    Item::Versions if item::version(echo).is_none() => return Err(Code::ValueNotAllowed),
                    _ => {}
                }
                Ok((Answer::Value { item, echo }, Change::Nothing))
            }
            Kind::Range => match parameters[0] {
                channel if self.is_open(channel) => Ok((Answer::Range { channel }, Change::Nothing)),
                _ => Err(Code::ChannelNotAllowed),
            },
        }
    }

    fn judge_set(&self, item: Item, parameters: &[u8]) -> Result<(Answer, Change), Code> {
        let allowed = |yes: bool| if yes { Ok(()) } else { Err(Code::ValueNotAllowed) };
        let while_idle = || if self.running { Err(Code::NotWhileRunning) } else { Ok(()) };
        let open_or_all = |channel| match channel {
            item::ALL_CHANNELS => Ok(()),
            _ if self.is_open(channel) => Ok(()),
            _ => Err(Code::ChannelNotAllowed),
        };
        let (echo, change) = match (item, parameters) {
            (Item::State, &[_, item::RUN_IDLE, _, _]) => (0, Change::Idle),
            (Item::State, &[first, run, mode, _]) => {
                allowed(run == item::RUN_START && first == item::COMPLEX && item::mode_allowed(mode))?;
                match (self.running, mode == self.mode) {
                    (false, _) => (0, Change::Start { mode }),
                    (true, true) => (0, Change::Nothing),
                    (true, false) => return Err(Code::NotWhileRunning),
                }
            }
            (Item::ChannelSetup, &[setup]) => {
                allowed(item::setup_allowed(setup))?;
                while_idle()?;
                (0, Change::Setup(setup))
            }
            (Item::Frequency, &[channel, a, b, c, d, e]) => {
                open_or_all(channel)?;
                let frequency = tuning::frequency_from([a, b, c, d, e]);
                allowed(tuning::frequency_allowed(frequency))?;
                (channel, Change::Frequency { channel, frequency })
            }
            (Item::Gain, &[channel, gain]) => {
                open_or_all(channel)?;
                let gain = gain as i8;
                allowed(item::gain_allowed(gain))?;
                (channel, Change::Gain { channel, gain })
            }
            (Item::Clock, &[channel, a, b, c, d]) => {
                let clock = u32::from_le_bytes([a, b, c, d]);
                allowed(item::clock_allowed(clock))?;
                (channel, Change::Clock(clock))
            }
            (Item::Rate, &[channel, a, b, c, d]) => {
                let rate = u32::from_le_bytes([a, b, c, d]);
                allowed(rate::rate_allowed(rate))?;
                while_idle()?;
                (channel, Change::Divisor(rate::nearest(rate)))
            }
            (Item::PacketSize, &[size]) => {
                allowed(item::size_allowed(size))?;
                while_idle()?;
                (0, Change::Size(size))
            }
            _ => return Err(Code::NotOffered),
        };
        Ok((Answer::Value { item, echo }, change))
    }

    fn apply(&mut self, change: Change) {
        match change {
            Change::Nothing => {}
            Change::Idle => self.running = false,
            Change::Start { mode } => {
                self.running = true;
                self.mode = mode;
                self.count = 0;
            }
            Change::Setup(setup) => self.setup = setup,
            Change::Frequency { channel, frequency } => {
                let word = tuning::word(frequency, self.clock);
                self.set_channels(channel, |c| (c.frequency, c.word) = (frequency, word));
            }
            Change::Gain { channel, gain } => self.set_channels(channel, |c| c.gain = gain),
            Change::Clock(clock) => {
                self.clock = clock;
                self.first.tune(self.first.frequency, clock);
                self.second.tune(self.second.frequency, clock);
            }
            Change::Divisor(divisor) => self.divisor = divisor,
            Change::Size(size) => self.size = size,
        }
    }

    /// Writes an answer into a slice of exactly its length.
    fn write(&self, answer: Answer, reply: &mut [u8]) {
        let (kind, item) = match answer {
            Answer::Value { item, .. } => (0, item),
            Answer::Range { .. } => (2, Item::Frequency),
        };
        let header = Header { kind, length: reply.len() as u16 };
        reply[..2].copy_from_slice(&header.bytes());
        reply[2..4].copy_from_slice(&(item as u16).to_le_bytes());
        let body = &mut reply[4..];
        match answer {
            Answer::Value { item, echo } => self.write_value(item, echo, body),
            Answer::Range { channel } => write_bands(channel, body),
        }
    }

    fn write_value(&self, item: Item, echo: u8, body: &mut [u8]) {
        match item {
            Item::Name => body.copy_from_slice(item::NAME),
            Item::Serial => {
                body[..8].copy_from_slice(&self.serial);
                body[8] = 0;
            }
            Item::Interface => body.copy_from_slice(&item::INTERFACE.to_le_bytes()),
            Item::Versions => {
                body[0] = echo;
                body[1..].copy_from_slice(&item::version(echo).unwrap_or_default());
            }
            Item::Status => {
                body[0] = if self.running { item::STATUS_RUNNING } else { item::STATUS_IDLE };
            }
            Item::State => {
                let run = if self.running { item::RUN_START } else { item::RUN_IDLE };
                body.copy_from_slice(&[item::COMPLEX, run, self.mode, 0]);
            }
            Item::ChannelSetup => body[0] = self.setup,
            Item::Frequency => {
                body[0] = echo;
                body[1..].copy_from_slice(&tuning::frequency_bytes(self.channel(echo).frequency));
            }
            Item::Gain => body.copy_from_slice(&[echo, self.channel(echo).gain as u8]),
            Item::Clock => {
                body[0] = echo;
                body[1..].copy_from_slice(&self.clock.to_le_bytes());
            }
            Item::Rate => {
                body[0] = echo;
                body[1..].copy_from_slice(&rate::achieved(self.divisor).to_le_bytes());
            }
            Item::PacketSize => body[0] = self.size,
        }
    }
}

fn write_bands(channel: u8, body: &mut [u8]) {
    body[0] = channel;
    body[1] = BANDS.len() as u8;
    for (entry, band) in body[2..].chunks_exact_mut(15).zip(&BANDS) {
        entry[..5].copy_from_slice(&tuning::frequency_bytes(band.minimum));
        entry[5..10].copy_from_slice(&tuning::frequency_bytes(band.maximum));
        entry[10..].copy_from_slice(&tuning::frequency_bytes(band.oscillator));
    }
}

impl Station {
    /// A fresh box, and 1, or 26 where the serial is not eight of A-Z, 0-9; the box then has serial 00000000.
    pub fn fresh(serial: &[u8]) -> (Self, Code) {
        let (serial, code) = match <[u8; 8]>::try_from(serial) {
            Ok(serial) if item::serial_allowed(&serial) => (serial, Code::Done),
            _ => (*b"00000000", Code::NotASerial),
        };
        let station = Station { settings: Settings::fresh(serial), held: [0; HELD], taken: 0 };
        (station, code)
    }

    #[inline(always)]
    pub fn is_sound(&self) -> bool {
        self.settings.is_sound() && self.store_is_sound()
    }

    /// Whether some bytes could have left this unfinished message.
    fn store_is_sound(&self) -> bool {
        const UNUSED: [u8; HELD] = [0; HELD];
        let used = self.taken.min(HELD);
        let unfinished = self.taken < 2 || self.taken < self.held_header().total();
        unfinished && self.held[used..] == UNUSED[used..]
    }

    fn held_header(&self) -> Header {
        Header::parse([self.held[0], self.held[1]])
    }

    /// The tuning word of a channel: the one that is kept.
    pub fn word(&self, channel: u8) -> Result<u32, Code> {
        if !self.is_sound() {
            return Err(Code::Broken);
        }
        if !self.settings.is_open(channel) {
            return Err(Code::ChannelNotAllowed);
        }
        Ok(self.settings.channel(channel).word)
    }

    /// Takes a part of the host's bytes, up to the end of one message.
    pub fn feed(&mut self, host: &[u8], reply: &mut [u8]) -> Fed {
        if !self.is_sound() {
            return Fed { code: Code::Broken, consumed: 0, wrote: 0 };
        }
        let header = match (self.taken, host) {
            (0, &[low, high, ..]) => Header::parse([low, high]),
            (1, &[high, ..]) => Header::parse([self.held[0], high]),
            (0 | 1, _) => return self.keep(host),
            _ => self.held_header(),
        };
        let missing = header.total() - self.taken;
        let Some(last) = host.get(..missing) else {
            return self.keep(host);
        };
        if self.taken == 0 {
            return self.finish(header, last, missing, reply);
        }
        let mut message = self.held;
        extend(&mut message, self.taken, last);
        let fed = self.finish(header, &message[..header.total().min(HELD)], missing, reply);
        if (fed.code as u8) < 20 {
            self.held = [0; HELD];
            self.taken = 0;
        }
        fed
    }

    /// Keeps the bytes of a message that is not finished.
    fn keep(&mut self, host: &[u8]) -> Fed {
        extend(&mut self.held, self.taken, host);
        self.taken += host.len();
        Fed { code: Code::Waiting, consumed: host.len(), wrote: 0 }
    }

    /// Answers a finished message, of which all bytes are given, or the first 64.
    fn finish(&mut self, header: Header, message: &[u8], consumed: usize, reply: &mut [u8]) -> Fed {
        let judged = match classify(header, message) {
            Class::Unanswered => return Fed { code: Code::NoReplyDue, consumed, wrote: 0 },
            Class::Refused(code) => Err(code),
            Class::Control(kind) => self.settings.judge(kind, message),
        };
        let length = match judged {
            Ok((answer, _)) => answer.length(),
            Err(_) => NAK.len(),
        };
        let Some(reply) = reply.get_mut(..length) else {
            return Fed { code: Code::NoRoom, consumed: 0, wrote: 0 };
        };
        let code = match judged {
            Ok((answer, change)) => {
                self.settings.apply(change);
                self.settings.write(answer, reply);
                Code::Done
            }
            Err(code) => {
                reply.copy_from_slice(&NAK);
                code
            }
        };
        Fed { code, consumed, wrote: length }
    }

    /// Cuts the next packet of the capture from I and Q in turn; with two channels a pair of the first, a pair of the second,
    /// and so on.
    pub fn cut(&mut self, samples: &[i32], packet: &mut [u8]) -> Cut {
        match self.try_cut(samples, packet) {
            Ok(wrote) => Cut { code: Code::Done, wrote },
            Err(code) => Cut { code, wrote: 0 },
        }
    }

    fn try_cut(&mut self, samples: &[i32], packet: &mut [u8]) -> Result<usize, Code> {
        if !self.is_sound() {
            return Err(Code::Broken);
        }
        if !self.settings.running {
            return Err(Code::WhileIdle);
        }
        if self.settings.count == CAPTURE_LIMIT {
            return Err(Code::CaptureFull);
        }
        let form = self.settings.form();
        if samples.len() != form.samples() {
            return Err(Code::WrongCount);
        }
        if !packet::samples_fit(samples) {
            return Err(Code::NotASample);
        }
        let packet = packet.get_mut(..form.total()).ok_or(Code::NoRoom)?;
        packet::write(form, self.settings.count, samples, packet);
        self.settings.count += 1;
        Ok(packet.len())
    }
}

/// Puts bytes behind the `taken` ones already held, as far as there are places.
fn extend(held: &mut [u8; HELD], taken: usize, bytes: &[u8]) {
    if let Some(places) = held.get_mut(taken..) {
        let count = places.len().min(bytes.len());
        places[..count].copy_from_slice(&bytes[..count]);
    }
}

/// Feeds a fresh box a whole slice of messages and writes the replies one after another, stopping where the next might
/// not fit. Answers how many bytes of reply it wrote. Like the other runs it stands apart from its callers, as those of a
/// linked library do: so the benchmarks time the same call of each.
#[inline(never)]
pub fn serve(host: &[u8], replies: &mut [u8]) -> usize {
    let (mut station, _) = Station::fresh(b"MT123456");
    let mut host = host;
    let mut wrote = 0;
    while !host.is_empty() && replies.len() - wrote >= 64 {
        let fed = station.feed(host, &mut replies[wrote..]);
        host = &host[fed.consumed..];
        wrote += fed.wrote;
    }
    wrote
}

/// Cuts packets from a run of samples, one after another, by a box that has just been started; answers how many.
#[inline(never)]
pub fn cut_run(mode: u8, size: u8, setup: u8, samples: &[i32], packets: &mut [u8]) -> usize {
    let (mut station, _) = Station::fresh(b"MT123456");
    station.settings.running = true;
    station.settings.mode = mode;
    station.settings.size = size;
    station.settings.setup = setup;
    let form = station.settings.form();
    let mut count = 0;
    for (samples, packet) in samples.chunks_exact(form.samples()).zip(packets.chunks_exact_mut(form.total())) {
        if station.cut(samples, packet).code != Code::Done {
            break;
        }
        count += 1;
    }
    count
}
