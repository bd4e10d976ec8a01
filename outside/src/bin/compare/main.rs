//! Holds two implementations of document 01 against each other, call by call, byte by byte.
//!
//!     compare [TIMES]       random inputs times TIMES (1 by default), and every edge
//!
//! Built with the proved library (see check.sh), the second implementation is that; without it the implementation of this
//! folder is held against itself, which tries the inputs and the boundary only.

mod inputs;

use std::collections::{BTreeMap, BTreeSet};
use std::fmt::Debug;
use std::process::{exit, ExitCode};

use outside::boundary::{reader_bytes, station_bytes, station_in, Library, Plain, WishFields, WISHES};
use outside::boundary::{ASK_CLOCK, ASK_FREQUENCY, ASK_GAIN, ASK_RANGE, ASK_RATE, ASK_VERSION};
use outside::boundary::{MOST_SAMPLES, READER_BYTES, SETUP_AT, STATION_BYTES};
use outside::boundary::{SET_CLOCK, SET_FREQUENCY, SET_GAIN, SET_RATE, SET_SETUP, SET_SIZE, SET_STATE};
use outside::packet::number_at;
use outside::random::Random;
use outside::station::Channel;
use outside::{head, rate, Form, Head, Reader, Station};

/// A wish as number, channel byte and value.
type Wished = (u64, u8, u64);

/// What a library answered to a call of feeding: code, bytes consumed, bytes written, and the buffer.
type Answered = ((u8, usize, usize), Vec<u8>);

/// What came of two messages: what both libraries answered to either, and both boxes after them.
type Outcome = ([(Answered, Answered); 2], (Vec<u8>, Vec<u8>));

/// After so many differences the rest would say nothing new.
const MOST_SHOWN: u64 = 10;

struct Comparison<'a> {
    plain: &'a dyn Library,
    other: &'a dyn Library,
    /// calls made, by name and code
    seen: BTreeMap<&'static str, BTreeMap<u8, u64>>,
    differences: u64,
}

impl Comparison<'_> {
    /// Notes one call and what both made of it; `input` tells how to have the call again.
    fn note<T: PartialEq + Debug>(
        &mut self,
        call: &'static str,
        code: u8,
        ours: T,
        other: T,
        input: impl Fn() -> String,
    ) {
        *self.seen.entry(call).or_default().entry(code).or_default() += 1;
        self.hold(call, [("plain", ours), ("other", other)], input);
    }

    /// Holds two things that have to be the same against each other, each with the name that a difference is told by.
    fn hold<T: PartialEq + Debug>(
        &mut self,
        call: &str,
        [(name, ours), (others_name, other)]: [(&str, T); 2],
        input: impl Fn() -> String,
    ) {
        if ours != other {
            self.differences += 1;
            println!("DIFFERENCE in {call}\n  input  {}", input());
            println!("  {name:6} {ours:02X?}\n  {others_name:6} {other:02X?}");
            if self.differences == MOST_SHOWN {
                println!("{MOST_SHOWN} differences: no more are looked for");
                exit(1);
            }
        }
    }

    fn fresh(&mut self, serial: &[u8], room: usize) {
        let (mut ours, mut theirs) = (vec![0xEE; room], vec![0xEE; room]);
        let code = self.plain.fresh(serial, &mut ours);
        let other = self.other.fresh(serial, &mut theirs);
        self.note("fresh", code, (code, ours), (other, theirs), || format!("{serial:02X?} {room}"));
    }

    /// One call of feeding; both states go on from what each made of it.
    fn feed(&mut self, states: &mut (Vec<u8>, Vec<u8>), host: &[u8], room: usize) -> (u8, usize) {
        let ((code, consumed, _), _) = self.answers("feed", states, host, room).0;
        (code, consumed)
    }

    /// The same, counted by the name given; what both answered.
    fn answers(
        &mut self,
        call: &'static str,
        states: &mut (Vec<u8>, Vec<u8>),
        host: &[u8],
        room: usize,
    ) -> (Answered, Answered) {
        let before = states.0.clone();
        let (mut ours, mut theirs) = (vec![0xEE; room], vec![0xEE; room]);
        let done = self.plain.feed(&mut states.0, host, &mut ours);
        let other = self.other.feed(&mut states.1, host, &mut theirs);
        self.note(call, done.0, (done, &ours, &states.0), (other, &theirs, &states.1), || {
            format!("state {before:02X?} host {host:02X?} room {room}")
        });
        ((done, ours), (other, theirs))
    }

    /// Two messages fed to the same box in both orders: what came of the order given, and what of the other.
    fn both_orders(&mut self, call: &'static str, state: &[u8], [one, other]: [&[u8]; 2]) -> [Outcome; 2] {
        let mut forth = (state.to_vec(), state.to_vec());
        let answers = [one, other].map(|message| self.answers(call, &mut forth, message, 64));
        let mut back = (state.to_vec(), state.to_vec());
        let [to_other, to_one] = [other, one].map(|message| self.answers(call, &mut back, message, 64));
        [(answers, forth), ([to_one, to_other], back)]
    }

    /// Two sets that may come in either order: each library answers them the same and has the same box after both.
    fn either_order(&mut self, state: &[u8], sets: [&[u8]; 2]) {
        let [forth, back] = self.both_orders("either order", state, sets);
        self.hold("either order", [("forth", forth), ("back", back)], || {
            format!("state {state:02X?} sets {sets:02X?}")
        });
    }

    /// Two sets of which the order tells.
    fn order_tells(&mut self, state: &[u8], sets: [&[u8]; 2]) {
        let [forth, back] = self.both_orders("order tells", state, sets);
        self.hold("order tells", [("tells", forth != back), ("wanted", true)], || {
            format!("state {state:02X?} sets {sets:02X?}")
        });
    }

    fn word(&mut self, state: &[u8], channel: u8) {
        let done = self.plain.word(state, channel);
        let other = self.other.word(state, channel);
        self.note("word", done.0, done, other, || format!("state {state:02X?} channel {channel:02X}"));
    }

    /// The words of both channels, and of what is no channel.
    fn words(&mut self, state: &[u8]) {
        for channel in [0x00, 0x02, 0x01, 0xFF] {
            self.word(state, channel);
        }
    }

    fn cut(&mut self, state: &[u8], samples: &[i32], room: usize) -> Vec<u8> {
        let (mut ours, mut theirs) = (vec![0xEE; room], vec![0xEE; room]);
        let (mut state_ours, mut state_theirs) = (state.to_vec(), state.to_vec());
        let done = self.plain.cut(&mut state_ours, samples, &mut ours);
        let other = self.other.cut(&mut state_theirs, samples, &mut theirs);
        self.note("cut", done.0, (done, &ours, &state_ours), (other, &theirs, &state_theirs), || {
            format!("state {state:02X?} samples {samples:?} room {room}")
        });
        ours.truncate(done.1);
        ours
    }

    fn silent(&mut self, channels: u8, room: usize) {
        let (mut ours, mut theirs) = (vec![0xEE; room], vec![0xEE; room]);
        let code = self.plain.silent(channels, &mut ours);
        let other = self.other.silent(channels, &mut theirs);
        self.note("silent", code, (code, ours), (other, theirs), || format!("channels {channels} room {room}"));
    }

    fn read(&mut self, reader: &[u8], packet: &[u8]) -> Vec<u8> {
        let (mut ours, mut theirs) = (reader.to_vec(), reader.to_vec());
        let done = self.plain.read(&mut ours, packet);
        let other = self.other.read(&mut theirs, packet);
        self.note("read", done.0, (done, &ours), (other, &theirs), || {
            format!("reader {reader:02X?} packet of {} {:02X?}", packet.len(), &packet[..packet.len().min(4)])
        });
        ours
    }

    fn sample_byte(&mut self, packet: &[u8], place: usize) {
        let done = self.plain.sample_byte(packet, place);
        let other = self.other.sample_byte(packet, place);
        let code = if done.0 > 0 { 1 } else { 30 };
        self.note("sample bytes", code, done, other, || format!("packet {packet:02X?} place {place}"));
    }

    fn unpack(&mut self, packet: &[u8], room: usize) {
        let (mut ours, mut theirs) = (vec![-77; room], vec![-77; room]);
        let done = self.plain.unpack(packet, &mut ours);
        let other = self.other.unpack(packet, &mut theirs);
        self.note("unpack", done.0, (done, ours), (other, theirs), || format!("packet {packet:02X?} room {room}"));
    }

    fn write_wish(&mut self, (which, channel, value): Wished, room: usize) {
        let (mut ours, mut theirs) = (vec![0xEE; room], vec![0xEE; room]);
        let fields = WishFields::of(which, channel, value);
        let done = self.plain.write_wish(fields, &mut ours);
        let other = self.other.write_wish(fields, &mut theirs);
        self.note("wish", done.0, (done, ours), (other, theirs), || {
            format!("wish {which} channel {channel:02X} value {value} room {room}")
        });
    }

    fn read_reply(&mut self, (which, channel, value): Wished, bytes: &[u8]) {
        let fields = WishFields::of(which, channel, value);
        let done = self.plain.read_reply(fields, bytes);
        let other = self.other.read_reply(fields, bytes);
        self.note("reply", done.0, done, other, || {
            format!("wish {which} channel {channel:02X} value {value} bytes {bytes:02X?}")
        });
    }

    fn write_head(&mut self, head: Head, room: usize) {
        let (mut ours, mut theirs) = (vec![0xEE; room], vec![0xEE; room]);
        let code = self.plain.write_head(head, &mut ours);
        let other = self.other.write_head(head, &mut theirs);
        self.note("head written", code, (code, ours), (other, theirs), || format!("head {head:?} room {room}"));
    }

    fn read_head(&mut self, bytes: &[u8]) {
        let done = self.plain.read_head(bytes);
        let other = self.other.read_head(bytes);
        self.note("head read", done.0, done, other, || format!("bytes {bytes:02X?}"));
    }

    fn newer(&mut self, bytes: &[u8], room: usize) {
        let (mut ours, mut theirs) = (vec![0xEE; room], vec![0xEE; room]);
        let code = self.plain.newer(bytes, &mut ours);
        let other = self.other.newer(bytes, &mut theirs);
        self.note("head newer", code, (code, ours), (other, theirs), || format!("bytes {bytes:02X?} room {room}"));
    }

    fn older(&mut self, bytes: &[u8], room: usize) {
        let (mut ours, mut theirs) = (vec![0xEE; room], vec![0xEE; room]);
        let code = self.plain.older(bytes, &mut ours);
        let other = self.other.older(bytes, &mut theirs);
        self.note("head older", code, (code, ours), (other, theirs), || format!("bytes {bytes:02X?} room {room}"));
    }

    /// A head's bytes read and moved both ways, with room to spare.
    fn head_bytes(&mut self, bytes: &[u8]) {
        self.read_head(bytes);
        self.newer(bytes, 30);
        self.older(bytes, 30);
    }

    fn serve(&mut self, host: &[u8], room: usize) {
        let (mut ours, mut theirs) = (vec![0xEE; room], vec![0xEE; room]);
        let done = self.plain.serve(host, &mut ours);
        let other = self.other.serve(host, &mut theirs);
        self.note("serve", 1, (done, ours), (other, theirs), || format!("host {host:02X?} room {room}"));
    }

    fn cut_run(&mut self, (mode, size, setup): (u8, u8, u8), samples: &[i32], room: usize) {
        let (mut ours, mut theirs) = (vec![0xEE; room], vec![0xEE; room]);
        let done = self.plain.cut_run(mode, size, setup, samples, &mut ours);
        let other = self.other.cut_run(mode, size, setup, samples, &mut theirs);
        self.note("cut run", 1, (done, ours), (other, theirs), || {
            format!("mode {mode:02X} size {size} setup {setup} samples {samples:?} room {room}")
        });
    }

    fn read_run(&mut self, channels: u8, packets: &[u8], each: usize) {
        let done = self.plain.read_run(channels, packets, each);
        let other = self.other.read_run(channels, packets, each);
        self.note("read run", 1, done, other, || {
            let starts = packets.chunks(each.max(1)).map(|packet| &packet[..packet.len().min(4)]);
            format!("channels {channels} packets of {each} in {} {:02X?}", packets.len(), starts.collect::<Vec<_>>())
        });
    }

    fn span(&mut self, input: &[u8]) {
        let (Some(ours), Some(theirs)) = (self.plain.span(input), self.other.span(input)) else { return };
        let (ours, theirs) = (String::from_utf8_lossy(&ours), String::from_utf8_lossy(&theirs));
        // the code after R, or 1 where the input was read to its end
        let last = ours.lines().last().unwrap_or_default();
        let code = last.strip_prefix("R ").and_then(|rest| rest.split(' ').next()?.parse().ok()).unwrap_or(1);
        self.note("span", code, &ours, &theirs, || {
            format!("{:02X?} .. of {}", &input[..input.len().min(2000)], input.len())
        });
    }

    fn head_mode(&mut self, mode: u8, setup: u8) {
        let done = self.plain.head_mode(mode, setup);
        let other = self.other.head_mode(mode, setup);
        self.note("head mode", done.0, done, other, || format!("mode {mode:02X} setup {setup:02X}"));
    }

    /// Noted with 41 where there is no such version.
    fn head_length(&mut self, version: u32) {
        let done = self.plain.head_length(version);
        let other = self.other.head_length(version);
        self.note("head length", if done > 0 { 1 } else { 41 }, done, other, || format!("version {version}"));
    }

    fn shape(&mut self, mode: u8, size: u8) {
        let done = self.plain.shape(mode, size);
        let other = self.other.shape(mode, size);
        self.note("shape", done.0, done, other, || format!("mode {mode:02X} size {size:02X}"));
    }

    /// Noted with 16 where no D has the rate.
    fn divisor(&mut self, rate: u32) {
        let done = self.plain.divisor(rate);
        let other = self.other.divisor(rate);
        self.note("divisor", if done > 0 { 1 } else { 16 }, done, other, || format!("rate {rate}"));
    }

    /// Noted with 0 where the header is not whole.
    fn message(&mut self, bytes: &[u8]) {
        let done = self.plain.message(bytes);
        let other = self.other.message(bytes);
        self.note("message", (done > 0).into(), done, other, || format!("bytes {bytes:02X?}"));
    }

    fn end_time(&mut self, samples: u64, divisor: u32, clock: u32) {
        let done = self.plain.end_time(samples, divisor, clock);
        let other = self.other.end_time(samples, divisor, clock);
        self.note("end time", done.0, done, other, || format!("samples {samples} D {divisor} clock {clock}"));
    }
}

// ---- random inputs

/// A box, broken or not, and bytes in random pieces with short and long reply buffers.
fn random_feeding(c: &mut Comparison, r: &mut Random, times: u64) {
    for _ in 0..times {
        let state = inputs::station_state(r);
        let mut states = (state.clone(), state);
        let mut host = Vec::new();
        if r.once_in(3) {
            // what the unfinished message still lacks, or bytes that run on into it
            let count = r.within(1, 70);
            host.extend(r.bytes(count as usize));
        }
        for _ in 0..r.within(1, 3) {
            host.extend(inputs::damaged(r));
        }
        let mut at = 0;
        let mut stuck = 0;
        while at < host.len() && stuck < 3 {
            let piece = match r.below(4) {
                0 => 1,
                1 => r.size(12),
                2 => host.len() - at,
                _ => r.size(host.len() - at + 1),
            }
            .min(host.len() - at);
            let room = match r.below(8) {
                0 => r.size(12),
                1 => r.size(40),
                2 => r.of(&[0, 1, 2, 4, 5, 6, 7, 8, 9, 10, 11, 12, 13, 35, 36]),
                _ => 64,
            };
            let (code, consumed) = c.feed(&mut states, &host[at..at + piece], room);
            at += consumed;
            stuck = if code >= 20 || consumed == 0 { stuck + 1 } else { 0 };
            if r.once_in(8) {
                c.word(&states.0, inputs::channel(r));
            }
        }
    }
}

fn random_serving(c: &mut Comparison, r: &mut Random, times: u64) {
    for _ in 0..times {
        let mut host = Vec::new();
        for _ in 0..r.size(12) {
            host.extend(if r.once_in(6) { inputs::damaged(r) } else { inputs::message(r) });
        }
        let room = r.of(&[0, 63, 64, 65, 100, 128, 200, 1000]);
        c.serve(&host, room);
    }
}

fn random_words(c: &mut Comparison, r: &mut Random, times: u64) {
    for _ in 0..times {
        let state = inputs::station_state(r);
        c.word(&state, inputs::channel(r));
    }
}

/// One box, tuned again and again, with one channel open or with both: after each message both boxes hold the same words.
fn random_tuning(c: &mut Comparison, r: &mut Random, times: u64) {
    let state = fresh_state();
    let mut states = (state.clone(), state);
    for _ in 0..times {
        if r.once_in(4) {
            c.feed(&mut states, &set_setup(inputs::setup(r)), 64);
        }
        let frequency = if r.once_in(8) { inputs::frequency(r) } else { inputs::tuned(r) };
        c.feed(&mut states, &set_frequency(inputs::channel(r), frequency), 64);
        let clock = if r.once_in(8) { inputs::clock(r) } else { r.within(79_992_000, 80_008_000) };
        c.feed(&mut states, &set_clock(inputs::channel(r), clock), 64);
        c.word(&states.0, inputs::channel(r));
    }
}

/// Cutting, and what was cut is read and unpacked again.
fn random_cutting(c: &mut Comparison, r: &mut Random, times: u64) {
    for _ in 0..times {
        let state = inputs::cutting_state(r);
        let form = match state[..].try_into() {
            Ok(state) => station_in(state).settings.form(),
            Err(_) => inputs::form(r),
        };
        let samples = inputs::samples(r, form);
        let room = inputs::room(r, form.total());
        let packet = c.cut(&state, &samples, room);
        if !packet.is_empty() {
            c.unpack(&packet, form.samples());
        }
    }
}

fn random_reading(c: &mut Comparison, r: &mut Random, times: u64) {
    for _ in 0..times {
        let (mut reader, packet) = inputs::reading(r);
        reader = c.read(&reader, &packet);
        // and on from where it came to, mostly in the form that it has heard
        let heard = Form::of_packet(&packet).unwrap_or(Form::LARGE_24);
        for _ in 0..r.size(4) {
            let form = if r.once_in(16) { inputs::form(r) } else { heard };
            let number = if r.once_in(6) { 0 } else { r.any() as u16 };
            let packet = inputs::packet(r, form, number);
            reader = c.read(&reader, &packet);
        }
    }
}

/// Some packets from a box of any mode, size and setup, with one sample too few at times, a bad one, or too little room.
fn random_cut_runs(c: &mut Comparison, r: &mut Random, times: u64) {
    for _ in 0..times {
        let mode = if r.once_in(12) { inputs::mode(r) } else { r.of(&[0x80, 0x00]) };
        let size = if r.once_in(12) { r.of(&[0, 1, 2, 0xFF]) } else { r.of(&[0, 1]) };
        let setup = if r.once_in(12) { r.of(&inputs::SETUPS) } else { inputs::setup(r) };
        let form = Form::of_settings(mode, size);
        let count = r.size(4);
        let mut samples: Vec<i32> = (0..count * form.samples()).map(|_| inputs::sample(r)).collect();
        match r.below(8) {
            0 => drop(samples.pop()),
            1 if count > 0 => samples[r.size(count * form.samples())] = r.of(&[-8_388_609, 8_388_608]),
            _ => {}
        }
        let room = inputs::room(r, count * form.total());
        c.cut_run((mode, size, setup), &samples, room);
    }
}

/// The packets of a capture, now and then cut by another length than theirs.
fn random_runs(c: &mut Comparison, r: &mut Random, times: u64) {
    for _ in 0..times {
        let form = inputs::form(r);
        let packets = inputs::packets(r, form);
        let each = if r.once_in(12) { r.of(&[0, 1, 4, form.total() - 1, form.total() + 1]) } else { form.total() };
        c.read_run(inputs::count(r), &packets, each);
    }
}

fn random_unpacking(c: &mut Comparison, r: &mut Random, times: u64) {
    for _ in 0..times {
        let form = inputs::form(r);
        let number = r.any() as u16;
        let packet = inputs::packet(r, form, number);
        let room = inputs::room(r, form.samples());
        c.unpack(&packet, room);
        let place = match r.below(3) {
            0 => r.of(&[0, 1, form.total() - 5, form.total() - 4, form.total(), usize::MAX]),
            _ => r.size(form.total()),
        };
        c.sample_byte(&packet, place);
    }
}

fn random_wishes(c: &mut Comparison, r: &mut Random, times: u64) {
    for _ in 0..times {
        let wished = inputs::wish_numbers(r);
        let room = if r.once_in(3) { r.size(16) } else { 16 + r.size(4) };
        c.write_wish(wished, room);
        let bytes = inputs::answer(r, wished);
        c.read_reply(wished, &bytes);
    }
}

fn random_heads(c: &mut Comparison, r: &mut Random, times: u64) {
    for _ in 0..times {
        let mut head = inputs::head(r);
        if r.once_in(4) {
            inputs::harm_head(r, &mut head);
        }
        let room = inputs::room(r, head.length());
        c.write_head(head, room);

        let mut bytes = inputs::head_bytes(&inputs::head(r));
        if r.once_in(3) {
            inputs::harm_bytes(r, &mut bytes);
        }
        if r.once_in(2) {
            // what stands behind a head is not looked at
            let count = r.size(20);
            bytes.extend(r.bytes(count));
        }
        if r.once_in(4) {
            bytes.truncate(r.size(31));
        }
        c.read_head(&bytes);
        let room = inputs::room(r, head::LENGTH_2);
        c.newer(&bytes, room);
        let room = inputs::room(r, head::LENGTH_1);
        c.older(&bytes, room);
    }
}

fn random_spans(c: &mut Comparison, r: &mut Random, times: u64) {
    for _ in 0..times {
        let capture = inputs::capture(r);
        c.span(&capture);
    }
}

/// A box between messages, idle or running, with one channel open or with both, and two sets that may come in either order.
fn random_orders(c: &mut Comparison, r: &mut Random, times: u64) {
    for _ in 0..times {
        let state = station_bytes(&inputs::sound(r));
        let [one, other] = inputs::exchangeable_sets(r);
        c.either_order(&state, [&one, &other]);
    }
}

/// What programs on the air ask: versions, rates and messages of any bytes, and end times, one in four of which is refused.
fn random_asking(c: &mut Comparison, r: &mut Random, times: u64) {
    for _ in 0..times {
        c.head_length(r.any() as u32);
        c.divisor(r.any() as u32);
        c.divisor(r.bits(32) as u32);
        let count = r.size(6);
        let bytes = r.bytes(count);
        c.message(&bytes);

        let mut samples = if r.once_in(2) { r.bits(40) } else { r.below(MOST_SAMPLES + 1) };
        let mut divisor = r.within(rate::FIRST.into(), rate::LAST.into()) as u32;
        let mut clock = if r.once_in(2) { r.of(&inputs::HEAD_CLOCKS) } else { r.within(79_992_000, 80_008_000) as u32 };
        if r.once_in(4) {
            match r.below(3) {
                0 => samples = MOST_SAMPLES + 1 + r.bits(62),
                1 => divisor = if r.once_in(2) { r.of(&D_EDGES) } else { r.any() as u32 },
                _ => clock = if r.once_in(2) { inputs::clock(r) as u32 } else { r.any() as u32 },
            }
        }
        c.end_time(samples, divisor, clock);
    }
}

// ---- every edge

/// D at the edges of its range, beside them, and where 8 or 16 bits do not hold it.
const D_EDGES: [u32; 13] = [0, 1, 9, 10, 11, 100, 256 + 10, 624, 625, 626, 65_535, 65_536 + 100, u32::MAX];

/// Every mode byte with every channel setup and every size byte, in heads and beside them.
fn every_mode_byte(c: &mut Comparison) {
    for mode in 0..=u8::MAX {
        for byte in 0..=u8::MAX {
            c.head_mode(mode, byte);
            c.shape(mode, byte);
        }
    }
}

/// Every version of 16 bits, and those that more bits make.
fn every_head_length(c: &mut Comparison) {
    (0..=u16::MAX).for_each(|version| c.head_length(version.into()));
    inputs::VERSIONS.into_iter().for_each(|version| c.head_length(version));
    (0..32).for_each(|bit| (0..4).for_each(|low| c.head_length(1 << bit | low)));
}

/// Every rate up to past the greatest, and every achieved rate with more bits set above it.
fn every_divisor(c: &mut Comparison) {
    (0..=2_100_000).for_each(|rate| c.divisor(rate));
    for rate in rate::ACHIEVED {
        (21..32).for_each(|bit| c.divisor(rate | 1 << bit));
    }
}

/// Every header, alone and before one byte and two; every first byte alone, and nothing.
fn every_message(c: &mut Comparison, r: &mut Random) {
    c.message(&[]);
    (0..=u8::MAX).for_each(|byte| c.message(&[byte]));
    for header in 0..=u16::MAX {
        let [low, high] = header.to_le_bytes();
        c.message(&[low, high]);
        c.message(&[low, high, r.byte()]);
    }
}

/// End times at the edges of samples, D and clock, and beside them.
fn every_asked_time(c: &mut Comparison) {
    let near = [0, 1, 2, 3, 256, 4_000_000_000, u32::MAX.into(), 1 << 32, MOST_SAMPLES - 1, MOST_SAMPLES];
    let far = [MOST_SAMPLES + 1, 1 << 40, 1 << 41, 1 << 53, 1 << 63, u64::MAX - 1, u64::MAX];
    let beside = [0, 1, 79_991_999, 80_008_001, 160_000_000, u32::MAX];
    for samples in near.into_iter().chain(far) {
        for divisor in D_EDGES {
            for clock in inputs::HEAD_CLOCKS.into_iter().chain(beside) {
                c.end_time(samples, divisor, clock);
            }
        }
    }
    // where the microseconds go up by one
    for divisor in rate::FIRST..=rate::LAST {
        for clock in inputs::HEAD_CLOCKS {
            for samples in 0..100 {
                c.end_time(samples, divisor, clock);
                c.end_time(MOST_SAMPLES - samples, divisor, clock);
            }
        }
    }
}

/// Every header, with a message of its own length, in one slice and cut after its first and second byte.
fn every_header(c: &mut Comparison, r: &mut Random) {
    for header in 0..=u16::MAX {
        let message = inputs::whole(r, header);
        let state = fresh_state();
        let mut states = (state.clone(), state);
        for cut in [0, 1, 2, message.len() - 1] {
            let mut at = 0;
            for end in [cut.min(message.len()), message.len()] {
                let (_, consumed) = c.feed(&mut states, &message[at..end], 64);
                at += consumed;
            }
        }
    }
}

/// Every item code, set, requested and asked for its range, with the lengths that some item has.
fn every_item(c: &mut Comparison) {
    for item in 0..=u16::MAX {
        for kind in 0..3u16 {
            let lengths: &[u16] =
                if inputs::ITEMS.contains(&item) { &[4, 5, 6, 7, 8, 9, 10, 11, 63, 64] } else { &[4, 5] };
            for length in lengths {
                let mut message = vec![0; usize::from(*length)];
                message[..2].copy_from_slice(&(length | kind << 13).to_le_bytes());
                message[2..4].copy_from_slice(&item.to_le_bytes());
                let state = fresh_state();
                c.feed(&mut (state.clone(), state), &message, 64);
            }
        }
    }
}

/// Every rate that is allowed and those beside them, idle and, for some, running.
fn every_rate(c: &mut Comparison) {
    let state = fresh_state();
    for rate in 31_990..=2_000_010u32 {
        let mut message = [0x09, 0x00, 0xB8, 0x00, 0x5A, 0, 0, 0, 0];
        message[5..].copy_from_slice(&rate.to_le_bytes());
        c.feed(&mut (state.clone(), state.clone()), &message, 64);
    }
}

/// Boxes with either setup, idle and running, whose two channels have values of their own.
fn some_boxes() -> Vec<Station> {
    let mut boxes = Vec::new();
    for setup in [0, 4] {
        for running in [false, true] {
            let mut station = Station::fresh(b"MT123456").0;
            let settings = &mut station.settings;
            settings.setup = setup;
            settings.running = running;
            settings.mode = if running { 0x00 } else { 0x80 };
            settings.first.gain = -30;
            settings.second.gain = -10;
            settings.first.tune(145_000_000, settings.clock);
            settings.second.tune(7_050_000, settings.clock);
            boxes.push(station);
        }
    }
    boxes
}

/// The settings of one byte: every gain with every channel, every state's run byte and mode, every setup, every size, every
/// version; and the word of every channel.
fn every_byte(c: &mut Comparison) {
    for station in some_boxes() {
        let state = station_bytes(&station).to_vec();
        let mut tell = |message: &[u8]| {
            c.feed(&mut (state.clone(), state.clone()), message, 64);
        };
        for a in 0..=255 {
            tell(&[0x05, 0x00, 0x19, 0x00, a]);
            tell(&[0x05, 0x20, 0x19, 0x00, a]);
            tell(&[0x05, 0x00, 0xC4, 0x00, a]);
            for item in [0x04, 0x20, 0x38, 0xB0, 0xB8] {
                tell(&[0x05, 0x20, item, 0x00, a]);
            }
            tell(&[0x05, 0x40, 0x20, 0x00, a]);
            tell(&[0x0A, 0x00, 0x20, 0x00, a, 0x90, 0xC6, 0xD5, 0x00, 0x00]);
            tell(&[0x09, 0x00, 0xB0, 0x00, a, 0x00, 0xB4, 0xC4, 0x04]);
            tell(&[0x09, 0x00, 0xB8, 0x00, a, 0x20, 0xA1, 0x07, 0x00]);
            for b in 0..=255 {
                tell(&[0x06, 0x00, 0x38, 0x00, a, b]);
                for first in [0x80, 0x00, 0x81, 0x7F] {
                    tell(&[0x08, 0x00, 0x18, 0x00, first, a, b, a ^ b]);
                }
            }
        }
        for channel in 0..=255 {
            c.word(&state, channel);
        }
    }
}

/// Every channel byte in every message that has one, with a value that is allowed and one that is not; then the setup is
/// changed over and back, and after each message both channels are asked for, with what they can show.
fn every_channel(c: &mut Comparison) {
    for station in some_boxes() {
        let state = station_bytes(&station).to_vec();
        for channel in 0..=255 {
            for first in [
                set_frequency(channel, 14_010_000),
                set_frequency(channel, 140_000_000),
                set_frequency(channel, 34_000_001),
                set_gain(channel, 0xEC),
                set_gain(channel, 0xED),
                set_clock(channel, 79_992_000),
                set_clock(channel, 79_991_999),
            ] {
                let mut states = (state.clone(), state.clone());
                for message in [&first, &set_setup(4), &first, &set_setup(0), &first, &set_setup(4)] {
                    c.feed(&mut states, message, 64);
                    ask_both(c, &mut states);
                }
            }
        }
    }
}

/// Asks for all that two channels can show.
fn ask_both(c: &mut Comparison, states: &mut (Vec<u8>, Vec<u8>)) {
    c.feed(states, &[0x04, 0x20, 0x19, 0x00], 64);
    for channel in [0x00, 0x02] {
        c.feed(states, &[0x05, 0x20, 0x20, 0x00, channel], 64);
        c.feed(states, &[0x05, 0x20, 0x38, 0x00, channel], 64);
        c.feed(states, &[0x05, 0x40, 0x20, 0x00, channel], 64);
        c.word(&states.0, channel);
    }
}

/// Boxes with every setup, idle and running: only two of them are not broken.
fn every_setup(c: &mut Comparison) {
    for mut station in some_boxes() {
        let form = station.settings.form();
        for setup in 0..=255 {
            station.settings.setup = setup;
            let state = station_bytes(&station).to_vec();
            for message in [vec![0x04, 0x20, 0x01, 0x00], vec![0x04, 0x20, 0x19, 0x00], set_setup(0), set_setup(setup)]
            {
                c.feed(&mut (state.clone(), state.clone()), &message, 64);
            }
            c.words(&state);
            c.cut(&state, &vec![0; form.samples()], form.total());
        }
    }
}

/// The exceptions: sets that may not come in either order. The setup opens the second channel, which a set of all channels or
/// of the second then covers; and a rate is not set while running.
fn every_exception(c: &mut Comparison) {
    for [one, other] in [
        [set_setup(4), set_frequency(0xFF, 14_010_000)],
        [set_setup(4), set_frequency(0x02, 14_010_000)],
        [set_setup(4), set_gain(0xFF, 0xF6)],
        [set_setup(4), set_gain(0x02, 0xF6)],
        [set_rate(0x00, 100_000), START_24.to_vec()],
    ] {
        c.order_tells(&fresh_state(), [&one, &other]);
    }
}

/// Frequencies and clocks around each edge, with the word of each pair.
fn every_edge_of_bands(c: &mut Comparison) {
    let state = fresh_state();
    for centre in inputs::FREQUENCIES {
        for frequency in centre.saturating_sub(50)..=(centre + 50).min(0xFF_FFFF_FFFF) {
            for clock in inputs::CLOCKS {
                for (setup, channel) in [(0, 0xFF), (4, 0xFF), (4, 0x02)] {
                    let mut states = (state.clone(), state.clone());
                    c.feed(&mut states, &set_setup(setup), 64);
                    c.feed(&mut states, &set_clock(0x00, clock), 64);
                    c.feed(&mut states, &set_frequency(channel, frequency), 64);
                    c.words(&states.0);
                }
            }
        }
    }
}

/// Boxes with the word of their frequency and clock and with others, in either channel, at the edges of bands and clock and
/// beside them: fed, cut, and asked for the word.
fn every_word(c: &mut Comparison, r: &mut Random) {
    let form = Form::LARGE_24;
    let samples = vec![0; form.samples()];
    for frequency in inputs::FREQUENCIES.into_iter().chain(inputs::TUNED) {
        for clock in inputs::CLOCKS.map(|clock| clock as u32) {
            for word in inputs::words(r, frequency, clock) {
                let tuned = Channel { frequency, word, gain: 0 };
                let right = right_channel(clock);
                for (first, second) in [(&tuned, &right), (&right, &tuned)] {
                    let mut station = Station::fresh(b"MT123456").0;
                    station.settings.first = first.clone();
                    station.settings.second = second.clone();
                    station.settings.clock = clock;
                    station.settings.running = true;
                    station.settings.setup = inputs::setup(r);
                    let state = station_bytes(&station).to_vec();
                    c.feed(&mut (state.clone(), state.clone()), &[0x04, 0x20, 0x01, 0x00], 64);
                    c.cut(&state, &samples, form.total());
                    c.words(&state);
                }
            }
        }
    }
}

/// A channel that is in order in a box with this clock, if any is.
fn right_channel(clock: u32) -> Channel {
    let mut channel = Channel { frequency: 0, word: 0, gain: -10 };
    channel.tune(14_010_000, clock.max(1));
    channel
}

/// Talks after which a box has other words or, where it refuses, the same; each message without room for its reply too.
fn every_tuning(c: &mut Comparison) {
    let mut talks = vec![
        vec![
            set_frequency(0x00, 14_010_000),
            set_clock(0x00, 80_000_123),
            set_frequency(0x00, 34_000_001),
            set_clock(0x00, 8_000_000),
            set_frequency(0xFF, 145_000_000),
            set_frequency(0x02, 14_010_000),
        ],
        vec![set_frequency(0x00, 145_000_000)],
        // the second channel is set, closed, kept while the clock and the first one change, and opened again
        vec![
            set_setup(4),
            set_frequency(0x02, 14_010_000),
            set_gain(0xFF, 0xEC),
            set_setup(1),
            set_setup(0),
            set_frequency(0x02, 7_050_000),
            set_frequency(0xFF, 20_000_000),
            set_gain(0xFF, 0xF6),
            set_clock(0x02, 80_000_123),
            set_setup(4),
            set_frequency(0xFF, 145_000_000),
            set_clock(0xFF, 79_992_000),
            set_frequency(0x02, 34_000_001),
            START_24.to_vec(),
            set_setup(4),
            set_setup(0),
            set_setup(5),
            set_frequency(0x02, 100_000),
        ],
    ];
    for frequency in inputs::TUNED {
        for clock in inputs::CLOCKS {
            talks.push(vec![set_frequency(0x00, frequency), set_clock(0x00, clock)]);
            talks.push(vec![set_clock(0xFF, clock), set_frequency(0xFF, frequency)]);
            talks.push(vec![set_setup(4), set_frequency(0x02, frequency), set_setup(0), set_clock(0x02, clock)]);
        }
    }
    for talk in talks {
        let state = fresh_state();
        let mut states = (state.clone(), state);
        for message in talk {
            for room in [0, 1, 64] {
                c.feed(&mut states, &message, room);
                c.words(&states.0);
            }
        }
    }
}

/// Every clock that is allowed and those beside them, set one after the other at frequencies of both bands, with the second
/// channel open or closed.
fn every_clock(c: &mut Comparison) {
    let others = inputs::TUNED.into_iter().rev();
    for ((frequency, other), setup) in inputs::TUNED.into_iter().zip(others).zip([0, 4].into_iter().cycle()) {
        let state = fresh_state();
        let mut states = (state.clone(), state);
        for message in [set_setup(4), set_frequency(0x00, frequency), set_frequency(0x02, other), set_setup(setup)] {
            c.feed(&mut states, &message, 64);
        }
        for clock in 79_991_990..=80_008_010 {
            c.feed(&mut states, &set_clock(0x5A, clock), 64);
        }
        c.words(&states.0);
    }
}

/// Each reply with a buffer of each length up to its own, and states of each length.
fn every_room(c: &mut Comparison) {
    let state = fresh_state();
    let mut messages: Vec<Vec<u8>> = inputs::ITEMS.iter().map(|&i| vec![0x04, 0x20, i as u8, 0x00]).collect();
    for item in [0x04, 0x20, 0x38, 0xB0, 0xB8] {
        messages.push(vec![0x05, 0x20, item, 0x00, 0x00]);
    }
    messages.push(vec![0x05, 0x40, 0x20, 0x00, 0x00]);
    messages.push(vec![0x05, 0x40, 0x20, 0x00, 0x02]);
    messages.push(set_setup(4));
    messages.push(vec![0x02, 0x00]);
    messages.push(vec![0x00, 0x00]);
    for message in &messages {
        for room in 0..=66 {
            c.feed(&mut (state.clone(), state.clone()), message, room);
        }
    }
    for length in 0..=2 * STATION_BYTES {
        let mut odd = state.clone();
        odd.resize(length, 0);
        c.feed(&mut (odd.clone(), odd.clone()), &messages[0], 64);
        c.words(&odd);
        c.cut(&odd, &[], 0);
        c.fresh(b"MT123456", length);
    }
    for channels in 0..=255 {
        for length in 0..=2 * READER_BYTES {
            let mut odd = reader_bytes(&Reader::new(channels)).to_vec();
            odd.resize(length, 0);
            c.read(&odd, &[]);
            c.silent(channels, length);
        }
    }
}

fn every_serial(c: &mut Comparison, r: &mut Random) {
    for byte in 0..=255 {
        for place in 0..8 {
            let mut serial = *b"MT123456";
            serial[place] = byte;
            c.fresh(&serial, STATION_BYTES);
        }
    }
    for length in 0..=16 {
        c.fresh(&vec![b'A'; length], STATION_BYTES);
        let serial = r.bytes(length);
        c.fresh(&serial, STATION_BYTES);
    }
}

/// Each number after each of some positions, in each form, with one channel and with two; around the last position too. And
/// some of them to readers that were told no such count.
fn every_number(c: &mut Comparison, r: &mut Random) {
    for form in Form::LISTED {
        let mut packet = inputs::plain_packet(r, form, 0);
        for position in [0, 1, 65_535, 65_536, 131_071, 3_999_934_000, 3_999_999_999] {
            let total = inputs::most_missed(position);
            for channels in 0..=255 {
                let reader = reader_bytes(&Reader { heard: true, position, total, form, channels });
                let step = if matches!(channels, 1 | 2) { 1 } else { 1021 };
                for number in (0..=u16::MAX).step_by(step) {
                    packet[2..4].copy_from_slice(&number.to_le_bytes());
                    c.read(&reader, &packet);
                }
            }
        }
    }
}

/// Readers with totals at and beside each bound, of each form and of none, and what each makes of packets that it would hear
/// and of one that it would not.
fn every_total(c: &mut Comparison, r: &mut Random) {
    const POSITIONS: [u64; 16] = [
        0,
        1,
        2,
        10,
        65_534,
        65_535,
        65_536,
        65_537,
        131_069,
        131_070,
        131_071,
        131_072,
        3_999_999_999,
        4_000_000_000,
        u64::MAX - 1,
        u64::MAX,
    ];
    let none = Reader::new(1).form;
    for form in [none].into_iter().chain(Form::LISTED) {
        let packet = inputs::plain_packet(r, if form == none { Form::LARGE_24 } else { form }, 0);
        for position in POSITIONS {
            let bounds = [0, inputs::most_missed(position), position, u64::MAX];
            let totals: BTreeSet<u64> =
                bounds.iter().flat_map(|bound| bound.saturating_sub(2)..=bound.saturating_add(2)).collect();
            for total in totals {
                for (heard, channels) in inputs::COUNTS.into_iter().flat_map(|count| [(false, count), (true, count)]) {
                    let reader = reader_bytes(&Reader { heard, position, total, form, channels });
                    for number in [0, 1, number_at(position), number_at(position.saturating_add(1)), 65_535] {
                        let mut packet = packet.clone();
                        packet[2..4].copy_from_slice(&number.to_le_bytes());
                        let after = c.read(&reader, &packet);
                        c.read(&after, &packet);
                    }
                    c.read(&reader, &packet[1..]);
                }
            }
        }
    }
}

/// Each packet header with each listed length.
fn every_packet_header(c: &mut Comparison) {
    let silent = reader_bytes(&Reader::new(1));
    for header in 0..=u16::MAX {
        for total in [0, 1, 2, 3, 4, 388, 516, 1028, 1444, 1445] {
            let mut packet = vec![0; total];
            for (place, byte) in packet.iter_mut().zip(header.to_le_bytes()) {
                *place = byte;
            }
            c.read(&silent, &packet);
        }
    }
}

/// A sample of each 24-bit value, cut in every form and unpacked; packets with one channel and with two in turn.
fn every_sample(c: &mut Comparison) {
    for form in Form::LISTED {
        let mut station = Station::fresh(b"MT123456").0;
        station.settings.running = true;
        station.settings.mode = if form.bits == 24 { 0x80 } else { 0x00 };
        station.settings.size = (form == Form::SMALL_24 || form == Form::SMALL_16).into();
        let mut state = station_bytes(&station).to_vec();
        let mut next = -8_388_608;
        while next <= 8_388_607 {
            state[SETUP_AT] ^= 4;
            let samples: Vec<i32> = (0..form.samples() as i32).map(|i| (next + i).min(8_388_607)).collect();
            next += form.samples() as i32;
            let packet = c.cut(&state, &samples, form.total());
            c.unpack(&packet, form.samples());
        }
    }
}

fn every_wish(c: &mut Comparison) {
    for which in 0..WISHES + 2 {
        for channel in inputs::CHANNELS {
            for value in 0..0x300 {
                c.write_wish((which, channel, value), 16);
                c.read_reply((which, channel, value), &[0x02, 0x00]);
            }
            for room in 0..20 {
                c.write_wish((which, channel, 1), room);
                c.write_wish((which, channel, 5), room);
            }
        }
    }
    for state in 0..=u64::from(u16::MAX) {
        c.write_wish((SET_STATE, 0, state), 16);
        for run in [1, 2, 3] {
            for mode in [0x00, 0x80, 0x01] {
                c.read_reply((SET_STATE, 0, state), &[0x08, 0x00, 0x18, 0x00, 0x80, run, mode, 0x00]);
            }
        }
    }
    for channel in inputs::CHANNELS {
        for frequency in inputs::FREQUENCIES {
            for value in frequency.saturating_sub(20)..frequency + 20 {
                c.write_wish((SET_FREQUENCY, channel, value), 16);
            }
        }
        for clock in inputs::CLOCKS {
            for value in clock.saturating_sub(20)..clock + 20 {
                c.write_wish((SET_CLOCK, channel, value), 16);
            }
        }
    }
}

/// Every wish for every channel, with a value that is allowed and one that is not, with room for it and without; and what it
/// makes of NAK, of no reply, and of a reply that repeats its own channel byte, or another.
fn every_wished_channel(c: &mut Comparison) {
    for which in 0..WISHES + 1 {
        let (right, wrong) = values_of(which);
        for channel in 0..=255 {
            for value in right.iter().chain(wrong) {
                let wished = (which, channel, *value);
                for room in [0, 15, 16] {
                    c.write_wish(wished, room);
                }
                c.read_reply(wished, &[0x02, 0x00]);
                c.read_reply(wished, &[]);
            }
            let shown = shown_for(which, channel, right[0]);
            for echoed in inputs::CHANNELS.into_iter().chain([channel]) {
                let mut reply = shown.clone();
                reply[4] = echoed;
                c.read_reply((which, channel, right[0]), &reply);
            }
        }
    }
}

/// What a box with both channels open answers to a wish, that for channel 00 where the wish has one that no box allows; never
/// shorter than five bytes.
fn shown_for(which: u64, channel: u8, value: u64) -> Vec<u8> {
    let (mut message, mut reply) = ([0; 16], [0; 64]);
    let mut station = Station::fresh(b"MT123456").0;
    station.settings.setup = 4;
    let written = [channel, 0].into_iter().find_map(|channel| {
        let (code, length) = Plain.write_wish(WishFields::of(which, channel, value), &mut message);
        (code == 1).then_some(length)
    });
    let wrote = station.feed(&message[..written.unwrap_or(0)], &mut reply).wrote;
    reply[..wrote.max(5)].to_vec()
}

/// Some values that a wish of this number can have, and some that it cannot.
fn values_of(which: u64) -> (&'static [u64], &'static [u64]) {
    match which {
        ASK_VERSION => (&[0, 1, 2, 3], &[4, 0xFF]),
        SET_STATE => (&[0x0001, 0x8002, 0x0002], &[0x0000, 0x4002, 0xC002, 0x0003]),
        SET_SETUP => (&[0, 4], &[1, 2, 3, 5, 6, 0xFF]),
        SET_FREQUENCY => (&[14_010_000, 145_000_000], &[34_000_001, 0]),
        SET_GAIN => (&[0xEC], &[0xED]),
        SET_CLOCK => (&[80_000_123], &[80_008_001]),
        SET_RATE => (&[1_907_000], &[31_999]),
        SET_SIZE => (&[1], &[2]),
        _ => (&[0], &[]),
    }
}

/// Each rate wished for, answered with the achieved rate and its neighbours; and every answer to a request for the rate.
fn every_rate_reply(c: &mut Comparison) {
    for wished in 31_998..=2_000_002u32 {
        // any channel byte is allowed: another for each rate
        let channel = wished as u8;
        let answer = |rate: u32| {
            let [a, b, d, e] = rate.to_le_bytes();
            [0x09, 0x00, 0xB8, 0x00, channel, a, b, d, e]
        };
        let (set, asked) = ((SET_RATE, channel, wished.into()), (ASK_RATE, channel, 0));
        c.write_wish(set, 16);
        let right = if rate::rate_allowed(wished) { rate::achieved(rate::nearest(wished)) } else { wished };
        c.read_reply(set, &answer(right));
        c.read_reply(set, &answer(right + 1));
        c.read_reply(set, &answer(wished));
        c.read_reply(asked, &answer(wished));
    }
}

/// The channel bytes that some box allows in a wish; one where it has none.
fn channels_of(which: u64) -> &'static [u8] {
    match which {
        SET_FREQUENCY | SET_GAIN => &[0x00, 0x02, 0xFF],
        ASK_FREQUENCY | ASK_RANGE | ASK_GAIN => &[0x00, 0x02],
        SET_CLOCK | ASK_CLOCK | SET_RATE | ASK_RATE => &[0x00, 0x02, 0x5A, 0xFF],
        _ => &[0x00],
    }
}

/// Each wish answered by each reply of a box, each bit of it turned over, and each length.
fn every_reply(c: &mut Comparison, r: &mut Random) {
    let mut wishes: Vec<Wished> = Vec::new();
    for which in 0..WISHES {
        for channel in channels_of(which) {
            wishes.extend(values_of(which).0.iter().map(|value| (which, *channel, *value)));
        }
    }
    for _ in 0..20 {
        let station = inputs::sound(r);
        for &(which, channel, value) in &wishes {
            let mut message = [0; 16];
            let length = WishFields::of(which, channel, value).wish().unwrap().write(&mut message).unwrap();
            let mut reply = [0; 64];
            let wrote = station.clone().feed(&message[..length], &mut reply).wrote;
            for &other in &wishes {
                c.read_reply(other, &reply[..wrote]);
            }
            for length in 0..=wrote + 3 {
                c.read_reply((which, channel, value), &reply[..length]);
            }
            for bit in 0..8 * wrote {
                let mut turned = reply;
                turned[bit / 8] ^= 1 << (bit % 8);
                c.read_reply((which, channel, value), &turned[..wrote]);
            }
        }
    }
}

/// Heads of both versions: the old one, the same in version 2, and one that names a box and its clock.
fn some_heads() -> [Head; 3] {
    let old = Head {
        version: head::VERSION_1,
        divisor: 100,
        frequency: 10_000_000,
        mode: 0x80,
        size: 1,
        serial: head::UNKNOWN,
        clock: head::USUAL_CLOCK,
    };
    [old, old.newer(), Head { version: head::VERSION_2, serial: *b"MT123456", clock: 79_992_000, ..old }]
}

/// The same head of a capture with two channels.
fn with_two(head: Head) -> Head {
    Head { mode: head.mode | head::TWO_CHANNELS, ..head }
}

/// Those heads, of captures with one channel and with two.
fn heads_of_both() -> impl Iterator<Item = Head> {
    some_heads().into_iter().flat_map(|head| [head, with_two(head)])
}

/// The values that both versions have.
fn every_head(c: &mut Comparison) {
    for head in heads_of_both() {
        for divisor in 0..=u16::MAX {
            let mut bytes = inputs::head_bytes(&head);
            bytes[5..7].copy_from_slice(&divisor.to_le_bytes());
            c.read_head(&bytes);
            c.write_head(Head { divisor: divisor.into(), mode: head.mode & 0x7F, size: 0, ..head }, 26);
        }
        for frequency in inputs::FREQUENCIES {
            for value in frequency.saturating_sub(20)..frequency + 20 {
                c.write_head(Head { divisor: 625, frequency: value, size: 0, ..head }, 26);
            }
        }
        for mode in 0..=255 {
            for size in 0..=255 {
                c.write_head(Head { divisor: 10, frequency: 150_000_000, mode, size, ..head }, 27);
            }
        }
    }
}

/// Each byte of a head changed, each length and each room, beside what else is refused.
fn every_head_byte(c: &mut Comparison) {
    for head in heads_of_both() {
        let bytes = inputs::head_bytes(&head);
        for place in 0..bytes.len() {
            for byte in 0..=255 {
                let mut changed = bytes.clone();
                changed[place] = byte;
                c.head_bytes(&changed);
            }
        }
        let bad_divisor = Head { divisor: 9, ..head };
        let mut longer = bytes.clone();
        longer.resize(30, b'7');
        // as it is, with a bad mark, with another version, with a bad D
        for (place, byte) in [(0, b'S'), (2, b'M'), (3, 3), (5, 9)] {
            let mut changed = longer.clone();
            changed[place] = byte;
            for length in 0..=longer.len() {
                c.head_bytes(&changed[..length]);
                c.newer(&changed, length);
                c.older(&changed, length);
            }
        }
        for room in 0..=30 {
            c.write_head(head, room);
            c.write_head(bad_divisor, room);
        }
    }
}

/// Every version of 16 bits, and some that are longer: with values that are allowed and with one that is not, of each length.
fn every_version(c: &mut Comparison) {
    for head in heads_of_both() {
        let mut bytes = inputs::head_bytes(&head);
        for version in 0..=u16::MAX {
            bytes[3..5].copy_from_slice(&version.to_le_bytes());
            c.read_head(&bytes);
            c.write_head(Head { version: version.into(), ..head }, 26);
        }
        for version in inputs::VERSIONS {
            bytes[3..5].copy_from_slice(&(version as u16).to_le_bytes());
            for length in 0..=bytes.len() {
                c.head_bytes(&bytes[..length]);
            }
            for room in 0..=30 {
                c.write_head(Head { version, ..head }, room);
            }
            for place in 5..bytes.len() {
                let mut bad = bytes.clone();
                bad[place] = 0xFF;
                c.head_bytes(&bad);
            }
        }
    }
}

/// Serials with each byte at each place, with zero at each choice of places, and every clock that is allowed and those
/// beside them; written in both versions, read, and moved.
fn every_name(c: &mut Comparison) {
    let [old, unknown, known] = some_heads();
    let mut serials = Vec::new();
    for byte in 0..=255 {
        for place in 0..8 {
            for from in [unknown, known] {
                let mut serial = from.serial;
                serial[place] = byte;
                serials.push(serial);
            }
        }
        let mut some = known.serial;
        some.iter_mut().enumerate().filter(|(place, _)| byte >> place & 1 == 1).for_each(|(_, b)| *b = 0);
        serials.push(some);
    }
    for bit in 0..64 {
        serials.push((1u64 << bit).to_le_bytes());
    }
    for serial in serials {
        for clock in [head::USUAL_CLOCK, known.clock, 0] {
            name(c, Head { serial, clock, ..unknown });
        }
        c.write_head(Head { serial, ..old }, 26);
    }
    let near = 79_991_990..=80_008_010;
    let bits = (0..32).map(|bit| head::USUAL_CLOCK ^ 1 << bit);
    for clock in near.chain(bits).chain(inputs::CLOCKS.map(|clock| clock as u32)) {
        name(c, Head { clock, ..unknown });
        name(c, Head { clock, ..known });
        c.write_head(Head { clock, ..old }, 26);
    }
}

/// A head of version 2 with its serial and clock, allowed or not.
fn name(c: &mut Comparison, head: Head) {
    c.write_head(head, 26);
    let mut bytes = inputs::head_bytes(&Head { serial: head::UNKNOWN, clock: head::USUAL_CLOCK, ..head });
    bytes[14..22].copy_from_slice(&head.serial);
    bytes[22..].copy_from_slice(&head.clock.to_le_bytes());
    c.head_bytes(&bytes);
}

/// A head and packets of its form with these numbers.
fn capture(r: &mut Random, head: &Head, numbers: &[u16]) -> Vec<u8> {
    let mut bytes = inputs::head_bytes(head);
    for &number in numbers {
        bytes.extend(inputs::plain_packet(r, head.form(), number));
    }
    bytes
}

/// Captures that end well or are broken off at each byte, and more than a turn of the number.
fn every_span(c: &mut Comparison, r: &mut Random) {
    let [old, unknown, known] = some_heads();
    for head in [old, known] {
        let bytes = capture(r, &head, &[0, 1, 4]);
        for length in 0..=bytes.len() {
            c.span(&bytes[..length]);
        }
    }
    for head in [old, known, with_two(old), with_two(known)] {
        for numbers in [
            &[0, 65_535, 65_535, 1, 1, 65_534][..],
            &[0, 0, 0],
            &[7],
            &[65_535],
            &[0, 7, 7, 7],
            &[0, 1, 0, 9],
            &[0, 2, 0, 3, 3],
        ] {
            let bytes = capture(r, &head, numbers);
            c.span(&bytes);
            for foreign in Form::LISTED {
                for number in [0, 1] {
                    let mut mixed = bytes.clone();
                    mixed.extend(inputs::plain_packet(r, foreign, number));
                    c.span(&mixed);
                    mixed.pop();
                    c.span(&mixed);
                }
            }
        }
        // to the last position and past it: its end time is worked out with more than 64 bits
        let mut numbers = vec![5; 61_101];
        numbers[0] = 0;
        let long = capture(r, &head, &numbers);
        c.span(&long);
    }
    for head in [old, unknown, known, with_two(old), with_two(known)] {
        every_span_head(c, r, &head);
    }
    every_span_mode(c, r);
    let noise = r.bytes(1 << 20);
    c.span(&noise);
    c.span(b"This is a text file and no capture.\n");
}

/// Every mode byte, in both versions, before packets of each form.
fn every_span_mode(c: &mut Comparison, r: &mut Random) {
    for head in some_heads() {
        for form in Form::LISTED {
            let size = (form.pairs < 200).into();
            let packets: Vec<u8> = [0, 1, 4].iter().flat_map(|&number| inputs::plain_packet(r, form, number)).collect();
            for mode in 0..=255 {
                let mut bytes = inputs::head_bytes(&Head { size, ..head });
                bytes[12] = mode;
                bytes.extend(&packets);
                c.span(&bytes);
            }
        }
    }
}

/// A capture's head of another version, with a field changed, and with no packet behind it.
fn every_span_head(c: &mut Comparison, r: &mut Random, head: &Head) {
    let bytes = capture(r, head, &[0, 1, 4]);
    for version in inputs::VERSIONS {
        let mut changed = bytes.clone();
        changed[3..5].copy_from_slice(&(version as u16).to_le_bytes());
        for length in [13, 14, 15, 25, 26, 27, changed.len()] {
            c.span(&changed[..length]);
        }
    }
    for place in 0..head.length() {
        for byte in [0x00, b'0', b'[', 0xFF] {
            let mut changed = bytes.clone();
            changed[place] = byte;
            c.span(&changed);
        }
    }
    for behind in [&[0x00, 0x00][..], &[0x84], &[0x84, 0x81], &[0x04, 0x82, 0x00, 0x00], &[0xFF; 400]] {
        c.span(&[&bytes[..head.length()], behind].concat());
    }
}

/// End times at the edges of clock and D and beside them, in each form, with one channel and with two, of captures so long that
/// the clocks differ in them.
fn every_end_time(c: &mut Comparison, r: &mut Random) {
    let [.., known] = some_heads();
    for form in Form::LISTED {
        let (mode, size) = (if form.bits == 24 { 0x80 } else { 0x00 }, (form.pairs < 200).into());
        for divisor in [10, 11, 100, 624, 625] {
            for clock in inputs::HEAD_CLOCKS {
                let head = Head { divisor, mode, size, clock, ..known };
                for head in [head, with_two(head)] {
                    let bytes = capture(r, &head, &[0, 0, 9, 0, 1, 65_535, 65_535, 1]);
                    c.span(&bytes);
                }
            }
        }
    }
}

/// The box is started with 24 bits.
const START_24: [u8; 8] = [0x08, 0x00, 0x18, 0x00, 0x80, 0x02, 0x80, 0x00];

fn set_setup(setup: u8) -> Vec<u8> {
    vec![0x05, 0x00, 0x19, 0x00, setup]
}

fn set_gain(channel: u8, gain: u8) -> Vec<u8> {
    vec![0x06, 0x00, 0x38, 0x00, channel, gain]
}

fn set_frequency(channel: u8, frequency: u64) -> Vec<u8> {
    [&[0x0A, 0x00, 0x20, 0x00, channel], &frequency.to_le_bytes()[..5]].concat()
}

fn set_clock(channel: u8, clock: u64) -> Vec<u8> {
    [&[0x09, 0x00, 0xB0, 0x00, channel], &clock.to_le_bytes()[..4]].concat()
}

fn set_rate(channel: u8, rate: u64) -> Vec<u8> {
    [&[0x09, 0x00, 0xB8, 0x00, channel], &rate.to_le_bytes()[..4]].concat()
}

fn fresh_state() -> Vec<u8> {
    let mut state = vec![0; STATION_BYTES];
    Plain.fresh(b"MT123456", &mut state);
    state
}

/// The codes that a call can give at all; each has to have been seen.
const POSSIBLE: [(&str, &[u8]); 26] = [
    ("fresh", &[1, 21, 26]),
    ("feed", &[0, 1, 2, 10, 11, 12, 13, 14, 15, 16, 17, 20, 21]),
    ("either order", &[1, 10, 13, 15, 16, 17]),
    ("order tells", &[1, 15, 17]),
    ("word", &[1, 15, 21]),
    ("cut", &[1, 20, 21, 22, 23, 24, 25]),
    ("silent", &[1, 21]),
    ("read", &[1, 21, 30, 31, 32, 33]),
    ("sample bytes", &[1, 30]),
    ("unpack", &[1, 20, 30]),
    ("wish", &[1, 15, 16, 20]),
    ("reply", &[1, 15, 16, 28]),
    ("head written", &[1, 16, 20]),
    ("head read", &[1, 40, 41]),
    ("head newer", &[1, 20, 40, 41]),
    ("head older", &[1, 20, 40, 41, 42]),
    ("serve", &[1]),
    ("cut run", &[1]),
    ("read run", &[1]),
    ("span", &[1, 30, 31, 32, 33, 40, 41]),
    ("head mode", &[1, 16]),
    ("head length", &[1, 41]),
    ("shape", &[1, 16]),
    ("divisor", &[1, 16]),
    ("message", &[0, 1]),
    ("end time", &[1, 16]),
];

fn main() -> ExitCode {
    let times: u64 = std::env::args().nth(1).map_or(1, |word| word.parse().expect("TIMES is a whole number"));
    #[cfg(proved)]
    let (other, name): (&dyn Library, _) = (&outside::proved::Proved, "the proved library");
    #[cfg(not(proved))]
    let (other, name): (&dyn Library, _) = (&Plain, "itself (built without the proved library)");
    println!("document 01 in plain Rust against {name}");

    let mut c = Comparison { plain: &Plain, other, seen: BTreeMap::new(), differences: 0 };
    let r = &mut Random::new(0x5EED_0001);
    every_header(&mut c, r);
    every_item(&mut c);
    every_rate(&mut c);
    every_byte(&mut c);
    every_channel(&mut c);
    every_setup(&mut c);
    every_exception(&mut c);
    every_edge_of_bands(&mut c);
    every_word(&mut c, r);
    every_tuning(&mut c);
    every_clock(&mut c);
    every_room(&mut c);
    every_serial(&mut c, r);
    every_number(&mut c, r);
    every_total(&mut c, r);
    every_packet_header(&mut c);
    every_sample(&mut c);
    every_wish(&mut c);
    every_wished_channel(&mut c);
    every_rate_reply(&mut c);
    every_reply(&mut c, r);
    every_head(&mut c);
    every_head_byte(&mut c);
    every_version(&mut c);
    every_name(&mut c);
    every_span(&mut c, r);
    every_end_time(&mut c, r);
    every_mode_byte(&mut c);
    every_head_length(&mut c);
    every_divisor(&mut c);
    every_message(&mut c, r);
    every_asked_time(&mut c);
    for seed in 0..times {
        let r = &mut Random::new(0x5EED_1000 + seed);
        random_feeding(&mut c, r, 400_000);
        random_serving(&mut c, r, 50_000);
        random_words(&mut c, r, 100_000);
        random_tuning(&mut c, r, 200_000);
        random_cutting(&mut c, r, 100_000);
        random_reading(&mut c, r, 200_000);
        random_cut_runs(&mut c, r, 20_000);
        random_runs(&mut c, r, 20_000);
        random_unpacking(&mut c, r, 100_000);
        random_wishes(&mut c, r, 500_000);
        random_heads(&mut c, r, 200_000);
        random_spans(&mut c, r, 20_000);
        random_orders(&mut c, r, 200_000);
        random_asking(&mut c, r, 200_000);
    }

    let mut calls = 0;
    for (call, codes) in &c.seen {
        let count: u64 = codes.values().sum();
        calls += count;
        let list: Vec<String> = codes.iter().map(|(code, count)| format!("{code}: {count}")).collect();
        println!("{call:13} {count:9}   {}", list.join(", "));
    }
    let mut unseen = 0;
    for (call, codes) in POSSIBLE {
        if call == "span" && !c.seen.contains_key("span") {
            println!("span was not compared: SPAN_PROGRAM names no program");
            continue;
        }
        for code in codes.iter().filter(|code| !c.seen.get(call).is_some_and(|seen| seen.contains_key(code))) {
            println!("{call} never gave code {code}: the inputs are too few");
            unseen += 1;
        }
    }
    println!("{calls} calls compared, {} differences", c.differences);
    if c.differences == 0 && unseen == 0 {
        ExitCode::SUCCESS
    } else {
        ExitCode::FAILURE
    }
}
