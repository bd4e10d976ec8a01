//! Times every call over the boundary but feeding and unpacking, which `pieces` and `bench` time: the proved library against
//! the plain Rust of this folder. The C peer does not have them. Last a day's capture is read, or an hour's with --quick.
//!
//!     calls [--quick]
//!
//! Both sides keep box and reader in the same bytes. What is lent to a call is a black box, as in `bench`, and values differ
//! from call to call.

use std::hint::black_box;
use std::ops::Range;

use outside::boundary::{self, Library, Plain, Said, WishFields, READER_BYTES, STATION_BYTES, WISHES};
use outside::boundary::{ASK_RANGE, ASK_RATE, ASK_SETUP, ASK_VERSION};
use outside::boundary::{SET_CLOCK, SET_FREQUENCY, SET_GAIN, SET_RATE, SET_SETUP, SET_SIZE, SET_STATE};
use outside::capture::{arrivals, numbered, numbered_packets, Arrivals};
use outside::capture::{first_packets, signal, COUNTS, FORMS, PACKETS, PACKETS_READ};
use outside::item::{ALL_CHANNELS, CHANNEL_1, CHANNEL_2, MODE_16, MODE_24, SETUP_DUAL, SETUP_SINGLE};
use outside::random::Random;
use outside::reader::Place;
use outside::talk::LONGEST_REPLY;
use outside::timing::{best, both, head, head_in, row, Rooms, Who};
use outside::{head, message, rate, Form, Head, Reader, Station};

#[cfg(not(proved))] // a name for what is then not called
use outside::boundary::Plain as Proved;
#[cfg(proved)]
use outside::proved::Proved;

/// In ns.
const MILLISECOND: f64 = 1e6;

/// A call that keeps no state is made so often in a run.
const CALLS: usize = 256;

const SERIAL: &[u8; 8] = b"MT123456";

fn time(
    what: &str,
    calls: usize,
    rounds: usize,
    proved: impl FnMut() -> u64,
    rust: impl FnMut() -> u64,
) -> Vec<(Who, f64)> {
    let found = best(&mut both(proved, rust), calls as f64, rounds);
    row(what, &found, None);
    found
}

fn fresh(rounds: usize) {
    fn run(library: impl Library, serials: &[u8], length: usize, state: &mut [u8]) -> u64 {
        serials.chunks_exact(length).map(|serial| u64::from(library.fresh(serial, state))).sum()
    }
    let mut random = Random::new(4);
    let serials: Vec<u8> = (0..CALLS * SERIAL.len()).map(|_| random.of(b"ABCXYZ019")).collect();
    let length = black_box(SERIAL.len());
    let mut states = Rooms::new(STATION_BYTES);
    let found = time(
        "a fresh box",
        CALLS,
        rounds,
        || run(Proved, &serials, length, black_box(&mut states.proved)),
        || run(Plain, &serials, length, black_box(&mut states.rust)),
    );
    states.agree(&found);
}

fn silent(rounds: usize) {
    fn run(library: impl Library, counts: &[u8], reader: &mut [u8]) -> u64 {
        counts.iter().map(|channels| u64::from(library.silent(*channels, reader))).sum()
    }
    let mut random = Random::new(9);
    let counts: Vec<u8> = (0..CALLS).map(|_| random.of(&[1, 2])).collect();
    let mut readers = Rooms::new(READER_BYTES);
    let found = time(
        "a silent reader",
        CALLS,
        rounds,
        || run(Proved, &counts, black_box(&mut readers.proved)),
        || run(Plain, &counts, black_box(&mut readers.rust)),
    );
    readers.agree(&found);
}

fn tuning_word(what: &str, setup: u8, channel: u8, rounds: usize) {
    fn run(library: impl Library, states: &[u8], bytes: usize, channel: u8) -> u64 {
        let words = states.chunks_exact(bytes).map(|state| {
            let (code, word) = library.word(state, channel);
            u64::from(code) + word
        });
        words.sum()
    }
    let mut random = Random::new(5);
    let mut states = Vec::new();
    for _ in 0..CALLS {
        let mut station = Station::fresh(SERIAL).0;
        let mut frequency = || {
            let bands = [random.within(100_000, 34_000_000), random.within(140_000_000, 150_000_000)];
            random.of(&bands)
        };
        let frequencies = [frequency(), frequency()];
        let clock = random.within(79_992_000, 80_008_000) as u32;
        station.settings.clock = clock;
        station.settings.setup = setup;
        station.settings.first.tune(frequencies[0], clock);
        station.settings.second.tune(frequencies[1], clock);
        states.extend(boundary::station_bytes(&station));
    }
    let (bytes, channel) = black_box((STATION_BYTES, channel));
    time(what, CALLS, rounds, || run(Proved, &states, bytes, channel), || run(Plain, &states, bytes, channel));
}

fn cut(what: &str, form: Form, (mode, size, setup): (u8, u8, u8), rounds: usize) {
    fn run(
        library: impl Library,
        started: &[u8],
        samples: &[i32],
        (count, total): (usize, usize),
        state: &mut [u8],
        packets: &mut [u8],
    ) -> u64 {
        state.copy_from_slice(started);
        let cuts = samples.chunks_exact(count).zip(packets.chunks_exact_mut(total)).map(|(samples, packet)| {
            let (code, wrote) = library.cut(state, samples, packet);
            u64::from(code) + wrote as u64
        });
        cuts.sum()
    }
    let mut station = Station::fresh(SERIAL).0;
    station.settings.running = true;
    station.settings.mode = mode;
    station.settings.size = size;
    station.settings.setup = setup;
    let started = boundary::station_bytes(&station);
    let samples = signal(form);
    let lengths = black_box((form.samples(), form.total()));
    let (mut states, mut rooms) = (Rooms::new(STATION_BYTES), Rooms::new(PACKETS * form.total()));
    let found = time(
        &format!("cut, {what}"),
        PACKETS,
        rounds * 4,
        || run(Proved, &started, &samples, lengths, black_box(&mut states.proved), black_box(&mut rooms.proved)),
        || run(Plain, &started, &samples, lengths, black_box(&mut states.rust), black_box(&mut rooms.rust)),
    );
    states.agree(&found);
    rooms.agree(&found);
}

/// All that reading answers, looked at.
fn seen((code, place): (u8, Place)) -> u64 {
    // no plain sum: of that the compiler makes one wide load, which waits for the four stores
    ((u64::from(code) + place.position) ^ place.sample).wrapping_sub(place.missed) ^ place.total
}

fn read(what: &str, form: Form, channels: u8, packets: &[u8], rounds: usize) {
    fn run(library: impl Library, silent: &[u8], packets: &[u8], total: usize, reader: &mut [u8]) -> u64 {
        reader.copy_from_slice(silent);
        packets.chunks_exact(total).map(|packet| seen(library.read(reader, packet))).sum()
    }
    let total = black_box(form.total());
    let silent = boundary::reader_bytes(&Reader::new(channels));
    let mut readers = Rooms::new(READER_BYTES);
    let found = time(
        &format!("read, {what}"),
        PACKETS_READ,
        rounds,
        || run(Proved, &silent, packets, total, black_box(&mut readers.proved)),
        || run(Plain, &silent, packets, total, black_box(&mut readers.rust)),
    );
    readers.agree(&found);
}

/// Reads all that arrives of a capture some hours long, by one reader; in ms.
fn read_hours(what: &str, form: Form, hours: u64, rounds: usize) {
    fn run(
        library: impl Library,
        silent: &[u8],
        packets: &[u8],
        (stretches, total): (&[Range<usize>], usize),
        reader: &mut [u8],
    ) -> u64 {
        reader.copy_from_slice(silent);
        let numbers = stretches.iter().cloned().flatten();
        let places = numbers.map(|number| seen(library.read(reader, numbered(packets, number, total))));
        places.fold(0, u64::wrapping_add)
    }
    let Arrivals { stretches, last, lost } = arrivals(form, hours);
    let packets = numbered_packets(form);
    let come = (&stretches[..], black_box(form.total()));
    let silent = Reader::new(1);
    let end = boundary::reader_bytes(&Reader { heard: true, position: last, total: lost, form, ..silent });
    let silent = boundary::reader_bytes(&silent);
    let mut readers = Rooms::new(READER_BYTES);
    let mut runners = both(
        || run(Proved, &silent, &packets, come, black_box(&mut readers.proved)),
        || run(Plain, &silent, &packets, come, black_box(&mut readers.rust)),
    );
    let found = best(&mut runners, MILLISECOND, rounds);
    drop(runners);
    readers.agree(&found);
    assert!(readers.rust[..] == end[..], "the last packet's position and all that was lost");
    row(what, &found, None);
}

fn sample_bytes(what: &str, form: Form, packets: &[u8], rounds: usize) {
    fn run(library: impl Library, packets: &[u8], total: usize) -> u64 {
        let bytes = packets.chunks_exact(total).enumerate().map(|(place, packet)| {
            let (count, byte) = library.sample_byte(packet, place);
            count as u64 + u64::from(byte)
        });
        bytes.sum()
    }
    let total = black_box(form.total());
    time(
        &format!("sample bytes, {what}"),
        PACKETS_READ,
        rounds,
        || run(Proved, packets, total),
        || run(Plain, packets, total),
    );
}

/// A wish of a number for a channel, its value at random among those that a box takes.
fn some_wish(which: u64, channel: u8, random: &mut Random) -> WishFields {
    let value = match which {
        ASK_VERSION => random.below(4),
        SET_STATE => random.of(&[0x0001, 0x0002, 0x8002]),
        SET_FREQUENCY => random.within(100_000, 34_000_000),
        SET_GAIN => random.of(&[0x00, 0xF6, 0xEC, 0xE2]),
        SET_CLOCK => random.within(79_992_000, 80_008_000),
        SET_RATE => random.within(32_000, 2_000_000),
        SET_SETUP => random.of(&[0, 4]),
        SET_SIZE => random.below(2),
        _ => 0,
    };
    WishFields::of(which, channel, value)
}

/// Which wishes a row has.
#[derive(Clone, Copy)]
enum Among {
    One(u64),
    /// those of document 01, in random order
    Old,
    /// all, in random order
    All,
}

fn some_wishes(among: Among, channel: u8) -> Vec<WishFields> {
    let mut random = Random::new(6);
    let mut next = || {
        let which = match among {
            Among::One(which) => which,
            Among::Old => match random.below(WISHES - 2) {
                before if before < SET_SETUP => before,
                after => after + 2,
            },
            Among::All => random.below(WISHES),
        };
        some_wish(which, channel, &mut random)
    };
    (0..CALLS).map(|_| next()).collect()
}

fn wish(what: &str, wishes: &[WishFields], rounds: usize) {
    fn run(library: impl Library, wishes: &[WishFields], buffer: &mut [u8]) -> u64 {
        let written = wishes.iter().map(|fields| {
            let (code, wrote) = library.write_wish(*fields, buffer);
            u64::from(code) + wrote as u64
        });
        written.sum()
    }
    let mut rooms = Rooms::new(16);
    let found = time(
        &format!("wish, {what}"),
        CALLS,
        rounds,
        || run(Proved, wishes, black_box(&mut rooms.proved)),
        || run(Plain, wishes, black_box(&mut rooms.rust)),
    );
    rooms.agree(&found);
}

/// What a box of any rate and frequency, which has both channels open, answers to a wish.
fn answer(fields: WishFields, random: &mut Random) -> Vec<u8> {
    let mut station = Station::fresh(SERIAL).0;
    station.settings.setup = SETUP_DUAL;
    let (mut message, mut reply) = ([0; 16], [0; 64]);
    let mut wrote = 0;
    let frequency = some_wish(SET_FREQUENCY, ALL_CHANNELS, random);
    for fields in [frequency, some_wish(SET_RATE, CHANNEL_1, random), fields] {
        let (_, length) = Plain.write_wish(fields, black_box(&mut message));
        wrote = station.feed(&message[..length], &mut reply).wrote;
    }
    reply[..wrote].to_vec()
}

fn reply(what: &str, wishes: &[WishFields], replies: &[Vec<u8>], rounds: usize) {
    fn run(library: impl Library, wishes: &[WishFields], replies: &[Vec<u8>]) -> u64 {
        let heard = wishes.iter().zip(replies).map(|(fields, bytes)| {
            let (code, Said { item, count, first, second, gain }) = library.read_reply(*fields, bytes);
            u64::from(code) + u64::from(item) + count as u64 + first + second + gain as u64
        });
        heard.fold(0, u64::wrapping_add)
    }
    time(
        &format!("reply, {what}"),
        CALLS,
        rounds,
        || run(Proved, wishes, black_box(replies)),
        || run(Plain, wishes, black_box(replies)),
    );
}

/// A head of version 1, or one of version 2 that names a box and its clock, with this bit in its mode byte.
fn some_head(version: u32, channels: u8, random: &mut Random) -> Head {
    let old = Head {
        version,
        divisor: random.within(10, 625) as u32,
        frequency: random.within(100_000, 34_000_000),
        mode: random.of(&[MODE_24, MODE_16]) | channels,
        size: random.of(&[0, 1]),
        serial: head::UNKNOWN,
        clock: head::USUAL_CLOCK,
    };
    if version == head::VERSION_1 {
        return old;
    }
    let serial = [0; 8].map(|_: u8| random.of(b"ABCXYZ019"));
    Head { serial, clock: random.within(79_992_000, 80_008_000) as u32, ..old }
}

/// Writes and reads heads of one version and count of channels; answers their bytes.
fn heads(what: &str, version: u32, channels: u8, rounds: usize) -> Vec<u8> {
    fn write(library: impl Library, heads: &[Head], length: usize, bytes: &mut [u8]) -> u64 {
        let written = heads.iter().zip(bytes.chunks_exact_mut(length));
        written.map(|(head, to)| u64::from(library.write_head(*head, to))).sum()
    }
    fn read(library: impl Library, bytes: &[u8], length: usize) -> u64 {
        let found = bytes.chunks_exact(length).map(|bytes| {
            let (code, head) = library.read_head(bytes);
            let fields = u64::from(code) + u64::from(head.divisor) + head.frequency + u64::from(head.mode);
            let added = u64::from(head.version) + u64::from(head.clock);
            (fields + u64::from(head.size) + added) ^ u64::from_le_bytes(head.serial)
        });
        found.fold(0, u64::wrapping_add)
    }
    let mut random = Random::new(7);
    let heads: Vec<Head> = (0..CALLS).map(|_| some_head(version, channels, &mut random)).collect();
    let length = black_box(heads[0].length());
    let mut rooms = Rooms::new(CALLS * length);
    let found = time(
        &format!("write a capture head, {what}"),
        CALLS,
        rounds,
        || write(Proved, &heads, length, black_box(&mut rooms.proved)),
        || write(Plain, &heads, length, black_box(&mut rooms.rust)),
    );
    rooms.agree(&found);
    let bytes = &rooms.rust[..];
    time(
        &format!("read a capture head, {what}"),
        CALLS,
        rounds,
        || read(Proved, bytes, length),
        || read(Plain, bytes, length),
    );
    bytes.to_vec()
}

/// Moves heads of version 1 to version 2 and back.
fn moved(old: &[u8], rounds: usize) {
    fn run(
        by: impl Fn(&[u8], &mut [u8]) -> u8,
        from: &[u8],
        to: &mut [u8],
        (length, length_after): (usize, usize),
    ) -> u64 {
        let heads = from.chunks_exact(length).zip(to.chunks_exact_mut(length_after));
        heads.map(|(from, to)| u64::from(by(from, to))).sum()
    }
    let (length_1, length_2) = black_box((head::LENGTH_1, head::LENGTH_2));
    let mut newer = Rooms::new(CALLS * length_2);
    let up = (length_1, length_2);
    let found = time(
        "move a capture head to version 2",
        CALLS,
        rounds,
        || run(|from, to| Proved.newer(from, to), old, black_box(&mut newer.proved), up),
        || run(|from, to| Plain.newer(from, to), old, black_box(&mut newer.rust), up),
    );
    newer.agree(&found);
    let mut older = Rooms::new(CALLS * length_1);
    let down = (length_2, length_1);
    let found = time(
        "move a capture head to version 1",
        CALLS,
        rounds,
        || run(|from, to| Proved.older(from, to), &newer.rust, black_box(&mut older.proved), down),
        || run(|from, to| Plain.older(from, to), &newer.rust, black_box(&mut older.rust), down),
    );
    older.agree(&found);
    assert!(older.rust[..] == old[..], "there and back is the same");
}

/// One row of what programs on the air ask besides: a call that is a number of numbers.
fn asked<T: Copy>(what: &str, inputs: &[T], rounds: usize, call: impl Fn(&dyn Library, T) -> u64) {
    let run = |library: &dyn Library| {
        let library = black_box(library);
        inputs.iter().map(|input| call(library, *input)).fold(0, u64::wrapping_add)
    };
    time(what, CALLS, rounds, || run(&Proved), || run(&Plain));
}

fn on_air(rounds: usize) {
    let mut random = Random::new(12);
    let mut some = |make: fn(&mut Random) -> (u64, u32, u32)| -> Vec<(u64, u32, u32)> {
        (0..CALLS).map(|_| make(&mut random)).collect()
    };
    let shapes = some(|r| (0, r.of(&[0x80, 0x00, 0xC0, 0x40]), r.of(&[0, 1])));
    asked("how packets are laid out", &shapes, rounds, |library, (_, mode, size)| {
        let (code, shape) = library.shape(mode as u8, size as u8);
        u64::from(code) + u64::from(shape.channels) + shape.pairs + (shape.numbers + shape.total) as u64
    });
    let rates = some(|r| (0, rate::achieved(r.within(10, 625) as u32), 0));
    asked("the D of a rate", &rates, rounds, |library, (_, rate, _)| library.divisor(rate).into());
    let headers = some(|r| (r.any(), 0, 0));
    asked("how long a message is", &headers, rounds, |library, (bytes, ..)| {
        library.message(&bytes.to_le_bytes()) as u64
    });
    let times = some(|r| (r.below(1 << 39), r.within(10, 625) as u32, r.within(79_992_000, 80_008_000) as u32));
    asked("how long samples take", &times, rounds, |library, (samples, divisor, clock)| {
        let (code, microseconds) = library.end_time(samples, divisor, clock);
        u64::from(code) + microseconds
    });
}

fn main() {
    let quick = std::env::args().any(|word| word == "--quick");
    let rounds = if quick { 50 } else { 1000 };
    head("call over the boundary");
    fresh(rounds);
    silent(rounds);
    tuning_word("tuning word", SETUP_SINGLE, CHANNEL_1, rounds);
    tuning_word("tuning word, the second of two channels", SETUP_DUAL, CHANNEL_2, rounds);
    for (more, setup, _) in COUNTS {
        for (what, form, mode, size) in FORMS {
            cut(&format!("{what}{more}"), form, (mode, size, setup), rounds);
        }
    }
    for (more, _, channels) in COUNTS {
        for (what, form, ..) in FORMS {
            read(&format!("{what}{more}"), form, channels, &first_packets(form, PACKETS_READ), rounds);
        }
    }
    for (what, form, ..) in FORMS {
        sample_bytes(what, form, &first_packets(form, PACKETS_READ), rounds);
    }
    let kinds = [
        ("0001 name, request", Among::One(0), CHANNEL_1),
        ("0004 versions, request", Among::One(ASK_VERSION), CHANNEL_1),
        ("0018 state, set", Among::One(SET_STATE), CHANNEL_1),
        ("0019 channel setup, set", Among::One(SET_SETUP), CHANNEL_1),
        ("0019 channel setup, request", Among::One(ASK_SETUP), CHANNEL_1),
        ("0020 frequency, set", Among::One(SET_FREQUENCY), CHANNEL_1),
        ("0020 frequency, set, both channels", Among::One(SET_FREQUENCY), ALL_CHANNELS),
        ("0020 frequency, request range", Among::One(ASK_RANGE), CHANNEL_1),
        ("0020 frequency, request range, the second channel", Among::One(ASK_RANGE), CHANNEL_2),
        ("0038 RF gain, set", Among::One(SET_GAIN), CHANNEL_1),
        ("00B8 rate, set", Among::One(SET_RATE), CHANNEL_1),
        ("00B8 rate, request", Among::One(ASK_RATE), CHANNEL_1),
        ("all in random order", Among::Old, CHANNEL_1),
        ("all in random order, with 0019, the second channel", Among::All, CHANNEL_2),
    ];
    for (what, among, channel) in kinds {
        wish(what, &some_wishes(among, channel), rounds);
    }
    let mut random = Random::new(8);
    for (what, among, channel) in kinds {
        let wishes = some_wishes(among, channel);
        let replies: Vec<Vec<u8>> = wishes.iter().map(|fields| answer(*fields, &mut random)).collect();
        reply(what, &wishes, &replies, rounds);
    }
    let wishes = some_wishes(Among::Old, CHANNEL_1);
    reply("NAK to any wish", &wishes, &vec![message::NAK.to_vec(); CALLS], rounds);
    reply("no reply to any wish", &wishes, &vec![vec![0; LONGEST_REPLY]; CALLS], rounds);
    let old = heads("version 1", head::VERSION_1, 0, rounds);
    heads("version 2", head::VERSION_2, 0, rounds);
    heads("version 1, two channels", head::VERSION_1, head::TWO_CHANNELS, rounds);
    moved(&old, rounds);
    on_air(rounds);
    println!();
    head_in("ms for the packets of a capture that arrive, each by a call over the boundary");
    let (what, hours) = if quick {
        ("read, an hour's capture of 480,000 packets, large, 24 bits, 0.1 % and some seconds lost", 1)
    } else {
        ("read, a day's capture of 11,520,000 packets, large, 24 bits, 0.1 % and some seconds an hour lost", 24)
    };
    read_hours(what, Form::LARGE_24, hours, 20);
}
