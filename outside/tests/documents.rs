//! The examples of documents 01 and 02, those that source document 003 prints, a radio program's talk as it was recorded, and the
//! capture of hours with losses that the benchmarks read.

use outside::capture::{arrivals, numbered, numbered_packets};
use outside::packet::{number_at, sample_bytes, samples_fit, to_sixteen};
use outside::reader::{read_run, unpack, Place};
use outside::station::{serve, Channel, Settings};
use outside::talk::{radio_program, GQRX};
use outside::wish::StateWish;
use outside::{head, reply, span, Code, Form, Head, Reader, Reply, Station, Wish};

fn hex(text: &str) -> Vec<u8> {
    text.split_whitespace().map(|byte| u8::from_str_radix(byte, 16).expect("two hexadecimal digits")).collect()
}

fn fresh() -> Station {
    Station::fresh(b"MT123456").0
}

/// Feeds one message in one call; its code and what was answered.
fn tell(station: &mut Station, message: &str) -> (u8, Vec<u8>) {
    tell_bytes(station, &hex(message))
}

fn tell_bytes(station: &mut Station, message: &[u8]) -> (u8, Vec<u8>) {
    let mut buffer = [0xEE; 64];
    let fed = station.feed(message, &mut buffer);
    assert_eq!(fed.consumed, message.len(), "{message:02X?}");
    assert!(buffer[fed.wrote..].iter().all(|&b| b == 0xEE));
    (fed.code as u8, buffer[..fed.wrote].to_vec())
}

fn nak(code: u8) -> (u8, Vec<u8>) {
    (code, vec![0x02, 0x00])
}

#[test]
fn examples_of_003() {
    let mut station = None;
    let mut run = 0;
    for line in include_str!("../examples-003.txt").lines() {
        if line.is_empty() || line.starts_with('#') {
            continue;
        }
        if let Some(serial) = line.strip_prefix("box ") {
            let (fresh, code) = Station::fresh(serial.as_bytes());
            assert_eq!(code, Code::Done);
            station = Some(fresh);
            continue;
        }
        let columns: Vec<&str> = line.split('|').map(str::trim).collect();
        let [section, message, _, answer, code] = columns[..] else {
            panic!("five columns: {line}");
        };
        let answer = if answer == "-" { vec![] } else { hex(answer) };
        let station = station.as_mut().expect("a box before the first message");
        let code: u8 = code.parse().unwrap();
        assert_eq!(tell(station, message), (code, answer), "section {section}");
        run += 1;
    }
    assert_eq!(run, 59);
}

/// What the proved `session` answered when the talk was recorded, and before it the codes, which a host does not hear.
const ANSWERS_TO_GQRX: [(u8, &str); 19] = [
    (1, "0B 00 01 00 4E 65 74 53 44 52 00"),
    (1, "0D 00 02 00 4D 54 31 32 33 34 35 36 00"),
    (12, "02 00"),
    (1, "07 00 04 00 00 64 00"),
    (1, "07 00 04 00 01 6B 00"),
    (1, "06 00 38 00 00 00"),
    (16, "02 00"),
    (1, "06 00 38 00 00 00"),
    (1, "09 00 B8 00 00 40 0D 03 00"),
    (12, "02 00"),
    (1, "24 40 20 00 00 02 A0 86 01 00 00 80 CC 06 02 00 00 00 00 00 00 00 3B 58 08 00 80 D1 F0 08 00 00 68 89 09 00"),
    (1, "0A 00 20 00 00 80 96 98 00 00"),
    (1, "0A 00 20 00 00 80 96 98 00 00"),
    (1, "0A 00 20 00 00 80 96 98 00 00"),
    (1, "06 00 38 00 00 00"),
    (1, "06 00 38 00 00 00"),
    (1, "0A 00 20 00 00 90 C6 D5 00 00"),
    (1, "0A 00 20 00 00 90 C6 D5 00 00"),
    (1, "08 00 18 00 80 02 00 00"),
];

#[test]
fn a_radio_program_connects_and_runs() {
    let mut station = fresh();
    for (message, (code, answer)) in GQRX.into_iter().zip(ANSWERS_TO_GQRX) {
        assert_eq!(tell_bytes(&mut station, message), (code, hex(answer)), "{message:02X?}");
    }
    let Settings { running, mode, divisor, first, .. } = station.settings;
    assert_eq!((running, mode, divisor, first.frequency), (true, 0x00, 100, 14_010_000));
}

/// The talk that is timed: the first as it was recorded, every other the same but for the frequency of before.
#[test]
fn a_radio_program_again_and_again() {
    let talk = radio_program();
    let mut replies = vec![0; talk.room()];
    let wrote = serve(&talk.host, &mut replies);
    let mut answers = ANSWERS_TO_GQRX.map(|(_, answer)| hex(answer)).to_vec();
    answers.push(hex("08 00 18 00 80 01 00 00"));
    let first = answers.concat();
    answers[11] = hex("0A 00 20 00 00 90 C6 D5 00 00");
    let others = answers.concat().repeat(talk.messages / answers.len() - 1);
    assert_eq!(replies[..wrote], [first, others].concat());
}

#[test]
fn name() {
    assert_eq!(tell(&mut fresh(), "04 20 01 00"), (1, hex("0B 00 01 00 4E 65 74 53 44 52 00")));
}

#[test]
fn frequency_and_word() {
    let mut station = fresh();
    let message = "0A 00 20 00 00 90 C6 D5 00 00";
    assert_eq!(tell(&mut station, message), (1, hex(message)));
    assert_eq!(station.settings.first.frequency, 14_010_000);
    assert_eq!(station.word(0), Ok(752_156_148));
    // the SDR-IQ form: 4,308,977,296 Hz
    assert_eq!(tell(&mut station, "0A 00 20 00 00 90 C6 D5 00 01"), nak(16));
    // 34,000,000 is taken, 34,000,001 not
    let highest = "0A 00 20 00 00 80 CC 06 02 00";
    assert_eq!(tell(&mut station, highest), (1, hex(highest)));
    assert_eq!(tell(&mut station, "0A 00 20 00 00 81 CC 06 02 00"), nak(16));
    assert_eq!(station.settings.first.frequency, 34_000_000);
    // 145,000,000
    let second = "0A 00 20 00 FF 40 86 A4 08 00";
    assert_eq!(tell(&mut station, second), (1, hex(second)));
    assert_eq!(station.word(0), Ok(805_306_368));
}

#[test]
fn the_word_is_kept_after_every_message() {
    let mut station = fresh();
    assert_eq!(station.settings.first.word, 536_870_912);
    for (message, code, word) in [
        ("0A 00 20 00 00 90 C6 D5 00 00", 1, 752_156_148),
        // 80,000,123
        ("09 00 B0 00 00 7B B4 C4 04", 1, 752_154_991),
        // 34,000,001, a clock of 8,000,000, a channel that is not there, a frequency too short, an item that is not listed
        ("0A 00 20 00 00 81 CC 06 02 00", 16, 752_154_991),
        ("09 00 B0 00 00 00 12 7A 00", 16, 752_154_991),
        ("0A 00 20 00 02 40 86 A4 08 00", 15, 752_154_991),
        ("09 00 20 00 00 40 86 A4 08", 13, 752_154_991),
        ("04 20 09 00", 12, 752_154_991),
        ("02 00", 2, 752_154_991),
        // 145,000,000
        ("0A 00 20 00 FF 40 86 A4 08 00", 1, 805_305_130),
        ("06 00 38 00 00 EC", 1, 805_305_130),
        ("09 00 B0 00 00 00 B4 C4 04", 1, 805_306_368),
    ] {
        assert_eq!(tell(&mut station, message).0, code, "{message}");
        assert_eq!((station.settings.first.word, station.word(0)), (word, Ok(word)), "{message}");
    }
    // no room for the reply: nothing is set, and the word is the old one
    let fed = station.feed(&hex("09 00 B0 00 00 7B B4 C4 04"), &mut [0; 8]);
    assert_eq!((fed.code, station.word(0)), (Code::NoRoom, Ok(805_306_368)));
}

#[test]
fn a_box_with_another_word_is_broken() {
    for word in [536_870_911, 536_870_913, 0, u32::MAX] {
        is_broken(|settings| settings.first.word = word);
        is_broken(|settings| settings.second.word = word);
    }
}

/// A running box of either setup with one field changed is fed, cut and asked for its words: 21, and as it was.
fn is_broken(change: impl Fn(&mut Settings)) {
    for setup in [0, 4] {
        let mut station = fresh();
        station.settings.running = true;
        station.settings.setup = setup;
        assert!(station.is_sound());
        change(&mut station.settings);
        let given = station.clone();
        let fed = station.feed(&hex("04 20 01 00"), &mut [0; 64]);
        assert_eq!((fed.code, fed.consumed, fed.wrote), (Code::Broken, 0, 0));
        let cut = station.cut(&[0; 480], &mut [0; 1444]);
        assert_eq!((cut.code, cut.wrote), (Code::Broken, 0));
        for channel in [0x00, 0x02, 0xFF] {
            assert_eq!(station.word(channel), Err(Code::Broken));
        }
        assert_eq!(station, given);
    }
}

/// Document 02, No. 7: one fresh box, told one thing after another.
#[test]
fn two_channels() {
    let mut station = fresh();
    for (message, code, answer) in [
        ("04 20 19 00", 1, "05 00 19 00 00"),
        ("05 20 20 00 02", 15, "02 00"),
        ("05 00 19 00 01", 16, "02 00"),
        // as document 003 prints it
        ("05 00 19 00 04", 1, "05 00 19 00 04"),
        ("05 20 20 00 02", 1, "0A 00 20 00 02 80 96 98 00 00"),
        ("0A 00 20 00 02 90 C6 D5 00 00", 1, "0A 00 20 00 02 90 C6 D5 00 00"),
        // as document 003 prints it
        ("05 20 20 00 02", 1, "0A 00 20 00 02 90 C6 D5 00 00"),
        ("05 20 20 00 00", 1, "0A 00 20 00 00 80 96 98 00 00"),
        (
            "05 40 20 00 02",
            1,
            "24 40 20 00 02 02 A0 86 01 00 00 80 CC 06 02 00 00 00 00 00 00 \
             00 3B 58 08 00 80 D1 F0 08 00 00 68 89 09 00",
        ),
        ("06 00 38 00 FF EC", 1, "06 00 38 00 FF EC"),
        ("05 20 38 00 02", 1, "06 00 38 00 02 EC"),
        ("05 20 20 00 FF", 15, "02 00"),
        ("05 20 20 00 01", 15, "02 00"),
        // closed again: FF sets the first alone
        ("05 00 19 00 00", 1, "05 00 19 00 00"),
        ("05 20 20 00 02", 15, "02 00"),
        ("05 40 20 00 02", 15, "02 00"),
        ("0A 00 20 00 FF 00 2D 31 01 00", 1, "0A 00 20 00 FF 00 2D 31 01 00"),
        ("06 00 38 00 02 00", 15, "02 00"),
        ("05 00 19 00 04", 1, "05 00 19 00 04"),
        ("05 20 20 00 02", 1, "0A 00 20 00 02 90 C6 D5 00 00"),
        ("05 20 20 00 00", 1, "0A 00 20 00 00 00 2D 31 01 00"),
    ] {
        assert_eq!(tell(&mut station, message), (code, hex(answer)), "{message}");
    }
    assert_eq!((station.word(0x00), station.word(0x02)), (Ok(1_073_741_824), Ok(752_156_148)));
    for (message, code) in [
        ("08 00 18 00 80 02 80 00", 1),
        ("05 00 19 00 04", 17),
        ("05 00 19 00 00", 17),
        ("05 00 19 00 05", 16),
        ("04 40 19 00", 14),
        ("05 20 19 00 00", 13),
        ("0A 00 20 00 02 80 96 98 00 00", 1),
    ] {
        assert_eq!(tell(&mut station, message).0, code, "{message}");
    }
}

/// Every value of 0019: two are taken, and change nothing else.
#[test]
fn channel_setups() {
    for setup in 0..=255u8 {
        let mut station = fresh();
        station.settings.second.tune(145_000_000, 80_000_000);
        station.settings.second.gain = -30;
        station.settings.count = 7;
        let before = station.clone();
        let message = format!("05 00 19 00 {setup:02X}");
        if setup == 0 || setup == 4 {
            assert_eq!(tell(&mut station, &message), (1, hex(&message)));
            assert_eq!(tell(&mut station, "04 20 19 00"), (1, hex(&message)));
            station.settings.setup = 0;
        } else {
            assert_eq!(tell(&mut station, &message), nak(16));
            is_broken(|settings| settings.setup = setup);
        }
        assert_eq!(station, before);
    }
}

/// With one channel and with two, every channel byte: which are allowed, and what each sets.
#[test]
fn channel_bytes() {
    for two in [false, true] {
        for channel in 0..=255u8 {
            let mut station = fresh();
            station.settings.setup = if two { 4 } else { 0 };
            let open = channel == 0 || two && channel == 2;
            let settable = open || channel == 0xFF;
            for request in ["05 20 20 00", "05 40 20 00", "05 20 38 00"] {
                assert_eq!(tell(&mut station, &format!("{request} {channel:02X}")).0, if open { 1 } else { 15 });
            }
            let word = if open { Ok(536_870_912) } else { Err(Code::ChannelNotAllowed) };
            assert_eq!(station.word(channel), word);

            let frequency = format!("0A 00 20 00 {channel:02X} 90 C6 D5 00 00");
            let gain = format!("06 00 38 00 {channel:02X} EC");
            for message in [frequency, gain] {
                let answer = if settable { (1, hex(&message)) } else { nak(15) };
                assert_eq!(tell(&mut station, &message), answer);
            }
            let set = Channel { frequency: 14_010_000, word: 752_156_148, gain: -20 };
            let left = fresh().settings.first;
            let (first, second) = (settable && channel != 2, two && (channel == 2 || channel == 0xFF));
            assert_eq!(station.settings.first, if first { set.clone() } else { left.clone() });
            assert_eq!(station.settings.second, if second { set } else { left });
            // before the value
            let bad = format!("0A 00 20 00 {channel:02X} 81 CC 06 02 00");
            assert_eq!(tell(&mut station, &bad), nak(if settable { 16 } else { 15 }));
        }
    }
}

/// What comes of two messages: what each is answered, and the settings after both.
type Outcome = ([(u8, Vec<u8>); 2], Settings);

/// Two messages fed to the same box: what comes of them in this order, and in the other.
fn both_orders(station: &Station, one: &str, other: &str) -> [Outcome; 2] {
    let mut forth = station.clone();
    let answers = [one, other].map(|message| tell(&mut forth, message));
    let mut back = station.clone();
    let [to_other, to_one] = [other, one].map(|message| tell(&mut back, message));
    [(answers, forth.settings), ([to_one, to_other], back.settings)]
}

/// Document 02, No. 11: sets that may come in either order. What a fresh box was told before, both sets, their codes, and one
/// of the settings after both.
#[test]
fn either_order() {
    let (tune, clock) = ("0A 00 20 00 00 90 C6 D5 00 00", "09 00 B0 00 00 7B B4 C4 04");
    let (rate, size) = ("09 00 B8 00 00 A0 86 01 00", "05 00 C4 00 01");
    let (dual, run) = ("05 00 19 00 04", "08 00 18 00 80 02 80 00");
    let first: fn(&Settings) -> u64 = |settings| settings.first.frequency;
    let second: fn(&Settings) -> u64 = |settings| settings.second.frequency;
    let word: fn(&Settings) -> u64 = |settings| settings.first.word.into();
    let divisor: fn(&Settings) -> u64 = |settings| settings.divisor.into();
    for (before, one, other, codes, looked, value) in [
        (None, tune, clock, (1, 1), word, 752_154_991),
        (None, dual, tune, (1, 1), first, 14_010_000),
        (None, rate, size, (1, 1), divisor, 200),
        (Some(run), rate, size, (17, 17), divisor, 100),
        // a gain of -16, and 34,000,001 Hz
        (None, "06 00 38 00 00 F0", "0A 00 20 00 00 81 CC 06 02 00", (16, 16), first, 10_000_000),
        // 00 and 02: closed, and open
        (None, tune, "0A 00 20 00 02 00 2D 31 01 00", (1, 15), second, 10_000_000),
        (Some(dual), tune, "0A 00 20 00 02 00 2D 31 01 00", (1, 1), second, 20_000_000),
    ] {
        let mut station = fresh();
        if let Some(message) = before {
            assert_eq!(tell(&mut station, message).0, 1);
        }
        let [forth, back] = both_orders(&station, one, other);
        assert_eq!(forth, back, "{one} and {other}");
        let answer = |message, code| if code == 1 { (1, hex(message)) } else { nak(code) };
        assert_eq!(forth.0, [answer(one, codes.0), answer(other, codes.1)], "{one} and {other}");
        assert_eq!(looked(&forth.1), value, "{one} and {other}");
    }
}

/// Document 02, No. 11: the exceptions. Told to a fresh box in the one order, and in the other.
#[test]
fn exceptions_to_either_order() {
    let (dual, run) = ("05 00 19 00 04", "08 00 18 00 80 02 80 00");
    let second: fn(&Settings) -> i64 = |settings| settings.second.frequency as i64;
    let gain: fn(&Settings) -> i64 = |settings| settings.second.gain.into();
    let divisor: fn(&Settings) -> i64 = |settings| settings.divisor.into();
    let (tune, attenuate) = ("0A 00 20 00 02 90 C6 D5 00 00", "06 00 38 00 02 F6");
    let (tune_all, attenuate_all) = ("0A 00 20 00 FF 90 C6 D5 00 00", "06 00 38 00 FF F6");
    let rate = "09 00 B8 00 00 A0 86 01 00";
    // the one that the order tells of stands second, with its code and the value where it comes last, and where first
    for (one, other, looked, last, first) in [
        (dual, tune_all, second, (1, 14_010_000), (1, 10_000_000)),
        (dual, attenuate_all, gain, (1, -10), (1, 0)),
        (dual, tune, second, (1, 14_010_000), (15, 10_000_000)),
        (dual, attenuate, gain, (1, -10), (15, 0)),
        (run, rate, divisor, (17, 100), (1, 200)),
    ] {
        for ((answers, settings), (code, value)) in both_orders(&fresh(), one, other).into_iter().zip([last, first]) {
            let answer = if code == 1 { (1, hex(other)) } else { nak(code) };
            assert_eq!(answers, [(1, hex(one)), answer], "{one} and {other}");
            assert_eq!(looked(&settings), value, "{one} and {other}");
        }
    }
}

#[test]
fn a_clock_set_renews_both_words() {
    for setup in [0, 4] {
        let mut station = fresh();
        station.settings.setup = setup;
        station.settings.second.tune(14_010_000, 80_000_000);
        assert_eq!(tell(&mut station, "09 00 B0 00 00 7B B4 C4 04").0, 1);
        assert!(station.is_sound());
        assert_eq!((station.settings.first.word, station.settings.second.word), (536_870_087, 752_154_991));
    }
}

#[test]
fn a_box_with_a_bad_second_channel_is_broken() {
    is_broken(|settings| settings.second.frequency = 34_000_001);
    is_broken(|settings| settings.second.frequency = 10_000_001);
    is_broken(|settings| settings.second.gain = -1);
    is_broken(|settings| settings.clock = 80_000_001);
}

#[test]
fn gain() {
    let mut station = fresh();
    assert_eq!(tell(&mut station, "06 00 38 00 00 EC"), (1, hex("06 00 38 00 00 EC")));
    assert_eq!(station.settings.first.gain, -20);
    assert_eq!(tell(&mut station, "06 00 38 00 00 F0"), nak(16));
    assert_eq!(tell(&mut station, "06 00 38 00 01 F0"), nak(15));
    assert_eq!(tell(&mut station, "05 20 38 00 FF"), nak(15));
}

#[test]
fn rates() {
    let mut station = fresh();
    let set = |station: &mut Station, rate: u32| {
        let [a, b, c, d] = rate.to_le_bytes();
        tell(station, &format!("09 00 B8 00 7F {a:02X} {b:02X} {c:02X} {d:02X}"))
    };
    assert_eq!(set(&mut station, 55_556), (1, hex("09 00 B8 00 7F 04 D9 00 00")));
    assert_eq!(station.settings.divisor, 360);
    assert_eq!(set(&mut station, 1_907_000).0, 1);
    assert_eq!(station.settings.divisor, 11);
    let shown = tell(&mut station, "05 20 B8 00 12");
    assert_eq!(shown.1[..5], [0x09, 0x00, 0xB8, 0x00, 0x12]);
    assert_eq!(shown.1[5..], 1_818_182u32.to_le_bytes());
    assert_eq!(set(&mut station, 32_000).0, 1);
    assert_eq!(station.settings.divisor, 625);
    assert_eq!(set(&mut station, 31_999), nak(16));
    assert_eq!(set(&mut station, 2_000_001), nak(16));
}

#[test]
fn refusals_of_headers_and_items() {
    let mut station = fresh();
    assert_eq!(tell(&mut station, "04 20 09 00"), nak(12));
    assert_eq!(tell(&mut station, "03 60 00"), (2, vec![]));
    assert_eq!(tell(&mut station, "03 60 04"), nak(11));
    assert_eq!(tell(&mut station, "02 00"), (2, vec![]));
    for header in ["00 00", "01 00", "00 20", "01 80", "02 20", "02 40", "02 60", "00 60"] {
        assert_eq!(tell(&mut station, header), nak(11), "{header}");
    }
    assert_eq!(tell(&mut station, "03 00 00"), nak(11));
    assert_eq!(tell(&mut station, "05 00 01 00 00"), nak(14));
    assert_eq!(tell(&mut station, "04 40 C4 00"), nak(14));
    assert_eq!(tell(&mut station, "05 20 01 00 00"), nak(13));
    assert_eq!(tell(&mut station, "05 20 04 00 04"), nak(16));
    assert_eq!(station, fresh());
}

#[test]
fn a_long_message_is_taken_to_its_end() {
    let mut station = fresh();
    let mut buffer = [0; 64];
    let mut message = [0u8; 65];
    message[0] = 65;
    let fed = station.feed(&message[..64], &mut buffer);
    assert_eq!((fed.code, fed.consumed, fed.wrote), (Code::Waiting, 64, 0));
    let fed = station.feed(&message[64..], &mut buffer);
    assert_eq!((fed.code, fed.consumed, fed.wrote), (Code::TooLong, 1, 2));
    assert_eq!(station, fresh());
}

#[test]
fn a_data_item_of_length_zero_is_8194_bytes() {
    let mut station = fresh();
    let mut bytes = vec![0x55; 8194 + 4];
    bytes[..2].copy_from_slice(&[0x00, 0x80]);
    bytes[8194..].copy_from_slice(&[0x04, 0x20, 0x05, 0x00]);
    let mut buffer = [0; 64];
    let fed = station.feed(&bytes, &mut buffer);
    assert_eq!((fed.code, fed.consumed, fed.wrote), (Code::NoReplyDue, 8194, 0));
    let fed = station.feed(&bytes[fed.consumed..], &mut buffer);
    assert_eq!(buffer[..fed.wrote], [0x05, 0x00, 0x05, 0x00, 0x0B]);
}

#[test]
fn state_and_locks() {
    let mut station = fresh();
    let run_24 = "08 00 18 00 80 02 80 00";
    let run_16 = "08 00 18 00 80 02 00 07";
    assert_eq!(tell(&mut station, run_24), (1, hex(run_24)));
    station.settings.count = 5;
    assert_eq!(tell(&mut station, run_24), (1, hex(run_24)));
    assert_eq!(station.settings.count, 5);
    assert_eq!(tell(&mut station, run_16), nak(17));
    assert_eq!(tell(&mut station, "08 00 18 00 80 02 01 00"), nak(16));
    assert_eq!(tell(&mut station, "08 00 18 00 80 03 80 00"), nak(16));
    assert_eq!(tell(&mut station, "09 00 B8 00 00 20 A1 07 00"), nak(17));
    assert_eq!(tell(&mut station, "09 00 B8 00 00 00 00 00 00"), nak(16));
    assert_eq!(tell(&mut station, "05 00 C4 00 01"), nak(17));
    assert_eq!(tell(&mut station, "05 00 C4 00 02"), nak(16));
    assert_eq!(tell(&mut station, "08 00 18 00 12 01 34 56"), (1, hex("08 00 18 00 80 01 80 00")));
    assert_eq!(station.settings.count, 5);
    assert_eq!(tell(&mut station, run_16), (1, hex("08 00 18 00 80 02 00 00")));
    assert_eq!(station.settings.count, 0);
}

#[test]
fn short_buffers_consume_nothing() {
    let mut station = fresh();
    let message = hex("0A 00 20 00 00 90 C6 D5 00 00");
    let mut buffer = [0xEE; 9];
    let fed = station.feed(&message, &mut buffer);
    assert_eq!((fed.code, fed.consumed, fed.wrote), (Code::NoRoom, 0, 0));
    assert_eq!((station, buffer), (fresh(), [0xEE; 9]));
}

#[test]
fn serials() {
    for serial in [&b"MT12345"[..], b"MT1234567", b"mt123456", b""] {
        let (station, code) = Station::fresh(serial);
        assert_eq!((code, &station.settings.serial), (Code::NotASerial, b"00000000"));
    }
}

#[test]
fn numbers() {
    assert_eq!(number_at(0), 0);
    assert_eq!(number_at(65_535), 65_535);
    assert_eq!(number_at(65_536), 1);
    let packet = |number: u16| {
        let mut packet = vec![0; Form::SMALL_16.total()];
        packet[..2].copy_from_slice(&Form::SMALL_16.header());
        packet[2..4].copy_from_slice(&number.to_le_bytes());
        packet
    };
    let mut reader = Reader::new(1);
    assert_eq!(reader.read(&packet(7)), Err(Code::NoFirstPacket));
    assert_eq!(reader.read(&packet(0)).unwrap().position, 0);
    assert_eq!(reader.read(&packet(7)).unwrap().position, 7);
    assert_eq!(reader.read(&packet(7)).unwrap().position, 7 + 65_535);
    assert_eq!(reader.read(&packet(65_535)).unwrap().position, 65_535 + 65_535);
    let place = reader.read(&packet(1)).unwrap();
    assert_eq!((place.position, place.sample), (131_071, 131_071 * 128));
    reader.position = 3_999_999_999;
    let next = number_at(4_000_000_000);
    assert_eq!(reader.read(&packet(next)), Err(Code::PastLast));
    assert_eq!(reader.read(&packet(0)).unwrap().position, 0);
    reader.position = 4_000_000_000;
    assert_eq!(reader.read(&packet(0)), Err(Code::Broken));
}

fn small_24(number: u16) -> Vec<u8> {
    packet_of(Form::SMALL_24, number)
}

/// Document 02, No. 1: position, sample, missed and total of each packet that one reader is handed, by its number.
#[test]
fn missed_packets() {
    let place = |position, sample, missed, total| Ok(Place { position, sample, missed, total });
    let start = place(0, 0, 0, 0);
    let cases = [
        (&[0, 1, 4][..], &[start, place(1, 64, 0, 0), place(4, 256, 2, 2)][..]),
        (&[0, 65_535, 1], &[start, place(65_535, 4_194_240, 65_534, 65_534), place(65_536, 4_194_304, 0, 65_534)]),
        (&[0, 7, 7], &[start, place(7, 448, 6, 6), place(65_542, 4_194_688, 65_534, 65_540)]),
        (&[0, 2, 0, 3], &[start, place(2, 128, 1, 1), start, place(3, 192, 2, 2)]),
        (&[3, 0, 5], &[Err(Code::NoFirstPacket), start, place(5, 320, 4, 4)]),
    ];
    for (numbers, answers) in cases {
        let mut reader = Reader::new(1);
        let mut heard = 0;
        for (&number, &answer) in numbers.iter().zip(answers) {
            let before = reader;
            assert_eq!(reader.read(&small_24(number)), answer, "number {number} of {numbers:?}");
            match answer {
                Ok(Place { position, total, .. }) => {
                    heard = if number == 0 { 1 } else { heard + 1 };
                    assert_eq!(heard + total, position + 1);
                    assert_eq!(reader, Reader { heard: true, position, total, form: Form::SMALL_24, channels: 1 });
                }
                Err(_) => assert_eq!(reader, before),
            }
        }
        let packets: Vec<u8> = numbers.iter().flat_map(|&number| small_24(number)).collect();
        let last = answers.iter().map_while(|answer| answer.ok()).last().unwrap_or_default();
        assert_eq!(read_run(1, &packets, Form::SMALL_24.total()), (last.sample, last.total));
        assert_eq!(read_run(2, &packets, Form::SMALL_24.total()), (last.sample / 2, last.total));
        assert_eq!(read_run(3, &packets, Form::SMALL_24.total()), (0, 0));
    }
}

#[test]
fn an_hour_with_losses() {
    let hour = arrivals(Form::LARGE_24, 1);
    assert_eq!((hour.stretches[0].start, hour.last), (0, 479_999));
    let packets = numbered_packets(Form::LARGE_24);
    let mut reader = Reader::new(1);
    let mut longest = 0;
    for number in hour.stretches.into_iter().flatten() {
        let place = reader.read(numbered(&packets, number, 1444)).unwrap();
        longest = longest.max(place.missed);
    }
    assert_eq!((reader.position, reader.total), (hour.last, hour.lost));
    // two seconds to sixty in a row, and one in a thousand besides
    let besides = hour.lost - longest;
    assert!((266..8100).contains(&longest) && (400..600).contains(&besides), "{longest} and {besides}");
}

fn packet_of(form: Form, number: u16) -> Vec<u8> {
    let mut packet = vec![0x33; form.total()];
    packet[..2].copy_from_slice(&form.header());
    packet[2..4].copy_from_slice(&number.to_le_bytes());
    packet
}

/// Document 02, No. 7: pairs per channel in each form, and by them the position of a packet's first sample.
#[test]
fn positions_of_two_channels() {
    let pairs = [(240, 120), (64, 32), (256, 128), (128, 64)];
    for (form, (alone, each)) in Form::LISTED.into_iter().zip(pairs) {
        for (channels, pairs) in [(1, alone), (2, each)] {
            assert_eq!(form.pairs_each(channels), pairs);
            let mut reader = Reader::new(channels);
            assert_eq!(reader.read(&packet_of(form, 0)).map(|place| place.sample), Ok(0));
            let place = Place { position: 3, sample: 3 * pairs, missed: 2, total: 2 };
            assert_eq!(reader.read(&packet_of(form, 3)), Ok(place));
            // a new capture keeps the count
            assert_eq!(reader.read(&packet_of(form, 0)), Ok(Place::default()));
            assert_eq!(reader.read(&packet_of(form, 1)).map(|place| place.sample), Ok(pairs));
        }
        for channels in [0, 3, 4, 255] {
            for given in [Reader::new(channels), Reader { heard: true, form, ..Reader::new(channels) }] {
                let mut reader = given;
                assert_eq!(reader.read(&packet_of(form, 0)), Err(Code::Broken));
                assert_eq!(reader.read(&[]), Err(Code::Broken));
                assert_eq!(reader, given);
            }
        }
    }
}

/// Channel 1 I, Q, then channel 2 I, Q, pair by pair: where each stands in a packet of each form.
#[test]
fn two_channels_in_turn() {
    for (mode, size) in [(0x80, 0), (0x80, 1), (0x00, 0), (0x00, 1)] {
        let mut station = fresh();
        for message in
            [format!("05 00 C4 00 {size:02X}"), "05 00 19 00 04".into(), format!("08 00 18 00 80 02 {mode:02X} 00")]
        {
            assert_eq!(tell(&mut station, &message).0, 1);
        }
        let form = station.settings.form();
        let pairs = form.pairs_each(station.settings.channels()) as usize;
        // of pair k: I and Q of channel 1, I and Q of channel 2
        let sent = |k: usize| [0, 1, 2, 3].map(|j| 256 * (4 * k + j) as i32);
        let samples: Vec<i32> = (0..pairs).flat_map(sent).collect();
        let mut packet = vec![0; form.total()];
        assert_eq!(station.cut(&samples, &mut packet).code, Code::Done);
        let width = form.bits as usize / 8;
        for k in 0..pairs {
            for (place, number) in sent(k).iter().enumerate() {
                let at = 4 + (4 * k + place) * width;
                let low = if form.bits == 24 { number.to_le_bytes() } else { (number / 256).to_le_bytes() };
                assert_eq!(packet[at..at + width], low[..width]);
            }
        }
        let mut numbers = vec![0; form.samples()];
        assert_eq!(unpack(&packet, &mut numbers), Ok(4 * pairs));
        assert!(numbers.iter().zip(&samples).all(|(n, s)| *n == if form.bits == 24 { *s } else { s / 256 }));
        assert_eq!(station.cut(&samples[..2 * pairs], &mut packet).code, Code::WrongCount);
    }
}

#[test]
fn totals_that_no_steps_give() {
    let heard = |position, total| Reader { heard: true, position, total, form: Form::SMALL_24, channels: 1 };
    let sound = [(65_535, 65_534), (65_536, 65_534), (10, 9), (3_999_999_999, 3_999_938_962), (0, 0), (10, 0)];
    for (position, total) in sound {
        assert!(heard(position, total).is_sound(), "{total} missed up to {position}");
    }
    let broken = [(65_536, 65_535), (10, 10), (0, 1), (3_999_999_999, 3_999_938_963), (10, u64::MAX), (u64::MAX, 0)];
    for (position, total) in broken {
        let mut reader = heard(position, total);
        assert_eq!(reader.read(&small_24(0)), Err(Code::Broken), "{total} missed up to {position}");
        assert_eq!(reader.read(&[]), Err(Code::Broken));
        assert_eq!(reader, heard(position, total));
    }
    let mut silent = Reader { total: 1, ..Reader::new(1) };
    assert_eq!(silent.read(&small_24(0)), Err(Code::Broken));
    assert_eq!(silent, Reader { total: 1, ..Reader::new(1) });
}

/// A step leads at most 65,535 on, and all its packets but one are missed: the fewest steps to a position give the greatest
/// total there.
#[test]
fn greatest_totals() {
    let near_turns = (65_534..=65_537).chain(131_069..=131_073);
    for position in near_turns.chain([0, 1, 2, 10, 3_999_999_999, 4_000_000_000]) {
        let greatest = position - u64::div_ceil(position, 65_535);
        let near_greatest = greatest.saturating_sub(2)..=greatest + 2;
        for total in near_greatest.chain([0, position, u64::MAX]) {
            let sound = position <= 3_999_999_999 && total <= greatest;
            for form in Form::LISTED {
                for channels in [1, 2] {
                    let reader = Reader { heard: true, position, total, form, channels };
                    assert_eq!(reader.is_sound(), sound, "{total} missed up to {position}");
                }
            }
        }
    }
}

#[test]
fn minus_257_and_every_form_cut_and_unpacked() {
    for (mode, size, header) in
        [(0x80, 0, [0xA4, 0x85]), (0x80, 1, [0x84, 0x81]), (0x00, 0, [0x04, 0x84]), (0x00, 1, [0x04, 0x82])]
    {
        let mut station = fresh();
        station.settings.mode = mode;
        station.settings.size = size;
        station.settings.running = true;
        let form = station.settings.form();
        let mut samples: Vec<i32> = (0..form.samples() as i32).map(|i| i * 30_011 - 8_388_608).collect();
        samples[0] = -257;
        samples[1] = 8_388_607;
        samples.iter_mut().for_each(|x| *x = (*x).min(8_388_607));
        assert!(samples_fit(&samples));
        let mut packet = vec![0xEE; form.total() + 1];
        let cut = station.cut(&samples, &mut packet);
        assert_eq!((cut.code, cut.wrote), (Code::Done, form.total()));
        assert_eq!(packet[..4], [header[0], header[1], 0, 0]);
        assert_eq!(packet[form.total()], 0xEE);
        let packet = &packet[..form.total()];
        if mode == 0x80 {
            assert_eq!(packet[4..7], [0xFF, 0xFE, 0xFF]);
        } else {
            assert_eq!(packet[4..8], [0xFF, 0xFF, 0xFF, 0x7F]);
        }
        assert_eq!(sample_bytes(packet), &packet[4..]);
        assert!(sample_bytes(&packet[1..]).is_empty());
        let mut numbers = vec![0; form.samples()];
        assert_eq!(unpack(packet, &mut numbers), Ok(form.samples()));
        let sent = |s: i32| if mode == 0x80 { s } else { to_sixteen(s).into() };
        assert!(numbers.iter().zip(&samples).all(|(n, s)| *n == sent(*s)));
        assert_eq!(unpack(packet, &mut numbers[1..]), Err(Code::NoRoom));
        assert_eq!(unpack(&packet[1..], &mut []), Err(Code::NotAPacket));
        samples[3] = 8_388_608;
        assert_eq!(station.cut(&samples, &mut []).code, Code::NotASample);
        assert_eq!(station.cut(&samples[1..], &mut []).code, Code::WrongCount);
        station.settings.count = 4_000_000_000;
        assert_eq!(station.cut(&samples[1..], &mut []).code, Code::CaptureFull);
        station.settings.running = false;
        assert_eq!(station.cut(&samples[1..], &mut []).code, Code::WhileIdle);
        station.settings.count = 4_000_000_001;
        assert_eq!(station.cut(&samples[1..], &mut []).code, Code::Broken);
    }
}

/// Document 02, No. 3, by what it says of the result and not by how it is worked out.
#[test]
fn sixteen_bits_do_not_lean() {
    for (sample, sent) in
        [(127, 0), (128, 1), (-128, 0), (-129, -1), (-257, -1), (8_388_607, 32_767), (-8_388_608, -32_768)]
    {
        assert_eq!(to_sixteen(sample), sent);
    }
    let error = |sample: i32| 256 * i32::from(to_sixteen(sample)) - sample;
    assert!((-8_388_608..8_388_480).all(|sample| (-127..=128).contains(&error(sample))));
    assert!(
        (8_388_480..=8_388_607).all(|sample| to_sixteen(sample) == 32_767 && (-255..=-128).contains(&error(sample)))
    );
    for first in [-8_388_608, -300, -129, 0, 77, 8_388_224] {
        assert_eq!((first..first + 256).map(error).sum::<i32>(), 128);
    }
}

#[test]
fn wishes_reach_the_box_and_its_reply_is_read() {
    let wishes = [
        (Wish::Name, Reply::Name),
        (Wish::Serial, Reply::Serial(*b"MT123456")),
        (Wish::Interface, Reply::Interface(105)),
        (Wish::Version(3), Reply::Version([1, 7])),
        (Wish::Status, Reply::Status { running: false }),
        (Wish::State, Reply::State { running: false, mode: 0x80 }),
        (Wish::ChannelSetup, Reply::ChannelSetup(0)),
        (Wish::FrequencyRange(0), Reply::FrequencyRange),
        (Wish::SetFrequency(0, 145_000_000), Reply::Frequency(145_000_000)),
        (Wish::Frequency(0), Reply::Frequency(145_000_000)),
        (Wish::Frequency(2), Reply::Nak),
        (Wish::SetGain(0xFF, -30), Reply::Gain(-30)),
        (Wish::SetGain(2, -30), Reply::Nak),
        (Wish::Gain(0), Reply::Gain(-30)),
        (Wish::SetChannelSetup(4), Reply::ChannelSetup(4)),
        (Wish::ChannelSetup, Reply::ChannelSetup(4)),
        (Wish::FrequencyRange(2), Reply::FrequencyRange),
        (Wish::Frequency(2), Reply::Frequency(10_000_000)),
        (Wish::Gain(2), Reply::Gain(0)),
        (Wish::SetFrequency(2, 14_010_000), Reply::Frequency(14_010_000)),
        (Wish::SetGain(0xFF, -10), Reply::Gain(-10)),
        (Wish::Gain(2), Reply::Gain(-10)),
        (Wish::Frequency(0), Reply::Frequency(145_000_000)),
        (Wish::SetClock(0, 79_999_999), Reply::Clock(79_999_999)),
        (Wish::Clock(0xAB), Reply::Clock(79_999_999)),
        (Wish::SetRate(0xFF, 1_907_000), Reply::Rate(1_818_182)),
        (Wish::Rate(1), Reply::Rate(1_818_182)),
        (Wish::SetPacketSize(1), Reply::PacketSize(1)),
        (Wish::PacketSize, Reply::PacketSize(1)),
        (Wish::SetState(StateWish { run: 2, mode: 0 }), Reply::State { running: true, mode: 0 }),
        (Wish::Status, Reply::Status { running: true }),
        (Wish::SetState(StateWish { run: 2, mode: 0x80 }), Reply::Nak),
        (Wish::SetRate(0, 32_000), Reply::Nak),
        (Wish::SetChannelSetup(4), Reply::Nak),
        (Wish::SetState(StateWish { run: 1, mode: 9 }), Reply::State { running: false, mode: 0 }),
    ];
    let mut station = fresh();
    for (wish, expected) in wishes {
        let mut message = [0; 16];
        let length = wish.write(&mut message).unwrap();
        let mut buffer = [0; 64];
        let fed = station.feed(&message[..length], &mut buffer);
        assert_eq!(reply::read(wish, &buffer[..fed.wrote]), Ok(expected), "{wish:?}");
        assert_eq!(reply::read(wish, &buffer[..fed.wrote + 1]), Err(Code::NotAReply));
    }
    assert_eq!(Wish::SetGain(0, 1).write(&mut []), Err(Code::ValueNotAllowed));
    assert_eq!(Wish::SetGain(0, 0).write(&mut [0; 15]), Err(Code::NoRoom));
    assert_eq!(reply::read(Wish::Version(4), &[2, 0]), Err(Code::ValueNotAllowed));
}

/// Document 02, No. 7: a channel byte that no box allows is 15, before 16, before 20; nothing is written.
#[test]
fn wishes_for_channels() {
    let refused = |wish: Wish, code: Code| {
        let mut buffer = [0xEE; 16];
        assert_eq!(wish.write(&mut buffer), Err(code), "{wish:?}");
        assert_eq!(wish.write(&mut buffer[..15]), Err(code), "{wish:?}");
        assert_eq!(buffer, [0xEE; 16]);
        assert_eq!(reply::read(wish, &[0x02, 0x00]), Err(code), "{wish:?}");
    };
    refused(Wish::SetFrequency(2, 34_000_001), Code::ValueNotAllowed);
    refused(Wish::SetFrequency(1, 34_000_001), Code::ChannelNotAllowed);
    refused(Wish::Frequency(0xFF), Code::ChannelNotAllowed);
    for setup in (0..=255).filter(|setup| *setup != 0 && *setup != 4) {
        refused(Wish::SetChannelSetup(setup), Code::ValueNotAllowed);
    }
    for channel in 0..=255 {
        let set_too = matches!(channel, 0x00 | 0x02 | 0xFF);
        let asked_too = set_too && channel != 0xFF;
        for (wish, allowed) in [
            (Wish::SetFrequency(channel, 14_010_000), set_too),
            (Wish::SetGain(channel, -20), set_too),
            (Wish::Frequency(channel), asked_too),
            (Wish::FrequencyRange(channel), asked_too),
            (Wish::Gain(channel), asked_too),
            (Wish::SetClock(channel, 80_000_123), true),
            (Wish::Clock(channel), true),
            (Wish::SetRate(channel, 500_000), true),
            (Wish::Rate(channel), true),
        ] {
            if !allowed {
                refused(wish, Code::ChannelNotAllowed);
                continue;
            }
            let mut buffer = [0xEE; 16];
            let length = wish.write(&mut buffer).unwrap();
            assert_eq!(buffer[4], channel);
            // the box's answer is a reply to it, the same for another channel is not
            let mut station = fresh();
            station.settings.setup = 4;
            let mut answer = [0; 64];
            let wrote = station.feed(&buffer[..length], &mut answer).wrote;
            assert!(reply::read(wish, &answer[..wrote]).is_ok_and(|reply| reply != Reply::Nak), "{wish:?}");
            answer[4] ^= 2;
            assert_eq!(reply::read(wish, &answer[..wrote]), Err(Code::NotAReply), "{wish:?}");
        }
    }
}

const OLD_HEAD: Head = Head {
    version: head::VERSION_1,
    divisor: 100,
    frequency: 10_000_000,
    mode: 0x80,
    size: 1,
    serial: head::UNKNOWN,
    clock: 80_000_000,
};

/// The mode byte has bit 6 set for two channels: 80, 00, C0 and 40 are allowed, in both versions.
#[test]
fn modes_of_heads() {
    for head in [OLD_HEAD, named_head(b"MT123456", 79_999_990)] {
        for mode in 0..=255 {
            let mut bytes = head_bytes(&head);
            bytes[12] = mode;
            let head = Head { mode, ..head };
            if matches!(mode, 0x80 | 0x00 | 0xC0 | 0x40) {
                assert_eq!(Head::read(&bytes), Ok(head));
                assert_eq!(head_bytes(&head), bytes);
                assert_eq!(head.channels(), if mode < 0x40 || mode == 0x80 { 1 } else { 2 });
                assert_eq!(head.form(), if mode >= 0x80 { Form::SMALL_24 } else { Form::SMALL_16 });
                assert_eq!(head.newer().mode, mode);
            } else {
                assert_eq!(Head::read(&bytes), Err(Code::NotAHead));
                assert_eq!(head.write(&mut [0; 30]), Err(Code::ValueNotAllowed));
            }
        }
    }
}

#[test]
fn span_lines_of_two_channels() {
    let bytes = hex("53 50 4E 01 00 64 00 90 C6 D5 00 00 C0 01");
    let packets: Vec<u8> = [0, 1, 4].iter().flat_map(|&number| small_24(number)).collect();
    let capture = [&bytes[..], &packets].concat();
    assert_eq!(span::text(&capture), "SPAN 1\nC 1 24 32 3 5 160 800 2\nE 1\n");
    // 16 bits and large: 128 pairs each
    let large = Head { mode: 0x40, size: 0, ..OLD_HEAD };
    let capture = [head_bytes(&large), packet_of(Form::LARGE_16, 0), packet_of(Form::LARGE_16, 2)].concat();
    assert_eq!(span::text(&capture), "SPAN 1\nC 1 16 128 2 3 384 1920 1\nE 1\n");
    // small packets with one channel hold as many pairs, and are another form
    let capture = [head_bytes(&large), packet_of(Form::SMALL_16, 0)].concat();
    assert_eq!(span::text(&capture), "SPAN 1\nR 32 14\n");
    for mode in [0x20, 0xC1] {
        let mut bytes = bytes.clone();
        bytes[12] = mode;
        assert_eq!(span::text(&bytes), "SPAN 1\nR 40 0\n");
    }
}

/// Of version 2.
fn named_head(serial: &[u8; 8], clock: u32) -> Head {
    Head { version: head::VERSION_2, serial: *serial, clock, ..OLD_HEAD }
}

fn head_bytes(head: &Head) -> Vec<u8> {
    let mut bytes = vec![0xEE; 30];
    let length = head.write(&mut bytes).unwrap();
    assert!(bytes[length..].iter().all(|&b| b == 0xEE));
    bytes.truncate(length);
    bytes
}

fn capture_of(head: &Head, numbers: &[u16]) -> Vec<u8> {
    let mut bytes = head_bytes(head);
    bytes.extend(numbers.iter().flat_map(|&number| small_24(number)));
    bytes
}

fn capture(numbers: &[u16]) -> Vec<u8> {
    capture_of(&OLD_HEAD, numbers)
}

#[test]
fn heads() {
    let bytes = capture(&[]);
    assert_eq!(bytes, hex("53 50 4E 01 00 64 00 80 96 98 00 00 80 01"));
    assert_eq!(Head::read(&bytes), Ok(OLD_HEAD));
    assert_eq!(Head::read(&bytes[..13]), Err(Code::NotAHead));
    let with = |at: usize, value: u8| {
        let mut changed = bytes.clone();
        changed[at] = value;
        Head::read(&changed)
    };
    assert_eq!(with(0, b's'), Err(Code::NotAHead));
    assert_eq!(with(3, 2), Err(Code::NotAHead));
    assert_eq!(with(3, 3), Err(Code::OtherVersion));
    assert_eq!(with(12, 1), Err(Code::NotAHead));
    assert_eq!(with(5, 9), Err(Code::NotAHead));
}

/// What moving makes of a head's bytes, where there is room; where it refuses, nothing is written.
fn moved(bytes: &[u8], by: fn(&[u8], &mut [u8]) -> Result<usize, Code>) -> Result<Vec<u8>, Code> {
    let mut buffer = [0xEE; 30];
    let written = by(bytes, &mut buffer);
    assert!(buffer[written.unwrap_or(0)..].iter().all(|&b| b == 0xEE));
    written.map(|length| buffer[..length].to_vec())
}

/// Document 02, No. 9.
#[test]
fn heads_move_between_versions() {
    let old = hex("53 50 4E 01 00 64 00 90 C6 D5 00 00 80 01");
    let new = hex("53 50 4E 02 00 64 00 90 C6 D5 00 00 80 01 00 00 00 00 00 00 00 00 00 B4 C4 04");
    assert_eq!(moved(&old, head::newer), Ok(new.clone()));
    assert_eq!(moved(&new, head::older), Ok(old.clone()));
    // a head that is there already
    assert_eq!(moved(&old, head::older), Ok(old.clone()));
    assert_eq!(moved(&new, head::newer), Ok(new.clone()));
    // what stands behind the head is not looked at
    for (bytes, length) in [(&old, 14), (&new, 26)] {
        let longer = [&bytes[..], &[0xFF; 400]].concat();
        assert_eq!(Head::read(&longer), Head::read(bytes));
        assert_eq!(Head::read(bytes).unwrap().length(), length);
        assert_eq!(moved(&longer, head::newer), Ok(new.clone()));
        assert_eq!(moved(&longer, head::older), Ok(old.clone()));
    }
    let named = hex("53 50 4E 02 00 64 00 90 C6 D5 00 00 80 01 4D 54 31 32 33 34 35 36 F6 B3 C4 04");
    let read = Head { frequency: 14_010_000, ..named_head(b"MT123456", 79_999_990) };
    assert_eq!((Head::read(&named), head_bytes(&read)), (Ok(read), named.clone()));
    assert_eq!(moved(&named, head::newer), Ok(named.clone()));
    assert_eq!(moved(&named, head::older), Err(Code::WouldLose));
}

#[test]
fn going_back_would_lose() {
    for (serial, clock) in [(b"MT123456", 79_999_990), (&head::UNKNOWN, 80_000_001), (b"MT123456", 80_000_000)] {
        let bytes = head_bytes(&named_head(serial, clock));
        assert_eq!(moved(&bytes, head::older), Err(Code::WouldLose));
        // before the room
        assert_eq!(head::older(&bytes, &mut []), Err(Code::WouldLose));
    }
    let old = head_bytes(&OLD_HEAD);
    let new = head_bytes(&named_head(&head::UNKNOWN, 80_000_000));
    for bytes in [&old, &new] {
        assert_eq!(head::newer(bytes, &mut [0; 25]), Err(Code::NoRoom));
        assert_eq!(head::newer(bytes, &mut [0; 26]), Ok(26));
        assert_eq!(head::older(bytes, &mut [0; 13]), Err(Code::NoRoom));
        assert_eq!(head::older(bytes, &mut [0; 14]), Ok(14));
    }
}

#[test]
fn heads_of_version_2_refused() {
    let bytes = head_bytes(&named_head(b"MT123456", 79_999_990));
    for length in 0..26 {
        assert_eq!(Head::read(&bytes[..length]), Err(Code::NotAHead), "{length} bytes");
    }
    let with = |at: usize, field: &[u8]| {
        let mut changed = bytes.clone();
        changed[at..at + field.len()].copy_from_slice(field);
        let answer = Head::read(&changed);
        for by in [head::newer, head::older] {
            assert_eq!(moved(&changed, by).err(), answer.err());
        }
        answer
    };
    for version in [0u16, 3, 256, 513, 65_535] {
        assert_eq!(with(3, &version.to_le_bytes()), Err(Code::OtherVersion));
        let mut short = bytes[..14].to_vec();
        short[3..5].copy_from_slice(&version.to_le_bytes());
        assert_eq!(Head::read(&short), Err(Code::OtherVersion));
        assert_eq!(Head::read(&short[..13]), Err(Code::NotAHead));
    }
    for serial in [b"MT12345\0", b"\0T123456", b"MT12345/", b"MT12345:", b"MT12345@", b"MT12345[", b"MT12345a"] {
        assert_eq!(with(14, serial), Err(Code::NotAHead));
    }
    for clock in [0u32, 79_991_999, 80_008_001, u32::MAX] {
        assert_eq!(with(22, &clock.to_le_bytes()), Err(Code::NotAHead));
    }
    assert_eq!(with(5, &[9]), Err(Code::NotAHead));
    assert_eq!(with(0, b"SPM"), Err(Code::NotAHead));
}

#[test]
fn heads_that_are_not_written() {
    let named = named_head(b"AZ09AZ09", 79_992_000);
    for head in [OLD_HEAD, named, named_head(&head::UNKNOWN, 80_008_000)] {
        let length = head.length();
        assert_eq!(Head::read(&head_bytes(&head)), Ok(head));
        assert_eq!(head.write(&mut vec![0; length - 1]), Err(Code::NoRoom));
        assert_eq!(head.write(&mut vec![0; length]), Ok(length));
    }
    let bad = [
        Head { version: 0, ..OLD_HEAD },
        Head { version: 3, ..named },
        Head { version: 65_536 + 2, ..named },
        Head { serial: *b"MT123456", ..OLD_HEAD },
        Head { clock: 80_000_001, ..OLD_HEAD },
        Head { serial: *b"MT12345\0", ..named },
        Head { serial: *b"mt123456", ..named },
        Head { clock: 79_991_999, ..named },
        Head { clock: 80_008_001, ..named },
        Head { divisor: 9, ..named },
        Head { divisor: 65_536 + 100, ..OLD_HEAD },
    ];
    for head in bad {
        let mut buffer = [0xEE; 30];
        assert_eq!(head.write(&mut buffer), Err(Code::ValueNotAllowed), "{head:?}");
        assert_eq!(buffer, [0xEE; 30]);
        // before the room
        assert_eq!(head.write(&mut []), Err(Code::ValueNotAllowed), "{head:?}");
    }
}

#[test]
fn end_times() {
    for (samples, divisor, clock, microseconds) in [
        (320, 100, 80_000_000, 1600),
        (320, 100, 79_992_000, 1600),
        (3_000_000, 10, 79_992_000, 1_500_150),
        (3_000_000, 10, 80_008_000, 1_499_850),
        (2_000, 10, 80_008_000, 999),
        (2_000, 10, 80_000_000, 1000),
        // the longest capture: multiplied out it has 72 bits
        (1_024_000_000_000, 625, 79_992_000, 32_003_200_320_032),
        (1_024_000_000_000, 625, 80_000_000, 32_000_000_000_000),
        (1_024_000_000_000, 625, 80_008_000, 31_996_800_319_968),
    ] {
        assert_eq!(
            span::end_time(samples, divisor, clock),
            microseconds,
            "{samples} samples, D {divisor}, clock {clock}"
        );
    }
    // at the usual clock samples x D / 20, as document 01 has it
    for divisor in 10..=625 {
        for samples in [0, 1, 63, 64, 65, 319, 4_194_303, 1_023_999_999_999, 1_024_000_000_000] {
            assert_eq!(span::end_time(samples, divisor, 80_000_000), samples * u64::from(divisor) / 20);
        }
    }
}

#[test]
fn span_lines_of_version_2() {
    let head = named_head(b"MT123456", 79_992_000);
    assert_eq!(span::text(&capture_of(&head, &[0, 1, 4])), "SPAN 1\nC 1 24 64 3 5 320 1600 2\nE 1\n");
    let bytes = capture_of(&head, &[]);
    assert_eq!(span::text(&bytes), "SPAN 1\nE 0\n");
    for length in 14..26 {
        assert_eq!(span::text(&bytes[..length]), "SPAN 1\nR 40 0\n");
    }
    assert_eq!(span::text(&[&bytes[..], &[0x00, 0x00]].concat()), "SPAN 1\nR 30 26\n");
    assert_eq!(span::text(&capture_of(&head, &[1])), "SPAN 1\nR 31 26\n");
    let cut_off = &capture_of(&head, &[0, 1])[..26 + 388 + 387];
    assert_eq!(span::text(cut_off), "SPAN 1\nC 1 24 64 1 1 64 320 0\nR 30 414\n");
    // 65,536 packets of 64 samples: 20,971,520 microseconds at the usual clock
    for (clock, microseconds) in [(79_992_000, 20_973_617), (80_000_000, 20_971_520), (80_008_000, 20_969_423)] {
        let text = span::text(&capture_of(&named_head(&head::UNKNOWN, clock), &[0, 65_535]));
        assert_eq!(text, format!("SPAN 1\nC 1 24 64 2 65536 4194304 {microseconds} 65534\nE 1\n"));
    }
}

#[test]
fn span_lines() {
    assert_eq!(span::text(&capture(&[0, 1, 4])), "SPAN 1\nC 1 24 64 3 5 320 1600 2\nE 1\n");
    assert_eq!(span::text(&[]), "SPAN 1\nR 40 0\n");
    assert_eq!(span::text(&capture(&[])), "SPAN 1\nE 0\n");
    assert_eq!(span::text(&capture(&[1])), "SPAN 1\nR 31 14\n");
    assert_eq!(span::text(&capture(&[0, 0, 2])), "SPAN 1\nC 1 24 64 1 1 64 320 0\nC 2 24 64 2 3 192 960 1\nE 2\n");
    let mut cut_off = capture(&[0, 1]);
    cut_off.pop();
    assert_eq!(span::text(&cut_off), "SPAN 1\nC 1 24 64 1 1 64 320 0\nR 30 402\n");
    let mut foreign = capture(&[0]);
    foreign.extend([0x04, 0x82]);
    foreign.resize(402 + 516, 0);
    assert_eq!(span::text(&foreign), "SPAN 1\nC 1 24 64 1 1 64 320 0\nR 32 402\n");
    let restarted = "SPAN 1\nC 1 24 64 2 3 192 960 1\nC 2 24 64 3 65539 4194496 20972480 65536\nE 2\n";
    assert_eq!(span::text(&capture(&[0, 2, 0, 3, 3])), restarted);
    let mut cut_off = capture(&[0, 2, 3]);
    cut_off.truncate(790 + 100);
    assert_eq!(span::text(&cut_off), "SPAN 1\nC 1 24 64 2 3 192 960 1\nR 30 790\n");
}
