//! The wishes that a recording consists of, in the words of the command line. How they are written, and whether any box
//! takes them, is the library's to say.

use std::fmt::Display;

use outside::boundary::{Library, WishFields};
use outside::boundary::{ASK_CLOCK, ASK_NAME, ASK_SERIAL};
use outside::boundary::{SET_FREQUENCY, SET_GAIN, SET_RATE, SET_SETUP, SET_SIZE, SET_STATE};
use outside::item::{CHANNEL_1, CHANNEL_2, RUN_IDLE, RUN_START, SETUP_DUAL, SETUP_SINGLE, SIZE_LARGE};
use outside::onair::library::DONE;

use crate::args::{Tuned, Wanted};

const HERTZ: &str = "100000 to 34000000, or 140000000 to 150000000";
const RATE: &str = "32000 to 2000000";
const GAIN: &str = "0, -10, -20 or -30";

/// Room for any wish.
pub const ROOM: usize = 64;

#[derive(Debug)]
pub struct Wish {
    pub fields: WishFields,
    /// what it is, in words, with its value
    pub says: String,
    /// the option that its value came with, and what it may be
    option: Option<(&'static str, &'static str)>,
}

impl Wish {
    fn new(which: u64, channel: u8, value: u64, says: impl Into<String>) -> Self {
        Wish { fields: WishFields::of(which, channel, value), says: says.into(), option: None }
    }

    fn of_option(mut self, option: &'static str, allowed: &'static str) -> Self {
        self.option = Some((option, allowed));
        self
    }

    /// The wish's message.
    pub fn message(&self, library: &dyn Library) -> Result<Vec<u8>, String> {
        let mut message = vec![0; ROOM];
        let (code, length) = library.write_wish(self.fields, &mut message);
        if code == DONE {
            message.truncate(length);
            return Ok(message);
        }
        Err(match self.option {
            Some((option, allowed)) => format!("{option}: no box takes {}; it may be {allowed}", self.says),
            None => format!("no box takes {} (code {code})", self.says),
        })
    }
}

/// The channel setup that a recording wants.
pub fn setup_of(wanted: &Wanted) -> u8 {
    if wanted.second.is_some() {
        SETUP_DUAL
    } else {
        SETUP_SINGLE
    }
}

pub fn idle() -> Wish {
    Wish::new(SET_STATE, 0, RUN_IDLE.into(), "the wish to stop")
}

pub fn name() -> Wish {
    Wish::new(ASK_NAME, 0, 0, "the question for its name")
}

pub fn serial() -> Wish {
    Wish::new(ASK_SERIAL, 0, 0, "the question for its serial")
}

pub fn clock() -> Wish {
    Wish::new(ASK_CLOCK, CHANNEL_1, 0, "the question for its clock")
}

pub fn rate(wanted: &Wanted) -> Wish {
    Wish::new(SET_RATE, CHANNEL_1, wanted.rate, format!("{} samples a second", wanted.rate)).of_option("--rate", RATE)
}

pub fn run(wanted: &Wanted) -> Wish {
    let state = u16::from_le_bytes([RUN_START, wanted.mode]);
    Wish::new(SET_STATE, 0, state.into(), "the wish to run")
}

pub fn size(wanted: &Wanted) -> Wish {
    let says = if wanted.size == SIZE_LARGE { "large packets" } else { "small packets" };
    Wish::new(SET_SIZE, 0, wanted.size.into(), says)
}

/// What is tuned, in the order in which it is sent: the setup first, which opens the second channel.
pub fn tuning(wanted: &Wanted) -> Vec<Wish> {
    let setup = setup_of(wanted);
    let channels = if wanted.second.is_some() { "two channels" } else { "one channel" };
    let mut sets = vec![Wish::new(SET_SETUP, 0, setup.into(), channels)];
    sets.push(frequency(CHANNEL_1, wanted.first).of_option("--hz", HERTZ));
    sets.extend(wanted.second.map(|second| frequency(CHANNEL_2, second).of_option("--second", HERTZ)));
    sets.push(gain(CHANNEL_1, wanted.first).of_option("--gain", GAIN));
    sets.extend(wanted.second.map(|second| gain(CHANNEL_2, second).of_option("--second-gain", GAIN)));
    sets
}

fn frequency(channel: u8, tuned: Tuned) -> Wish {
    Wish::new(SET_FREQUENCY, channel, tuned.hertz, on("a frequency of", tuned.hertz, "Hz", channel))
}

fn gain(channel: u8, tuned: Tuned) -> Wish {
    let [byte] = tuned.gain.to_le_bytes();
    Wish::new(SET_GAIN, channel, byte.into(), on("a gain of", tuned.gain, "dB", channel))
}

fn on(what: &str, value: impl Display, unit: &str, channel: u8) -> String {
    let second = if channel == CHANNEL_2 { " on the second channel" } else { "" };
    format!("{what} {value} {unit}{second}")
}

/// Whether a box takes all that is wanted, before any is asked.
pub fn check(wanted: &Wanted, library: &dyn Library) -> Result<(), String> {
    let others = [rate(wanted), size(wanted), run(wanted), idle(), name(), serial(), clock()];
    tuning(wanted).iter().chain(&others).try_for_each(|wish| wish.message(library).map(|_| ()))
}

#[cfg(test)]
mod tests {
    use super::*;
    use outside::boundary::Plain;
    use outside::item::MODE_24;

    use crate::args::End;

    fn wanted() -> Wanted {
        Wanted {
            host: "box".into(),
            port: 1,
            first: Tuned { hertz: 14_010_000, gain: -10 },
            second: None,
            rate: 200_000,
            mode: MODE_24,
            size: SIZE_LARGE,
            end: End::Never,
            file: "f".into(),
        }
    }

    #[test]
    fn messages_of_document_003() {
        let messages = |wishes: Vec<Wish>| -> Vec<Vec<u8>> {
            wishes.iter().map(|wish| wish.message(&Plain).expect(&wish.says)).collect()
        };
        assert_eq!(
            messages(vec![idle(), name(), serial(), run(&wanted())]),
            [
                vec![0x08, 0x00, 0x18, 0x00, 0x00, 0x01, 0x00, 0x00],
                vec![0x04, 0x20, 0x01, 0x00],
                vec![0x04, 0x20, 0x02, 0x00],
                vec![0x08, 0x00, 0x18, 0x00, 0x80, 0x02, 0x80, 0x00],
            ]
        );
        let one = messages(tuning(&wanted()));
        assert_eq!(one[0], [0x05, 0x00, 0x19, 0x00, 0x00]);
        assert_eq!(one[1], [0x0A, 0x00, 0x20, 0x00, 0x00, 0x90, 0xC6, 0xD5, 0x00, 0x00]);
        assert_eq!(one[2], [0x06, 0x00, 0x38, 0x00, 0x00, 0xF6]);
        assert_eq!(one.len(), 3);
        let two = messages(tuning(&Wanted { second: Some(Tuned { hertz: 14_010_000, gain: -30 }), ..wanted() }));
        assert_eq!(two[0], [0x05, 0x00, 0x19, 0x00, 0x04]);
        assert_eq!(two[2], [0x0A, 0x00, 0x20, 0x00, 0x02, 0x90, 0xC6, 0xD5, 0x00, 0x00]);
        assert_eq!(two[4], [0x06, 0x00, 0x38, 0x00, 0x02, 0xE2]);
        assert_eq!(two.len(), 5);
    }

    #[test]
    fn values_that_no_box_takes() {
        assert_eq!(check(&wanted(), &Plain), Ok(()));
        let second = |hertz, gain| Some(Tuned { hertz, gain });
        for (wrong, option) in [
            (Wanted { first: Tuned { hertz: 99_999, gain: 0 }, ..wanted() }, "--hz:"),
            (Wanted { first: Tuned { hertz: u64::MAX, gain: 0 }, ..wanted() }, "--hz:"),
            (Wanted { first: Tuned { hertz: 7_000_000, gain: 5 }, ..wanted() }, "--gain:"),
            (Wanted { second: second(40_000_000, 0), ..wanted() }, "--second:"),
            (Wanted { second: second(7_000_000, -1), ..wanted() }, "--second-gain:"),
            (Wanted { rate: 31_999, ..wanted() }, "--rate:"),
            (Wanted { rate: u64::MAX, ..wanted() }, "--rate:"),
        ] {
            let why = check(&wrong, &Plain).expect_err(option);
            assert!(why.starts_with(option), "{why}");
        }
    }
}
