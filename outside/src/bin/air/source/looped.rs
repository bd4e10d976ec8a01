//! A file's samples in a loop.

use std::fs::File;
use std::io::{self, Read};
use std::path::Path;

use outside::station::Settings;

use super::{Source, Tuned, PAIR};
use crate::log::say;

/// The samples of a file, block after block, round after round.
pub trait Tape {
    /// How many channels its blocks have.
    fn channels(&self) -> usize;

    /// What is to be told of a box with these settings and this rate that plays it, if anything.
    fn differs(&self, settings: &Settings, rate: f64) -> Option<String>;

    /// Back to the first sample.
    fn rewind(&mut self) -> io::Result<()>;

    /// Puts the next samples into the block, which is empty: pair by pair, of each channel in turn. Answers how many pairs of
    /// silence come before them, `None` at the end.
    fn next(&mut self, block: &mut Vec<i32>) -> Result<Option<u64>, Break>;
}

/// What a tape can break off with, in words.
#[derive(Debug)]
pub enum Break {
    /// the rest cannot be played: from the start again
    Round(String),
    /// it cannot be read
    Fails(io::Error),
}

impl From<io::Error> for Break {
    fn from(error: io::Error) -> Self {
        Break::Fails(error)
    }
}

pub struct Looped<T> {
    name: String,
    tape: T,
    /// what is still to be played: pairs of silence, then the block from a place on
    silence: u64,
    block: Vec<i32>,
    at: usize,
    /// this round has given something
    gave: bool,
    failed: bool,
    told_break: bool,
    told_rate: bool,
}

impl<T: Tape> Looped<T> {
    /// Opens a file and looks for its first samples, or says why it is no source.
    pub fn open(path: &Path, tape_of: impl FnOnce(File) -> Result<T, String>) -> Result<Self, String> {
        let name = path.display().to_string();
        let tape = open_file(path).and_then(tape_of).map_err(|why| format!("{name}: {why}"))?;
        let mut looped = Looped::of(name, tape);
        match looped.tape.next(&mut looped.block) {
            Ok(Some(_)) => {}
            Ok(None) => return Err(format!("{}: it has no samples", looped.name)),
            Err(Break::Round(why)) => return Err(format!("{}: {why}", looped.name)),
            Err(Break::Fails(error)) => return Err(format!("{}: {error}", looped.name)),
        }
        looped.rewind();
        Ok(looped)
    }

    fn of(name: String, tape: T) -> Self {
        Looped {
            name,
            tape,
            silence: 0,
            block: vec![],
            at: 0,
            gave: false,
            failed: false,
            told_break: false,
            told_rate: false,
        }
    }

    fn rewind(&mut self) {
        self.silence = 0;
        self.block.clear();
        self.at = 0;
        self.gave = false;
        if let Err(error) = self.tape.rewind() {
            self.fail(error);
        }
    }

    fn fail(&mut self, why: impl std::fmt::Display) {
        self.failed = true;
        say(format_args!("{}: {why}; silence from now on", self.name));
    }

    /// The next block, of the next round where this one has ended. A round without anything would be followed by others.
    fn refill(&mut self) {
        self.block.clear();
        self.at = 0;
        match self.tape.next(&mut self.block) {
            Ok(Some(silence)) => {
                self.silence = silence;
                self.gave = true;
                return;
            }
            Ok(None) => {}
            Err(Break::Round(why)) => self.tell_break(&why),
            Err(Break::Fails(error)) => return self.fail(error),
        }
        if self.gave {
            self.rewind();
        } else {
            self.fail("it has no samples any more");
        }
    }

    fn tell_break(&mut self, why: &str) {
        if !self.told_break {
            self.told_break = true;
            say(format_args!("{}: {why}; from its start again", self.name));
        }
    }

    /// Plays as many pairs as are at hand and wanted, of each channel; how many numbers that makes.
    fn play(&mut self, numbers: &mut [i32], wanted: usize) -> usize {
        let room = numbers.len() / (PAIR * wanted);
        if self.silence > 0 {
            let pairs = room.min(usize::try_from(self.silence).unwrap_or(room));
            self.silence -= pairs as u64;
            numbers[..pairs * PAIR * wanted].fill(0);
            return pairs * PAIR * wanted;
        }
        let had = self.tape.channels();
        let block = &self.block[self.at..];
        let pairs = room.min(block.len() / (PAIR * had));
        spread(&block[..pairs * PAIR * had], had, &mut numbers[..pairs * PAIR * wanted], wanted);
        self.at += pairs * PAIR * had;
        pairs * PAIR * wanted
    }
}

impl<T: Tape> Source for Looped<T> {
    /// From the file's start, so that a capture can be had again.
    fn start(&mut self, settings: &Settings, rate: f64) {
        if !self.failed {
            self.rewind();
        }
        if let Some(words) = self.tape.differs(settings, rate) {
            if !self.told_rate {
                self.told_rate = true;
                say(format_args!("{}: {words}", self.name));
            }
        }
    }

    fn fill(&mut self, tuned: &Tuned, numbers: &mut [i32]) {
        let wanted = tuned.channels.len().max(1);
        let mut rest = numbers;
        while rest.len() >= PAIR * wanted && !self.failed {
            let played = self.play(rest, wanted);
            if played == 0 {
                self.refill();
            }
            rest = &mut rest[played..];
        }
        rest.fill(0);
    }
}

/// Plays `had` channels on `wanted` ones: those that are not wanted are left out, and the last is on those that it lacks.
fn spread(from: &[i32], had: usize, to: &mut [i32], wanted: usize) {
    if had == wanted {
        to.copy_from_slice(from);
        return;
    }
    for (from, to) in from.chunks_exact(PAIR * had).zip(to.chunks_exact_mut(PAIR * wanted)) {
        for (channel, pair) in to.chunks_exact_mut(PAIR).enumerate() {
            let place = PAIR * channel.min(had - 1);
            pair.copy_from_slice(&from[place..place + PAIR]);
        }
    }
}

/// Opens a file that can be read again and again. (To open a pipe would wait for whoever writes to it.)
fn open_file(path: &Path) -> Result<File, String> {
    let what = std::fs::metadata(path).map_err(|error| error.to_string())?;
    if !what.is_file() {
        return Err("it is no file".into());
    }
    File::open(path).map_err(|error| error.to_string())
}

/// Reads until the buffer is full or the file ends; how many bytes there were.
pub fn read_full(file: &mut impl Read, buffer: &mut [u8]) -> io::Result<usize> {
    let mut count = 0;
    while count < buffer.len() {
        match file.read(&mut buffer[count..]) {
            Ok(0) => break,
            Ok(more) => count += more,
            Err(error) if error.kind() == io::ErrorKind::Interrupted => {}
            Err(error) => return Err(error),
        }
    }
    Ok(count)
}

#[cfg(test)]
pub mod tests {
    use super::*;
    use outside::onair::library::library;
    use outside::station::{Channel, Settings};
    use std::path::PathBuf;

    /// A file that is gone when the test is.
    pub struct Kept(pub PathBuf);

    impl Kept {
        pub fn new(name: &str, bytes: &[u8]) -> Self {
            let path = std::env::temp_dir().join(format!("air-{}-{name}", std::process::id()));
            std::fs::write(&path, bytes).unwrap();
            Kept(path)
        }
    }

    impl Drop for Kept {
        fn drop(&mut self) {
            let _ = std::fs::remove_file(&self.0);
        }
    }

    pub fn settings() -> Settings {
        Settings::fresh(*b"MT123456")
    }

    /// The next numbers of a source on a box with so many channels.
    pub fn played(source: &mut dyn Source, channels: usize, count: usize) -> Vec<i32> {
        let Settings { first, second, .. } = settings();
        let both: [Channel; 2] = [first, second];
        let mut numbers = vec![i32::MAX; count];
        source.fill(&Tuned { channels: &both[..channels], rate: 200_000.0 }, &mut numbers);
        numbers
    }

    /// Blocks that are given, each with the silence before it.
    struct Blocks(usize, Vec<(u64, Vec<i32>)>, usize);

    impl Tape for Blocks {
        fn channels(&self) -> usize {
            self.0
        }
        fn differs(&self, _: &Settings, _: f64) -> Option<String> {
            None
        }
        fn rewind(&mut self) -> io::Result<()> {
            self.2 = 0;
            Ok(())
        }
        fn next(&mut self, block: &mut Vec<i32>) -> Result<Option<u64>, Break> {
            self.2 += 1;
            Ok(self.1.get(self.2 - 1).map(|(silence, numbers)| {
                block.extend(numbers);
                *silence
            }))
        }
    }

    fn looped(channels: usize, blocks: &[(u64, &[i32])]) -> Looped<Blocks> {
        let blocks = blocks.iter().map(|&(silence, numbers)| (silence, numbers.to_vec())).collect();
        Looped::of("blocks".into(), Blocks(channels, blocks, 0))
    }

    #[test]
    fn round_and_round_with_silence_between() {
        let mut source = looped(1, &[(0, &[1, 2, 3, 4]), (2, &[5, 6])]);
        let round = [1, 2, 3, 4, 0, 0, 0, 0, 5, 6];
        assert_eq!(played(&mut source, 1, 6), round[..6]);
        assert_eq!(played(&mut source, 1, 24), [&round[6..], &round, &round].concat());
        source.start(&settings(), 1.0);
        assert_eq!(played(&mut source, 1, 4), round[..4]);
    }

    #[test]
    fn one_channel_on_two_and_two_on_one() {
        let mut source = looped(1, &[(1, &[1, 2, 3, 4])]);
        assert_eq!(played(&mut source, 2, 12), [0, 0, 0, 0, 1, 2, 1, 2, 3, 4, 3, 4]);
        let mut source = looped(2, &[(1, &[1, 2, 3, 4, 5, 6, 7, 8])]);
        assert_eq!(played(&mut source, 1, 6), [0, 0, 1, 2, 5, 6]);
        let mut source = looped(2, &[(1, &[1, 2, 3, 4, 5, 6, 7, 8])]);
        assert_eq!(played(&mut source, 2, 12), [0, 0, 0, 0, 1, 2, 3, 4, 5, 6, 7, 8]);
    }

    #[test]
    fn a_source_without_samples_is_silent() {
        let mut source = looped(1, &[]);
        assert_eq!(played(&mut source, 2, 8), [0; 8]);
        assert!(source.failed);
        source.start(&settings(), 1.0);
        assert_eq!(played(&mut source, 1, 8), [0; 8]);
    }

    #[test]
    fn no_file_no_source() {
        for path in ["/nowhere/at/all", "/tmp", "/dev/null"] {
            let opened = super::super::open(crate::args::Kind::Wave(path.into()), library());
            assert!(opened.is_err_and(|why| why.starts_with(path)), "{path}");
        }
    }
}
