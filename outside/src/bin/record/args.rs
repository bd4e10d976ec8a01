//! The command line. It only tells words apart: which values a box takes is the library's to say, see `wishes`.

use std::path::PathBuf;
use std::time::Duration;

use outside::item::{MODE_16, MODE_24, SIZE_LARGE, SIZE_SMALL};
use outside::onair::words::Words;
use outside::onair::CONTROL_PORT;

use crate::moment;

pub const USAGE: &str = "\
record, the night recorder: tunes a NetSDR (or air) and writes the packets that it sends into a capture file

    record --from HOST[:PORT] --hz HZ --rate HZ [OPTION]... FILE

  --from HOST[:PORT]  where the box listens, port 50000 by default; IPv6: ::1 or [::1]:50000
  --hz HZ             frequency: 100000 to 34000000, or 140000000 to 150000000
  --rate HZ           samples a second: 32000 to 2000000; the box takes the nearest that it has
  --for TIME          so long: seconds, or 90s, 10m, 8h
  --until MOMENT      until a moment in UTC: HH:MM or HH:MM:SS is the next such moment, or YYYY-MM-DDTHH:MM[:SS]Z
                      (with neither: until Ctrl-C, which ends it early otherwise)
  --gain G            RF gain in dB: 0 (by default), -10, -20 or -30
  --bits B            of a sample: 24 (by default) or 16
  --size S            of packets: large (by default) or small
  --second HZ         two channels; this is the second one's frequency
  --second-gain G     and its gain, 0 by default
  --help              this

FILE must not exist. A line each second goes to standard error: packets heard (written), missed, late (repeated or out
of order: left out), bytes, time left. The last line, on standard output, is the capture's C line by the span program
that stands beside this one, or that the environment's SPAN_PROGRAM names. No packet for 3 seconds ends it, or, where a
turn of the packets' number takes long, for a quarter of that, 30 seconds at most. It ends with 0 where it went as asked,
with 1 after trouble (what was written stays a sound capture, where there is a file), with 2 where a word is not allowed.
";

const A_NUMBER: &str = "a whole number";
const A_TIME: &str = "seconds, or a number with s, m or h behind it, as 90s, 10m, 8h";
const A_MOMENT: &str = "HH:MM or HH:MM:SS (the next such moment), or YYYY-MM-DDTHH:MM[:SS]Z, all in UTC";

pub enum Asked {
    Help,
    Record(Wanted),
}

/// What is to be recorded.
#[derive(Debug, PartialEq, Eq)]
pub struct Wanted {
    pub host: String,
    pub port: u16,
    pub first: Tuned,
    pub second: Option<Tuned>,
    pub rate: u64,
    pub mode: u8,
    pub size: u8,
    pub end: End,
    pub file: PathBuf,
}

/// Where a channel is tuned to.
#[derive(Clone, Copy, Debug, PartialEq, Eq)]
pub struct Tuned {
    pub hertz: u64,
    pub gain: i8,
}

/// When the recording ends by itself.
#[derive(Clone, Copy, Debug, PartialEq, Eq)]
pub enum End {
    Never,
    After(Duration),
    /// in seconds since 1970
    At(u64),
}

/// The words as they come, until it is known that none is missing.
#[derive(Default)]
struct Given {
    from: Option<(String, u16)>,
    hertz: Option<u64>,
    rate: Option<u64>,
    end: Option<End>,
    gain: Option<i8>,
    mode: Option<u8>,
    size: Option<u8>,
    second: Option<u64>,
    second_gain: Option<i8>,
    file: Option<PathBuf>,
}

/// What the words ask for; `now` in seconds since 1970.
pub fn read(mut words: Words, now: u64) -> Result<Asked, String> {
    let mut given = Given::default();
    while let Some(word) = words.next_word() {
        match word.as_str() {
            "--help" | "-h" => return Ok(Asked::Help),
            "--from" => once(&word, &mut given.from, host_and_port(&words.value(&word)?)?)?,
            "--hz" => once(&word, &mut given.hertz, words.number(&word, A_NUMBER)?)?,
            "--rate" => once(&word, &mut given.rate, words.number(&word, A_NUMBER)?)?,
            "--for" => once(&word, &mut given.end, end_after(&words.value(&word)?)?)?,
            "--until" => once(&word, &mut given.end, end_at(&words.value(&word)?, now)?)?,
            "--gain" => once(&word, &mut given.gain, words.number(&word, A_NUMBER)?)?,
            "--bits" => once(&word, &mut given.mode, choice(&word, &mut words, [("24", MODE_24), ("16", MODE_16)])?)?,
            "--size" => {
                let sizes = [("large", SIZE_LARGE), ("small", SIZE_SMALL)];
                once(&word, &mut given.size, choice(&word, &mut words, sizes)?)?;
            }
            "--second" => once(&word, &mut given.second, words.number(&word, A_NUMBER)?)?,
            "--second-gain" => once(&word, &mut given.second_gain, words.number(&word, A_NUMBER)?)?,
            _ if word.starts_with('-') => return Err(format!("{word} is no option of record")),
            _ => once("FILE", &mut given.file, file(&word)?)?,
        }
    }
    given.wanted().map(Asked::Record)
}

impl Given {
    fn wanted(self) -> Result<Wanted, String> {
        let (host, port) = self.from.ok_or("--from HOST[:PORT] is missing: where the box listens")?;
        let hertz = self.hertz.ok_or("--hz HZ is missing: the frequency")?;
        let rate = self.rate.ok_or("--rate HZ is missing: samples a second")?;
        let file = self.file.ok_or("FILE is missing: where to write the capture")?;
        if self.second.is_none() && self.second_gain.is_some() {
            return Err("--second-gain is for a second channel: --second HZ is missing".into());
        }
        let tuned = |hertz, gain: Option<i8>| Tuned { hertz, gain: gain.unwrap_or(0) };
        Ok(Wanted {
            host,
            port,
            first: tuned(hertz, self.gain),
            second: self.second.map(|hertz| tuned(hertz, self.second_gain)),
            rate,
            mode: self.mode.unwrap_or(MODE_24),
            size: self.size.unwrap_or(SIZE_LARGE),
            end: self.end.unwrap_or(End::Never),
            file,
        })
    }
}

fn once<T>(option: &str, place: &mut Option<T>, value: T) -> Result<(), String> {
    match place.replace(value) {
        None => Ok(()),
        Some(_) if matches!(option, "--for" | "--until") => Err("one --for or --until ends a recording".into()),
        Some(_) => Err(format!("{option} is given twice")),
    }
}

fn choice(option: &str, words: &mut Words, choices: [(&str, u8); 2]) -> Result<u8, String> {
    let word = words.value(option)?;
    let found = choices.iter().find(|(name, _)| *name == word);
    found
        .map(|&(_, byte)| byte)
        .ok_or_else(|| format!("{option} {word}: it may be {} or {}", choices[0].0, choices[1].0))
}

fn end_after(word: &str) -> Result<End, String> {
    moment::time(word).map(End::After).ok_or_else(|| format!("--for {word}: it may be {A_TIME}"))
}

fn end_at(word: &str, now: u64) -> Result<End, String> {
    match moment::moment(word, now) {
        Some(moment) if moment > now => Ok(End::At(moment)),
        Some(_) => Err(format!("--until {word}: that moment has passed")),
        None => Err(format!("--until {word}: it may be {A_MOMENT}")),
    }
}

fn file(word: &str) -> Result<PathBuf, String> {
    // what `Words` puts where a word is no text: a file of that name is not the one that was meant
    if word.is_empty() || word.contains(char::REPLACEMENT_CHARACTER) {
        return Err("FILE: it may be any name that is text".into());
    }
    Ok(word.into())
}

/// A name or an address, with a port behind a colon or without. An address of IPv6 has colons of its own, and stands in
/// brackets where a port follows.
fn host_and_port(word: &str) -> Result<(String, u16), String> {
    let wrong =
        || format!("--from {word}: it may be HOST or HOST:PORT, as 192.168.0.20, box.local:50000 or [::1]:50000");
    let (host, port) = if let Some(rest) = word.strip_prefix('[') {
        let (host, behind) = rest.split_once(']').ok_or_else(wrong)?;
        (host, if behind.is_empty() { None } else { Some(behind.strip_prefix(':').ok_or_else(wrong)?) })
    } else {
        match word.split_once(':') {
            Some((host, port)) if !port.contains(':') => (host, Some(port)),
            _ => (word, None),
        }
    };
    let port = port.map_or(Ok(CONTROL_PORT), |port| port.parse().map_err(|_| wrong()))?;
    if host.is_empty() || port == 0 {
        return Err(wrong());
    }
    Ok((host.into(), port))
}

#[cfg(test)]
mod tests {
    use super::*;

    fn asked(line: &str) -> Result<Wanted, String> {
        match read(Words::of(line.split_whitespace().map(String::from).collect()), 1_785_015_000)? {
            Asked::Help => Err("help".into()),
            Asked::Record(wanted) => Ok(wanted),
        }
    }

    fn refused(line: &str) -> String {
        asked(line).expect_err(line)
    }

    const NEEDED: &str = "--from box --hz 14020000 --rate 200000 night.spn";

    #[test]
    fn what_is_needed_and_what_is_usual() {
        let usual = Wanted {
            host: "box".into(),
            port: 50_000,
            first: Tuned { hertz: 14_020_000, gain: 0 },
            second: None,
            rate: 200_000,
            mode: MODE_24,
            size: SIZE_LARGE,
            end: End::Never,
            file: "night.spn".into(),
        };
        assert_eq!(asked(NEEDED), Ok(usual));
        for (line, missing) in [
            ("--hz 1 --rate 1 f", "--from"),
            ("--from box --rate 1 f", "--hz"),
            ("--from box --hz 1 f", "--rate"),
            ("--from box --hz 1 --rate 1", "FILE"),
        ] {
            assert!(refused(line).starts_with(missing), "{line}");
        }
    }

    #[test]
    fn all_options() {
        let line =
            "f --size small --bits 16 --gain -10 --second 7000000 --second-gain -30 --for 8h --from [::1]:51000 \
                    --hz 3500000 --rate 2000000";
        let wanted = asked(line).expect("allowed");
        assert_eq!((wanted.host.as_str(), wanted.port), ("::1", 51_000));
        assert_eq!(wanted.first, Tuned { hertz: 3_500_000, gain: -10 });
        assert_eq!(wanted.second, Some(Tuned { hertz: 7_000_000, gain: -30 }));
        assert_eq!((wanted.mode, wanted.size), (MODE_16, SIZE_SMALL));
        assert_eq!(wanted.end, End::After(Duration::from_secs(28_800)));
        let wanted = asked(&format!("{NEEDED} --until 21:31")).expect("allowed");
        assert_eq!(wanted.end, End::At(1_785_015_060));
    }

    #[test]
    fn wrong_words() {
        for (words, says) in [
            ("--bits 8", "--bits 8: it may be 24 or 16"),
            ("--size tiny", "--size tiny: it may be large or small"),
            ("--gain loud", "--gain loud: it may be a whole number"),
            ("--gain 1000", "--gain 1000: it may be a whole number"),
            ("--for 0", "--for 0: it may be seconds"),
            ("--for soon", "--for soon: it may be seconds"),
            ("--until 25:00", "--until 25:00: it may be HH:MM"),
            ("--until 2026-07-25T21:29Z", "--until 2026-07-25T21:29Z: that moment has passed"),
            ("--for 5 --until 21:31", "one --for or --until"),
            ("--for 5 --for 6", "one --for or --until"),
            ("--second-gain 0", "--second-gain is for a second channel"),
            ("--hz 5", "--hz is given twice"),
            ("other.spn", "FILE is given twice"),
            ("--loud", "--loud is no option"),
            ("--for", "--for wants a word behind it"),
        ] {
            let why = refused(&format!("{NEEDED} {words}"));
            assert!(why.starts_with(says), "{words}: {why}");
        }
        for word in ["--hz -5", "--hz 1.5", "--rate fast", "--rate 99999999999999999999999"] {
            assert!(refused(word).contains("it may be a whole number"), "{word}");
        }
    }

    #[test]
    fn hosts_and_ports() {
        for (word, host, port) in [
            ("127.0.0.1", "127.0.0.1", 50_000),
            ("127.0.0.1:51000", "127.0.0.1", 51_000),
            ("box.local:1", "box.local", 1),
            ("::1", "::1", 50_000),
            ("fe80::1%eth0", "fe80::1%eth0", 50_000),
            ("[::1]", "::1", 50_000),
            ("[::1]:65535", "::1", 65_535),
        ] {
            assert_eq!(host_and_port(word), Ok((host.into(), port)), "{word}");
        }
        for word in ["", ":", ":50000", "box:", "box:0", "box:65536", "box:x", "[::1", "[::1]x", "[::1]:", "[]:5"] {
            assert!(host_and_port(word).is_err(), "{word}");
        }
    }

    #[test]
    fn files() {
        assert!(file("").is_err() && file("n\u{FFFD}ght").is_err());
        assert_eq!(file("a b.spn"), Ok("a b.spn".into()));
    }
}
