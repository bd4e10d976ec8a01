//! The command line.

use std::net::{IpAddr, Ipv4Addr, SocketAddr};
use std::path::PathBuf;
use std::str::FromStr;

use outside::onair::words::Words;
use outside::onair::CONTROL_PORT;

use crate::sending::Troubles;
use crate::source::tone::Tone;

pub const USAGE: &str = "\
air: the station. It listens for control over TCP, and while the box runs it sends packets of samples by UDP to
the client's address, at the port number that it listens on.

    air [--listen ADDRESS[:PORT]] [--serial EIGHT] [SOURCE] [--lose N] [--repeat N] [--late N] [--seed N]

    --listen ADDRESS[:PORT]  an IP address, a port, or both ([::1]:50000 of IPv6); 127.0.0.1:50000 by default
    --serial EIGHT           the box's serial, eight of A-Z and 0-9; MT123456 by default
SOURCE, of one kind:
    --tone HZ[:DBFS]         a tone at a radio frequency, 0 to 1000000000 Hz, and its level, -200 to 0 dB of full
                             scale, -20 by default; as many as wanted. Tuning moves it, the box's gain weakens it
    --capture FILE           a capture file, in a loop, from its start with each capture; as it is, whatever the gain
    --wave FILE              the same of a WAVE file: PCM, stereo (I left, Q right), 16 or 24 bits
    --silence                nothing; the default
Trouble on purpose, to try a recorder, the same packets with the same seed; N is 2 to 1000000000:
    --lose N                 one packet in N on average is cut and not sent, never a capture's first
    --repeat N               one in N is sent twice
    --late N                 one in N is sent some packets too late, never a capture's first
    --seed N                 of the random series; 1 by default

Each capture that ends is a line on standard output, as span prints it: C capture bits pairs heard covered samples
microseconds missed, of what was sent in order and in time. Ctrl-C ends it.
";

const DEFAULT_ADDRESS: IpAddr = IpAddr::V4(Ipv4Addr::LOCALHOST);
const DEFAULT_SERIAL: &str = "MT123456";
const DEFAULT_LEVEL: f64 = -20.0;

const LISTENS: &str = "an IP address, a port, or both, as 127.0.0.1:50000 or [::1]:50000";
const TONES: &str = "HZ or HZ:DBFS, 0 to 1000000000 Hz, -200 to 0 dB, as 14010000:-30";
const ONE_IN: &str = "2 to 1000000000";
const SEEDS: &str = "a number of at most 64 bits";

/// What the samples are made of.
#[derive(Debug, PartialEq)]
pub enum Kind {
    Silence,
    Tones(Vec<Tone>),
    Capture(PathBuf),
    Wave(PathBuf),
}

#[derive(Debug, PartialEq)]
pub struct Args {
    pub listen: SocketAddr,
    pub serial: String,
    pub source: Kind,
    pub troubles: Troubles,
}

/// What the command line asks for.
#[derive(Debug, PartialEq)]
pub enum Asked {
    Help,
    Run(Args),
}

/// What is asked for, or a line that says what is allowed.
pub fn read(mut words: Words) -> Result<Asked, String> {
    let mut listen = SocketAddr::new(DEFAULT_ADDRESS, CONTROL_PORT);
    let mut serial = DEFAULT_SERIAL.to_string();
    let mut source = None;
    let mut troubles = Troubles::default();
    while let Some(word) = words.next_word() {
        let option = word.as_str();
        match option {
            "--help" | "-h" => return Ok(Asked::Help),
            "--listen" => listen = allowed(option, &words.value(option)?, listen_in, LISTENS)?,
            "--serial" => serial = words.value(option)?,
            "--tone" => add_tone(&mut source, allowed(option, &words.value(option)?, tone_in, TONES)?)?,
            "--capture" => only(&mut source, Kind::Capture(words.value(option)?.into()))?,
            "--wave" => only(&mut source, Kind::Wave(words.value(option)?.into()))?,
            "--silence" => only(&mut source, Kind::Silence)?,
            "--lose" => troubles.lose = Some(allowed(option, &words.value(option)?, one_in, ONE_IN)?),
            "--repeat" => troubles.repeat = Some(allowed(option, &words.value(option)?, one_in, ONE_IN)?),
            "--late" => troubles.late = Some(allowed(option, &words.value(option)?, one_in, ONE_IN)?),
            "--seed" => troubles.seed = words.number(option, SEEDS)?,
            _ => return Err(format!("{option} is no word for air; air --help tells those that are")),
        }
    }
    Ok(Asked::Run(Args { listen, serial, source: source.unwrap_or(Kind::Silence), troubles }))
}

fn allowed<T>(option: &str, word: &str, read: impl Fn(&str) -> Option<T>, what: &str) -> Result<T, String> {
    read(word).ok_or_else(|| format!("{option} {word}: it may be {what}"))
}

const ONE_KIND: &str = "a source is of one kind: --tone (once or more), --capture, --wave or --silence";

fn only(source: &mut Option<Kind>, kind: Kind) -> Result<(), String> {
    match source.replace(kind) {
        None => Ok(()),
        Some(_) => Err(ONE_KIND.into()),
    }
}

fn add_tone(source: &mut Option<Kind>, tone: Tone) -> Result<(), String> {
    match source {
        Some(Kind::Tones(tones)) => tones.push(tone),
        _ => only(source, Kind::Tones(vec![tone]))?,
    }
    Ok(())
}

fn listen_in(word: &str) -> Option<SocketAddr> {
    if let Ok(both) = word.parse() {
        return Some(both);
    }
    let bare = word.strip_prefix('[').and_then(|rest| rest.strip_suffix(']')).unwrap_or(word);
    if let Ok(address) = bare.parse() {
        return Some(SocketAddr::new(address, CONTROL_PORT));
    }
    let port = word.strip_prefix(':').unwrap_or(word);
    port.parse().ok().map(|port| SocketAddr::new(DEFAULT_ADDRESS, port))
}

fn tone_in(word: &str) -> Option<Tone> {
    let (hertz, level) = match word.split_once(':') {
        Some((hertz, level)) => (number_in(hertz)?, number_in(level)?),
        None => (number_in(word)?, DEFAULT_LEVEL),
    };
    let within = (0.0..=1e9).contains(&hertz) && (-200.0..=0.0).contains(&level);
    within.then_some(Tone { hertz, level })
}

/// A number as people write them: not the words for infinity that `f64` reads too.
fn number_in(word: &str) -> Option<f64> {
    f64::from_str(word).ok().filter(|number| number.is_finite())
}

fn one_in(word: &str) -> Option<u64> {
    word.parse().ok().filter(|times| (2..=1_000_000_000).contains(times))
}

#[cfg(test)]
mod tests {
    use super::*;

    fn asked(line: &str) -> Result<Asked, String> {
        read(Words::of(line.split_whitespace().map(String::from).collect()))
    }

    fn run(line: &str) -> Args {
        match asked(line) {
            Ok(Asked::Run(args)) => args,
            other => panic!("{line}: {other:?}"),
        }
    }

    #[test]
    fn without_words_all_is_as_usual() {
        let args = run("");
        assert_eq!(args.listen.to_string(), "127.0.0.1:50000");
        assert_eq!(args.serial, "MT123456");
        assert_eq!(args.source, Kind::Silence);
        assert_eq!(args.troubles, Troubles::default());
    }

    #[test]
    fn addresses() {
        for (word, address) in [
            ("10.0.0.1", "10.0.0.1:50000"),
            ("10.0.0.1:7", "10.0.0.1:7"),
            ("51000", "127.0.0.1:51000"),
            (":51000", "127.0.0.1:51000"),
            ("::1", "[::1]:50000"),
            ("[::1]", "[::1]:50000"),
            ("[::1]:8", "[::1]:8"),
        ] {
            assert_eq!(run(&format!("--listen {word}")).listen.to_string(), address, "{word}");
        }
        for word in ["", "nowhere", "65536", "1.2.3", "1.2.3.4:", "[::1", "1.2.3.4:99999", "-1"] {
            assert_eq!(listen_in(word), None, "{word}");
        }
    }

    #[test]
    fn tones_add_up() {
        let Kind::Tones(tones) = run("--tone 14010000 --tone 7000000.5:-3").source else { panic!("no tones") };
        assert_eq!(tones, [Tone { hertz: 14_010_000.0, level: -20.0 }, Tone { hertz: 7_000_000.5, level: -3.0 }]);
        for word in ["", "x", "inf", "NaN", "1e10", "-5", "7:3", "7:", ":3", "7:-300", "7:nan", "1:2:3"] {
            assert_eq!(tone_in(word), None, "{word}");
        }
    }

    #[test]
    fn a_source_is_of_one_kind() {
        assert_eq!(run("--wave a.wav").source, Kind::Wave("a.wav".into()));
        assert_eq!(run("--capture a.spn").source, Kind::Capture("a.spn".into()));
        for line in ["--wave a --wave b", "--tone 1 --silence", "--silence --tone 1", "--capture a --tone 1"] {
            assert_eq!(asked(line), Err(ONE_KIND.into()), "{line}");
        }
    }

    #[test]
    fn troubles() {
        let troubles = run("--lose 100 --repeat 2 --late 1000000000 --seed 7").troubles;
        assert_eq!(troubles, Troubles { lose: Some(100), repeat: Some(2), late: Some(1_000_000_000), seed: 7 });
        for word in ["0", "1", "-2", "x", "1000000001", "2.5"] {
            assert_eq!(one_in(word), None, "{word}");
        }
    }

    #[test]
    fn wrong_words_are_told() {
        for line in ["--loose 3", "file.spn", "--lose", "--seed x", "--listen", "--late 1", "--tone low"] {
            assert!(asked(line).is_err(), "{line}");
        }
        assert_eq!(asked("--lose 5 --help"), Ok(Asked::Help));
    }
}
