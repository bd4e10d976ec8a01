//! A capture on the air: samples from the source, packets from the library, each at its time.

use std::fmt;
use std::time::{Duration, Instant};

use outside::boundary::Shape;
use outside::onair::library::DONE;
use outside::station::{Channel, Settings};

use crate::aerial::Aerial;
use crate::log::say;
use crate::pacing::{Bursts, Schedule};
use crate::sending::{Sending, Tally, Troubles};
use crate::source::{Source, Tuned};
use crate::unit::Unit;

/// So far behind its time a capture may fall before that is told. Microseconds.
const BEHIND: u64 = 1_000_000;

pub struct Capture {
    number: u64,
    shape: Shape,
    /// as they were when it began
    divisor: u32,
    clock: u32,
    started: Instant,
    schedule: Schedule,
    bursts: Bursts,
    /// when to look again
    wake: u64,
    sending: Sending,
    /// the samples of a packet, and the packet
    numbers: Vec<i32>,
    packet: Vec<u8>,
    /// the library has refused: no more is sent
    over: bool,
    told_begin: bool,
    told_error: bool,
    told_behind: bool,
}

impl Capture {
    /// A capture of a box that has just been started, or the library's code where it has no answer.
    pub fn begin(number: u64, unit: &Unit, source: &mut dyn Source, troubles: Troubles) -> Result<Self, u8> {
        let shape = unit.shape()?;
        let settings = unit.settings();
        let Settings { divisor, clock, .. } = settings;
        let schedule = Schedule::new(unit.library(), shape.pairs, divisor, clock);
        source.start(&settings, schedule.rate());
        Ok(Capture {
            number,
            shape,
            divisor,
            clock,
            started: Instant::now(),
            bursts: Bursts::new(shape.pairs, schedule.rate()),
            schedule,
            wake: 0,
            sending: Sending::new(troubles),
            numbers: vec![0; shape.numbers],
            packet: vec![0; shape.total],
            over: false,
            told_begin: false,
            told_error: false,
            told_behind: false,
        })
    }

    /// How long until it wants to send again, `None` where it never does.
    pub fn wait(&self) -> Option<Duration> {
        let until = Duration::from_micros(self.wake);
        (!self.over).then(|| until.saturating_sub(self.started.elapsed()))
    }

    /// Sends what is due.
    pub fn send_due(&mut self, unit: &mut Unit, source: &mut dyn Source, aerial: &Aerial) {
        let now = self.started.elapsed().as_micros() as u64;
        if self.over || now < self.wake {
            return;
        }
        match self.send_until(now, unit, source, aerial) {
            Ok(due) => {
                self.wake = self.bursts.next(now, due);
                self.tell_behind(now.saturating_sub(due));
            }
            Err(code) => {
                self.over = true;
                say(format_args!("capture {}: no more is sent, the box refuses with code {code}", self.number));
            }
        }
    }

    /// Sends what is due by now, as many as may go together; when the next packet is due, or the library's code.
    fn send_until(&mut self, now: u64, unit: &mut Unit, source: &mut dyn Source, aerial: &Aerial) -> Result<u64, u8> {
        let mut left = self.bursts.allowed(now);
        loop {
            let settings = unit.settings();
            self.schedule.set_clock(settings.count, settings.clock)?;
            let due = self.schedule.due(settings.count)?;
            if due > now || left == 0 {
                return Ok(due);
            }
            self.send_next(settings, unit, source, aerial)?;
            left -= 1;
        }
    }

    fn send_next(
        &mut self,
        settings: Settings,
        unit: &mut Unit,
        source: &mut dyn Source,
        aerial: &Aerial,
    ) -> Result<(), u8> {
        let Settings { first, second, count: position, .. } = settings;
        let both = [first, second];
        let channels = both.get(..self.shape.channels.into()).unwrap_or(&both);
        let tuned = Tuned { channels, rate: self.schedule.rate() };
        source.fill(&tuned, &mut self.numbers);
        let length = unit.cut(&self.numbers, &mut self.packet)?;
        if !self.told_begin {
            // only now: one that ends at once is nothing to tell, however often a client tries
            self.told_begin = true;
            say(Begins { number: self.number, shape: self.shape, channels, rate: tuned.rate });
        }
        let packet = self.packet.get(..length).unwrap_or(&self.packet);
        let (number, told) = (self.number, &mut self.told_error);
        self.sending.take(position, packet, |packet| match aerial.send(packet) {
            Ok(()) => true,
            Err(error) => {
                if !*told {
                    say(format_args!("capture {number}: a packet could not be sent: {error}"));
                }
                *told = true;
                false
            }
        });
        Ok(())
    }

    fn tell_behind(&mut self, behind: u64) {
        if behind > BEHIND && !self.told_behind {
            self.told_behind = true;
            let milliseconds = behind / 1000;
            say(format_args!("capture {}: {milliseconds} ms behind its time, catching up", self.number));
        }
    }

    /// It has ended: its line as span prints it, `None` where nothing was sent.
    pub fn end(mut self, unit: &Unit) -> Option<String> {
        let tally = self.sending.end();
        if self.told_begin {
            say(Ends { number: self.number, tally });
        }
        if tally.heard == 0 {
            return None;
        }
        let Shape { bits, pairs, .. } = self.shape;
        let Tally { heard, covered, .. } = tally;
        let samples = covered * pairs;
        match unit.library().end_time(samples, self.divisor, self.clock) {
            (DONE, microseconds) => {
                let missed = covered - heard;
                Some(format!("C {} {bits} {pairs} {heard} {covered} {samples} {microseconds} {missed}", self.number))
            }
            (code, _) => {
                say(format_args!("capture {}: its end time is refused with code {code}", self.number));
                None
            }
        }
    }
}

struct Begins<'a> {
    number: u64,
    shape: Shape,
    channels: &'a [Channel],
    rate: f64,
}

impl fmt::Display for Begins<'_> {
    fn fmt(&self, f: &mut fmt::Formatter) -> fmt::Result {
        let Shape { channels, bits, pairs, total, .. } = self.shape;
        let (number, rate) = (self.number, self.rate);
        write!(f, "capture {number} begins: {bits} bits, {total} bytes a packet, {channels} x {pairs} pairs, ")?;
        write!(f, "{rate:.0} samples a second")?;
        self.channels.iter().try_for_each(|channel| write!(f, ", {} Hz", channel.frequency))
    }
}

struct Ends {
    number: u64,
    tally: Tally,
}

impl fmt::Display for Ends {
    fn fmt(&self, f: &mut fmt::Formatter) -> fmt::Result {
        let Tally { cut, covered, lost, late, repeated, not_sent, .. } = self.tally;
        write!(f, "capture {} ends: cut {cut}, lost {lost}, late {late}, repeated {repeated}, ", self.number)?;
        write!(f, "not sent {not_sent}; {} cut after the last sent in time", cut - covered)
    }
}

#[cfg(test)]
mod tests {
    use super::*;
    use crate::source::silence::Silence;
    use outside::boundary::{WishFields, SET_CLOCK, SET_RATE, SET_SETUP, SET_SIZE, SET_STATE};
    use outside::onair::library::library;
    use outside::{span, Head, Reader};
    use std::net::UdpSocket;

    const RUN_24: u64 = 2 + 256 * 0x80;

    /// A box that was told some wishes, each a number and a value.
    fn told(wishes: &[(u64, u64)]) -> Unit {
        let mut unit = Unit::new(library(), "MT123456").unwrap();
        for &(which, value) in wishes {
            tell(&mut unit, which, value);
        }
        unit
    }

    fn tell(unit: &mut Unit, which: u64, value: u64) {
        let mut message = [0; 64];
        let (code, length) = library().write_wish(WishFields::of(which, 0, value), &mut message);
        assert_eq!((code, unit.feed(&message[..length]).code), (DONE, DONE));
    }

    /// Where packets of a client at this machine arrive, and the way there.
    fn receiver() -> (UdpSocket, Aerial) {
        let socket = UdpSocket::bind("127.0.0.1:0").unwrap();
        socket.set_nonblocking(true).unwrap();
        let here = socket.local_addr().unwrap();
        let client = "127.0.0.1:9".parse().unwrap();
        (socket, Aerial::new(client, here).unwrap())
    }

    /// A file of what arrived in time, as a recorder writes it.
    fn file(unit: &Unit, clock: u32, arrived: &[Vec<u8>]) -> Vec<u8> {
        let Settings { divisor, first, mode, size, setup, serial, .. } = unit.settings();
        let (_, mode) = library().head_mode(mode, setup);
        let head = Head { version: 2, divisor, frequency: first.frequency, mode, size, serial, clock };
        let mut file = vec![0; library().head_length(2)];
        assert_eq!(library().write_head(head, &mut file), DONE);
        let mut reader = Reader::new(head.channels());
        for packet in arrived {
            let mut next = reader;
            // a step of half a turn or more is one back
            let in_time = next.read(packet).is_ok_and(|place| place.missed < 30_000);
            if in_time && (packet[2..4] != [0, 0] || !reader.heard) {
                reader = next;
                file.extend(packet);
            }
        }
        file
    }

    /// Runs a capture for a while; the line that it ends with, and that of span on what arrived.
    fn lines(wishes: &[(u64, u64)], troubles: Troubles, meanwhile: impl Fn(&mut Unit)) -> (String, String) {
        let mut unit = told(wishes);
        let clock = unit.settings().clock;
        let (socket, aerial) = receiver();
        let mut source = Silence;
        let mut capture = Capture::begin(1, &unit, &mut source, troubles).unwrap();
        let mut arrived = vec![];
        let started = Instant::now();
        while started.elapsed() < Duration::from_millis(60) {
            std::thread::sleep(capture.wait().unwrap());
            capture.send_due(&mut unit, &mut source, &aerial);
            meanwhile(&mut unit);
            let mut packet = [0; 2000];
            while let Ok(length) = socket.recv(&mut packet) {
                arrived.push(packet[..length].to_vec());
            }
        }
        let line = capture.end(&unit).unwrap();
        let text = span::text(&file(&unit, clock, &arrived));
        (line, text.lines().nth(1).unwrap_or_default().into())
    }

    #[test]
    fn its_line_is_the_one_of_span() {
        let fast = [(SET_RATE, 1_000_000), (SET_SIZE, 1), (SET_STATE, RUN_24)];
        let two = [(SET_SETUP, 4), (SET_RATE, 500_000), (SET_STATE, 2)];
        let all = Troubles { lose: Some(20), repeat: Some(10), late: Some(10), seed: 5 };
        for (wishes, troubles) in [(fast, Troubles::default()), (fast, all), (two, all)] {
            let (ours, of_span) = lines(&wishes, troubles, |_| {});
            assert_eq!(ours, of_span);
            assert!(ours.starts_with("C 1 "), "{ours}");
        }
    }

    #[test]
    fn a_clock_that_is_set_meanwhile_is_not_the_lines() {
        let wishes = [(SET_CLOCK, 79_995_000), (SET_RATE, 2_000_000), (SET_STATE, RUN_24)];
        let (ours, of_span) = lines(&wishes, Troubles::default(), |unit| tell(unit, SET_CLOCK, 80_005_000));
        assert_eq!(ours, of_span);
    }

    #[test]
    fn a_refusal_ends_it_and_is_no_line() {
        let mut unit = told(&[(SET_STATE, RUN_24)]);
        let (_, aerial) = receiver();
        let mut capture = Capture::begin(1, &unit, &mut Silence, Troubles::default()).unwrap();
        unit.renew();
        std::thread::sleep(Duration::from_millis(5));
        capture.send_due(&mut unit, &mut Silence, &aerial);
        assert_eq!(capture.wait(), None);
        assert_eq!(capture.end(&unit), None);
    }
}
