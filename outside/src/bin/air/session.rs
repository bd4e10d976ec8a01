//! The box and its client: bytes in, replies out, captures on the air.

use std::io::{self, Write};
use std::net::{SocketAddr, TcpStream};
use std::sync::mpsc::SyncSender;
use std::time::{Duration, Instant};

use outside::onair::library::DONE;

use crate::capture::Capture;
use crate::control::{Client, Event, Why};
use crate::log::say;
use crate::sending::Troubles;
use crate::source::Source;
use crate::unit::Unit;

/// So long another client waits before it is turned away: who ends one connection and begins the next may be heard of
/// in the other order.
const GRACE: Duration = Duration::from_millis(100);

/// A radio program's messages are answered one by one. Of a piece that has more the rest is answered together: it is
/// rubbish, and a write for each would take a hundred times as long.
const ONE_BY_ONE: u64 = 16;

/// The longest time until the main loop looks whether it was asked to end.
const LONGEST_WAIT: Duration = Duration::from_millis(100);

pub struct Session {
    unit: Unit,
    source: Box<dyn Source>,
    troubles: Troubles,
    events: SyncSender<Event>,
    /// clients so far
    clients: u64,
    client: Option<Client>,
    /// another one, and until when it waits
    other: Option<(TcpStream, SocketAddr, Instant)>,
    /// of this client
    captures: u64,
    capture: Option<Capture>,
}

impl Session {
    pub fn new(unit: Unit, source: Box<dyn Source>, troubles: Troubles, events: SyncSender<Event>) -> Self {
        Session { unit, source, troubles, events, clients: 0, client: None, other: None, captures: 0, capture: None }
    }

    /// How long there is nothing to do, if nothing comes.
    pub fn wait(&self) -> Duration {
        let capture = self.capture.as_ref().and_then(Capture::wait);
        let other = self.other.as_ref().map(|(_, _, until)| until.saturating_duration_since(Instant::now()));
        [capture, other].into_iter().flatten().fold(LONGEST_WAIT, Duration::min)
    }

    /// Does what is due by now.
    pub fn go_on(&mut self) {
        if let (Some(capture), Some(client)) = (&mut self.capture, &self.client) {
            capture.send_due(&mut self.unit, self.source.as_mut(), client.aerial());
        }
        if self.other.as_ref().is_some_and(|(_, _, until)| *until <= Instant::now()) {
            if let Some((_, address, _)) = self.other.take() {
                turn_away(address);
            }
        }
    }

    pub fn heed(&mut self, event: Event) {
        match event {
            Event::Came(stream, address) if self.client.is_none() => self.take_on(stream, address),
            Event::Came(stream, address) if self.other.is_none() => {
                self.other = Some((stream, address, Instant::now() + GRACE));
            }
            Event::Came(_, address) => turn_away(address),
            Event::Bytes(number, bytes) if self.is_here(number) => {
                if let Err(why) = self.feed(&bytes) {
                    self.leave(&why);
                }
            }
            Event::Gone(number, why) if self.is_here(number) => self.leave(&why),
            // of a client that was dropped before
            Event::Bytes(..) | Event::Gone(..) => {}
        }
    }

    /// Ends the capture and lets the client go; the box is fresh again.
    fn leave(&mut self, why: &str) {
        self.end_capture();
        if let Some(client) = self.client.take() {
            say(format_args!("client gone {}: {why}; {} messages refused", client.address, client.refused));
        }
        self.unit.renew();
        self.captures = 0;
        if let Some((stream, address, _)) = self.other.take() {
            self.take_on(stream, address);
        }
    }

    /// Lets all go.
    pub fn end(&mut self) {
        self.other = None;
        self.leave("air ends");
    }

    fn is_here(&self, number: u64) -> bool {
        self.client.as_ref().is_some_and(|client| client.number == number)
    }

    fn take_on(&mut self, stream: TcpStream, address: SocketAddr) {
        self.clients += 1;
        match Client::take_on(self.clients, stream, address, self.events.clone()) {
            Ok(client) => {
                say(format_args!("client {address}"));
                self.client = Some(client);
            }
            Err(error) => say(format_args!("client {address} could not be taken on: {error}")),
        }
    }

    /// Feeds the box all of a piece. A start or an end of running is looked for behind each message, for a piece may hold
    /// both.
    fn feed(&mut self, bytes: &[u8]) -> Result<(), Why> {
        let mut rest = bytes;
        let (mut count, mut together) = (0, vec![]);
        while !rest.is_empty() {
            let Some(client) = &mut self.client else { return Ok(()) };
            let fed = self.unit.feed(rest);
            if fed.consumed == 0 {
                return Err(format!("the box takes no more, code {}", fed.code));
            }
            rest = rest.get(fed.consumed..).unwrap_or(&[]);
            if !fed.reply.is_empty() {
                count += 1;
                client.refused += u64::from(fed.code != DONE);
                if count <= ONE_BY_ONE {
                    client.send(fed.reply)?;
                } else {
                    together.extend_from_slice(fed.reply);
                }
            }
            self.follow();
        }
        self.client.as_mut().map_or(Ok(()), |client| client.send(&together))
    }

    /// Begins or ends a capture where the box has begun or ended to run.
    fn follow(&mut self) {
        match (self.unit.is_running(), self.capture.is_some()) {
            (true, false) => self.begin_capture(),
            (false, true) => self.end_capture(),
            _ => {}
        }
    }

    fn begin_capture(&mut self) {
        self.captures += 1;
        match Capture::begin(self.captures, &self.unit, self.source.as_mut(), self.troubles) {
            Ok(capture) => self.capture = Some(capture),
            Err(code) => say(format_args!("capture {} is refused with code {code}", self.captures)),
        }
    }

    fn end_capture(&mut self) {
        let Some(line) = self.capture.take().and_then(|capture| capture.end(&self.unit)) else { return };
        let mut out = io::stdout();
        if let Err(error) = out.write_all(format!("{line}\n").as_bytes()).and_then(|()| out.flush()) {
            say(format_args!("a line could not be written: {error}: {line}"));
        }
    }
}

fn turn_away(address: SocketAddr) {
    say(format_args!("turned away {address}: one client at a time"));
}
