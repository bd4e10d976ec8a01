//! Which of the packets that arrive are written: the one rule of `record` that is not the library's.
//!
//! The library gives a packet its position by its number alone. So it reads a packet that comes a second time, or behind a
//! later one, as the same number a turn further on, exactly as it would read a long loss (docs/PROTOCOL.md, "The number").
//! What tells the two apart is time: the box cannot have sent a packet before it had the samples for it.
//!
//! **The line.** The library says when a packet's first sample was taken, counted from the capture's start. Packets come
//! late, never early: one that arrives at t was taken by then, so the box was at least so far. The packet of the last
//! seconds that came earliest by that measure says best how far the box is, and the line through it goes on at the rate
//! that the box has. It is kept by absolute time, not from one packet to the next: after a stall of the recorder the kernel's
//! buffer gives out packets that lie far behind the line, quickly, and after them, where the buffer was too small, one that
//! lies on the line again, though hardly any time has passed since the last was read. "Of the last seconds" (a stretch of
//! [`STRETCH`] and the one before it) lets the line follow a box whose clock is off, and forget a path that has grown
//! longer. The first packet may come out of such a stall itself: for the first stretch the line goes through the moment when
//! the box was told to run, before which it cannot have sent any, but no more than a [`START_PART`]th of a turn before the
//! moment when the first one came, since a box may also take its time.
//!
//! **The rule.** A packet is read on a copy of the reader, and then
//!
//! - its position lies further ahead of the line than the slack, a [`SLACK_PART`]th of a turn: it cannot have been sent yet.
//!   It is late or repeated, is left out, and the reader stays as it was;
//! - the position a turn further on does not lie so far ahead: it may be meant as well, a whole turn may have been lost, and
//!   the position would be a guess. The recording ends;
//! - else it is written, and what lies between it and the last one is missed.
//!
//! A second packet numbered 0 is a repeat of the first where it comes within [`SOON`] of it; later it is a capture that this
//! recorder did not start. So is a run of nothing but late packets, [`SOON`] of them. Both end the recording.
//!
//! **How long a turn is** the library says too: a packet read twice in a row is a turn on.
//!
//! **Limits.** A packet that is late by a turn, or by several, less up to the slack, is taken for one that was sent just
//! now: of small packets of 24 bits at the highest rate one that comes 1.97 to 2.10 seconds late, with two channels 0.98 to
//! 1.05, and the later the lower the rate or the larger the packets are. So is one that is late by a few and comes behind a
//! gap of nearly a turn in which nothing else came. Where every packet of the last seconds came later than usual by more
//! than the slack, and then the network is as quick as ever and has lost what was on the way, the packets that follow lie too
//! far ahead, and the recording ends. A stall of the recorder or the network of nearly a turn or longer ends it too. In the
//! first seconds the slack is larger by what the line starts too early. A capture that another began is noticed only by the
//! two signs above.

use std::fmt;
use std::time::Duration;

use outside::boundary::{Library, ReaderBytes, Shape, READER_BYTES};
use outside::onair::library::DONE;
use outside::reader::Place;

/// How long the line keeps the earliest packet, and once more as long.
const STRETCH: Duration = Duration::from_secs(5);

/// What part of a turn a packet may lie ahead of the line: 131 ms where a turn takes least, 2.1 seconds with one channel. A
/// network whose queue was full for a while and is then thrown away comes earlier by as much as the queue was long.
const SLACK_PART: i64 = 16;

/// What part of a turn the line starts before the first packet came, at most.
const START_PART: i64 = 4;

/// When a second packet numbered 0 is still a repeat of the first, and how many late packets in a row are too many.
const SOON: Duration = Duration::from_secs(1);

/// What becomes of a packet.
#[derive(Clone, Copy, Debug, PartialEq, Eq)]
pub enum Verdict {
    Write,
    /// repeated, or behind a later one
    Late,
    /// none of this capture
    Stray,
    End(Why),
}

/// Why a recording ends.
#[derive(Clone, Copy, Debug, PartialEq, Eq)]
pub enum Why {
    BegunAgain,
    NothingButLate,
    TurnLost,
}

impl fmt::Display for Why {
    fn fmt(&self, f: &mut fmt::Formatter) -> fmt::Result {
        f.write_str(match self {
            Why::BegunAgain => "a packet numbered 0 came again: the box began a capture that this recorder did not start",
            Why::NothingButLate => {
                "for a second all packets had numbers that the box cannot have reached yet: it began another capture, this \
                 computer slept, or the network held packets back for long and then lost many"
            }
            Why::TurnLost => "a whole turn of the numbers may have been lost: a packet's position would be a guess",
        })
    }
}

/// What a capture's packets are like.
#[derive(Clone, Copy, Debug)]
pub struct Terms {
    pub shape: Shape,
    pub divisor: u32,
    pub clock: u32,
}

/// How far the box is, by the packets of the last seconds. Times in microseconds.
///
/// A packet's lead is the time in the capture at which its first sample was taken, less the time at which it arrived. The
/// line is the greatest of them: at time t the box has taken the samples up to t + lead.
struct Line {
    /// of the stretch before this one
    before: i64,
    /// of this stretch
    this: i64,
    /// when this stretch began
    began: i64,
}

impl Line {
    fn lead(&self) -> i64 {
        self.before.max(self.this)
    }

    fn note(&mut self, at: i64, lead: i64) {
        if at - self.began >= micros(STRETCH) {
            *self = Line { before: self.this, this: lead, began: at };
        } else {
            self.this = self.this.max(lead);
        }
    }
}

/// The packets of one capture as they arrive. Times are counted from just before the box was told to run.
pub struct Arriving {
    library: &'static (dyn Library + Sync),
    terms: Terms,
    reader: ReaderBytes,
    /// when the packet numbered 0 came
    first: Option<i64>,
    missed: u64,
    line: Line,
    /// how long the number takes to turn
    turn: Option<i64>,
    late_in_a_row: u64,
    /// the library's code, where it refused the last packet
    refused: Option<u8>,
}

impl Arriving {
    /// `None` where the library refuses the count of channels.
    pub fn new(library: &'static (dyn Library + Sync), terms: Terms) -> Option<Self> {
        let mut reader = [0; READER_BYTES];
        (library.silent(terms.shape.channels, &mut reader) == DONE).then_some(Arriving {
            library,
            terms,
            reader,
            first: None,
            missed: 0,
            line: Line { before: i64::MIN, this: i64::MIN, began: 0 },
            turn: None,
            late_in_a_row: 0,
            refused: None,
        })
    }

    /// Whether the capture's first packet has come.
    pub fn has_begun(&self) -> bool {
        self.first.is_some()
    }

    /// The library's code, where it refuses the packets that come.
    pub fn refused(&self) -> Option<u8> {
        self.refused
    }

    /// How long a turn of the number takes, once that is known.
    pub fn turn_takes(&self) -> Option<Duration> {
        self.turn.and_then(|turn| u64::try_from(turn).ok()).map(Duration::from_micros)
    }

    /// How many packets are missing among those written.
    pub fn missed(&self) -> u64 {
        self.missed
    }

    /// What becomes of the bytes that arrived at this time, from the box or from elsewhere.
    pub fn judge(&mut self, packet: &[u8], from_box: bool, at: Duration) -> Verdict {
        if !from_box || packet.len() != self.terms.shape.total {
            return Verdict::Stray;
        }
        let mut reader = self.reader;
        let (code, place) = self.library.read(&mut reader, packet);
        self.refused = Some(code).filter(|&code| code != DONE);
        if self.refused.is_some() {
            return Verdict::Stray;
        }
        let at = micros(at);
        let Some(taken) = self.taken_at(place) else { return Verdict::Stray };
        let lead = taken - at;
        let refused = match (place.position, self.first) {
            (0, None) => {
                self.first = Some(at);
                None
            }
            (0, Some(first)) if at - first <= micros(SOON) => Some(self.late()),
            (0, Some(_)) => Some(Verdict::End(Why::BegunAgain)),
            _ => match self.turn(&reader, packet, taken) {
                Some(turn) => self.refused_by_time(lead, turn),
                None => Some(Verdict::Stray),
            },
        };
        refused.unwrap_or_else(|| {
            self.reader = reader;
            self.missed = place.total;
            self.late_in_a_row = 0;
            self.line.note(at, lead);
            Verdict::Write
        })
    }

    /// The rule, of a packet behind the first.
    fn refused_by_time(&mut self, lead: i64, turn: i64) -> Option<Verdict> {
        let most = self.line.lead() + turn / SLACK_PART;
        if lead > most {
            Some(self.late())
        } else if lead + turn <= most {
            Some(Verdict::End(Why::TurnLost))
        } else {
            None
        }
    }

    fn late(&mut self) -> Verdict {
        self.late_in_a_row += 1;
        let each = self.library.end_time(self.terms.shape.pairs, self.terms.divisor, self.terms.clock).1;
        if self.late_in_a_row.saturating_mul(each) >= micros(SOON) as u64 {
            return Verdict::End(Why::NothingButLate);
        }
        Verdict::Late
    }

    /// When the box took a packet's first sample, since the capture's start.
    fn taken_at(&self, place: Place) -> Option<i64> {
        let (code, microseconds) = self.library.end_time(place.sample, self.terms.divisor, self.terms.clock);
        i64::try_from(microseconds).ok().filter(|_| code == DONE)
    }

    /// How long a turn takes: asked once, of a reader that has just read this packet, by reading it again.
    fn turn(&mut self, reader: &ReaderBytes, packet: &[u8], taken: i64) -> Option<i64> {
        if self.turn.is_none() {
            let (code, again) = self.library.read(&mut reader.clone(), packet);
            self.turn = self.taken_at(again).filter(|_| code == DONE).map(|later| later - taken);
            if let Some(turn) = self.turn {
                self.line.before = (self.line.this + turn / START_PART).min(0);
            }
        }
        self.turn
    }
}

/// Saturating: no recording lasts so long.
fn micros(time: Duration) -> i64 {
    i64::try_from(time.as_micros()).unwrap_or(i64::MAX)
}

#[cfg(test)]
mod tests;
