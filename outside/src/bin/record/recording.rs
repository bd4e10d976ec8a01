//! A recording from the run wish to the last packet: threads that receive, write and feed span, and this one, which
//! watches the control connection, says a line each second and knows when it is time.

use std::fmt::Display;
use std::net::{IpAddr, UdpSocket};
use std::path::PathBuf;
use std::sync::mpsc::{channel, Sender};
use std::sync::Arc;
use std::thread::{self, JoinHandle};
use std::time::{Duration, Instant, SystemTime, UNIX_EPOCH};

use outside::onair::library::library;
use outside::onair::signals;

use crate::args::{End, Wanted};
use crate::arriving::{Arriving, Terms};
use crate::batch::{Batch, Free};
use crate::file::CaptureFile;
use crate::keeper::Keeper;
use crate::moment;
use crate::receiving::{Over, Receiving};
use crate::say::say;
use crate::socket;
use crate::spanning::Spanning;
use crate::state::{Counts, Stage, State};
use crate::talk::{Talk, Watched};
use crate::wishes;
use crate::writing::{Writing, Written};

/// The longest time until it is looked whether the recording has ended.
const LOOK: Duration = Duration::from_millis(100);

const SECOND: Duration = Duration::from_secs(1);

/// What a recording needs besides the connection to a box that has been set.
pub struct Prepared {
    pub socket: UdpSocket,
    /// the box's address
    pub from: IpAddr,
    pub head: Vec<u8>,
    pub terms: Terms,
}

/// How it went, and the capture's line where the span program gave one.
pub struct Recorded {
    pub as_asked: bool,
    pub line: Option<String>,
}

/// Why a recording ends.
enum Ended {
    AsAsked(&'static str),
    Closed,
    /// one of the threads has ended and knows why
    ByThread,
}

/// Makes the file and records into it. An error is one before the box has said that it runs; then no file is left.
pub fn record(talk: &mut Talk, wanted: &Wanted, prepared: Prepared) -> Result<Recorded, String> {
    let each = prepared.terms.shape.total;
    let (file, provisional) = CaptureFile::create(&wanted.file, &prepared.head, each)
        .map_err(|error| format!("{} cannot be made: {error}", wanted.file.display()))?;
    let keeper = file
        .handle()
        .and_then(|handle| Keeper::start(handle, prepared.head.len(), each))
        .map_err(|error| format!("the keeper of the file cannot be started: {error}"))?;
    let state = Arc::new(State::default());
    let threads = Threads::start(prepared, file, &state)?;
    if let Err(why) = talk.ask(&wishes::run(wanted)) {
        state.enter(Stage::Over);
        // it may run all the same
        let _ = talk.stop();
        drop(threads.join());
        keeper.end();
        return Err(why);
    }
    provisional.keep();
    state.enter(Stage::Running);
    if let End::At(moment) = wanted.end {
        say(format_args!("until {}", moment::written(moment)));
    }

    let watch = Watch { end: wanted.end, replied: Instant::now(), state: &state, threads: &threads };
    let ended = watch.until_it_ends(talk);
    state.enter(Stage::Stopping);
    let runs_on = stop(talk, &ended).err();
    state.enter(Stage::Ending);
    let (received, written) = threads.join()?;
    let unsynced = written.file.sync().err();
    drop(written.file);
    keeper.end();

    let unsynced = unsynced.map(|error| format!("the file may not be on the disk: {error}"));
    let troubles = [written.trouble, trouble_of(&ended, received), runs_on, unsynced];
    let as_asked = report(&state.counts(), &ended, troubles.into_iter().flatten().collect());
    Ok(Recorded { as_asked, line: written.spanning.and_then(Spanning::end) })
}

/// Stops the box, where there is a way to tell it.
fn stop(talk: &mut Talk, ended: &Ended) -> Result<(), String> {
    match ended {
        Ended::Closed => Ok(()),
        Ended::AsAsked(_) | Ended::ByThread => talk.stop().map_err(|why| format!("the box may run on: {why}")),
    }
}

fn trouble_of(ended: &Ended, received: Over) -> Option<String> {
    match (ended, received) {
        (_, Over::Trouble(why)) => Some(why),
        (Ended::Closed, Over::AsAsked) => Some("the box closed the control connection".into()),
        (Ended::AsAsked(_) | Ended::ByThread, Over::AsAsked) => None,
    }
}

/// The last words, but the capture's line; whether it went as asked.
fn report(counts: &Counts, ended: &Ended, mut troubles: Vec<String>) -> bool {
    say(status(counts, None));
    if counts.stray > 0 {
        say(format_args!("{} packets were none of this capture and were not written", counts.stray));
    }
    if troubles.is_empty() && counts.heard == 0 {
        troubles.push("no packet was heard".into());
    }
    troubles.iter().for_each(say);
    if let (Ended::AsAsked(why), true) = (ended, troubles.is_empty()) {
        say(why);
    }
    troubles.is_empty()
}

/// The threads that packets go through.
struct Threads {
    receiving: JoinHandle<Over>,
    writing: JoinHandle<Written>,
}

impl Threads {
    /// Before the box is told to run: packets may come before its reply.
    fn start(prepared: Prepared, file: CaptureFile, state: &Arc<State>) -> Result<Self, String> {
        let each = prepared.terms.shape.total;
        let (free, back) = Free::new(each);
        let (full, batches) = channel();
        let spanning = start_span(&prepared.head, &back);
        let writing = Writing { full: batches, file, spanning, free: back, each, state: state.clone() };
        let writing = named("write", || writing.run())?;
        let arriving =
            Arriving::new(library(), prepared.terms).ok_or("the library has no reader for this count of channels")?;
        socket::drain(&prepared.socket).map_err(|error| format!("packets cannot be received: {error}"))?;
        let receiving = Receiving {
            socket: prepared.socket,
            from: prepared.from.to_canonical(),
            arriving,
            start: Instant::now(),
            free,
            full,
            state: state.clone(),
        };
        Ok(Threads { receiving: named("receive", || receiving.run())?, writing })
    }

    fn join(self) -> Result<(Over, Written), String> {
        let failed = |_| "a thread failed".to_string();
        // the writing thread ends behind the receiving one, whose batches it takes
        Ok((self.receiving.join().map_err(failed)?, self.writing.join().map_err(failed)?))
    }

    fn one_has_ended(&self) -> bool {
        self.receiving.is_finished() || self.writing.is_finished()
    }
}

fn named<T: Send + 'static>(name: &str, run: impl FnOnce() -> T + Send + 'static) -> Result<JoinHandle<T>, String> {
    thread::Builder::new().name(name.into()).spawn(run).map_err(|error| format!("no thread can be started: {error}"))
}

/// The span program: the one that SPAN_PROGRAM names, or the one beside this program.
fn span_program() -> Option<PathBuf> {
    std::env::var_os("SPAN_PROGRAM")
        .map(PathBuf::from)
        .or_else(|| Some(std::env::current_exe().ok()?.with_file_name("span")))
}

/// The span program, with the head given to it. The recording goes on without where it cannot be had.
fn start_span(head: &[u8], back: &Sender<Batch>) -> Option<Spanning> {
    let program = span_program()?;
    match Spanning::start(&program, head, back.clone()) {
        Ok(spanning) => Some(spanning),
        Err(error) => {
            let program = program.display();
            say(format_args!("{program} cannot be started: {error}; there will be no line with the capture's span"));
            None
        }
    }
}

/// A recording that goes on.
struct Watch<'a> {
    end: End,
    /// when the box said that it runs
    replied: Instant,
    state: &'a State,
    threads: &'a Threads,
}

impl Watch<'_> {
    fn until_it_ends(&self, talk: &mut Talk) -> Ended {
        let mut line = self.replied + SECOND;
        loop {
            if self.threads.one_has_ended() {
                return Ended::ByThread;
            }
            if signals::asked_to_end() {
                return Ended::AsAsked("asked to end");
            }
            let left = self.left();
            if left.is_some_and(|left| left.is_zero()) {
                return Ended::AsAsked("the time is up");
            }
            let now = Instant::now();
            if now >= line {
                say(status(&self.state.counts(), left));
                // a line that was missed is not made up for
                while line <= now {
                    line += SECOND;
                }
            }
            let wait = LOOK.min(line - now).min(left.unwrap_or(LOOK));
            if talk.watch(wait) == Watched::Closed {
                return Ended::Closed;
            }
        }
    }

    /// How long it goes on, where that was asked for.
    fn left(&self) -> Option<Duration> {
        match self.end {
            End::Never => None,
            End::After(time) => Some(time.saturating_sub(self.replied.elapsed())),
            End::At(moment) => {
                // by the clock on the wall, also when it is set meanwhile
                let now = SystemTime::now().duration_since(UNIX_EPOCH).unwrap_or_default();
                Some(Duration::from_secs(moment).saturating_sub(now))
            }
        }
    }
}

fn status(counts: &Counts, left: Option<Duration>) -> impl Display {
    let Counts { heard, missed, late, bytes, .. } = counts;
    let left = left.map_or(String::new(), |left| format!(", {:.0} s left", left.as_secs_f64()));
    format!("heard {heard}, missed {missed}, late {late}, {bytes} bytes{left}")
}

#[cfg(test)]
mod tests {
    use super::*;

    #[test]
    fn status_lines() {
        let counts = Counts { heard: 31_250, missed: 0, bytes: 12_125_026, late: 0, stray: 3 };
        let line = |left| status(&counts, left).to_string();
        assert_eq!(line(None), "heard 31250, missed 0, late 0, 12125026 bytes");
        let left = Duration::from_millis(58_990);
        assert_eq!(line(Some(left)), "heard 31250, missed 0, late 0, 12125026 bytes, 59 s left");
    }
}
