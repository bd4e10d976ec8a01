//! record, the night recorder: tells a NetSDR (or `air`) where to tune and how fast to sample, writes the packets that arrive
//! into a capture file, and stops the box when it is time. `record --help` says how it is called.
//!
//! It moves bytes between sockets, files and the library, and every decision of the protocol is the library's. Its own is only
//! which packets are late: see `arriving`.

mod args;
mod arriving;
mod batch;
mod file;
mod keeper;
mod moment;
mod receiving;
mod recording;
mod say;
mod settling;
mod socket;
mod spanning;
mod state;
mod talk;
mod wishes;
mod writing;

use std::io::{stdout, Write};
use std::process::ExitCode;
use std::time::{SystemTime, UNIX_EPOCH};

use outside::onair::library::{is_proved, library};
use outside::onair::signals;
use outside::onair::words::Words;

use args::{Asked, Wanted, USAGE};
use recording::Prepared;
use say::say;
use talk::Talk;

/// What it ends with where a word is not allowed.
const WRONG_WORD: u8 = 2;

fn main() -> ExitCode {
    if let Some(code) = keeper::called() {
        return code;
    }
    let now = SystemTime::now().duration_since(UNIX_EPOCH).map_or(0, |time| time.as_secs());
    match args::read(Words::of_command(), now) {
        Ok(Asked::Help) => print(USAGE),
        Ok(Asked::Record(wanted)) => match may_begin(&wanted) {
            Ok(()) => run(&wanted),
            Err(why) => wrong_word(&why),
        },
        Err(why) => wrong_word(&why),
    }
}

fn wrong_word(why: &str) -> ExitCode {
    say(format_args!("{why} (record --help tells more)"));
    ExitCode::from(WRONG_WORD)
}

/// Whether all that is wanted can be, as far as that is known before anything is opened.
fn may_begin(wanted: &Wanted) -> Result<(), String> {
    wishes::check(wanted, library())?;
    if wanted.file.symlink_metadata().is_ok() {
        return Err(format!("{} is there already: a capture is never overwritten", wanted.file.display()));
    }
    Ok(())
}

fn run(wanted: &Wanted) -> ExitCode {
    if !is_proved() {
        say("built without the proved library: the plain one decides");
    }
    signals::heed();
    match record(wanted) {
        Ok(recorded) => {
            let printed = recorded.line.map_or(ExitCode::SUCCESS, |line| print(&format!("{line}\n")));
            if recorded.as_asked {
                printed
            } else {
                ExitCode::FAILURE
            }
        }
        Err(why) => {
            say(why);
            say("nothing is recorded");
            ExitCode::FAILURE
        }
    }
}

fn record(wanted: &Wanted) -> Result<recording::Recorded, String> {
    let mut talk = Talk::connect(library(), &wanted.host, wanted.port)?;
    let (here, there) = talk.addresses().map_err(|error| format!("the connection failed: {error}"))?;
    let socket = socket::bind(here, there.port())?;
    let settled = settling::settle(&mut talk, wanted, library())?;
    let prepared = Prepared { socket, from: there.ip(), head: settled.head, terms: settled.terms };
    recording::record(&mut talk, wanted, prepared)
}

/// Prints on standard output.
fn print(text: &str) -> ExitCode {
    match stdout().lock().write_all(text.as_bytes()).and_then(|()| stdout().flush()) {
        Ok(()) => ExitCode::SUCCESS,
        Err(error) => {
            say(format_args!("standard output cannot be written: {error}"));
            ExitCode::FAILURE
        }
    }
}
