//! The station: control over TCP, samples by UDP.
//!
//!     air [--listen ADDRESS[:PORT]] [--serial EIGHT] [SOURCE] [--lose N] [--repeat N] [--late N] [--seed N]
//!
//! `air --help` says what each word means. What a message is and what is answered, how a packet is cut and how long its
//! samples take is decided by the library; this program moves bytes between it, sockets and files.

mod aerial;
mod alive;
mod args;
mod capture;
mod control;
mod log;
mod pacing;
mod sending;
mod session;
mod source;
mod unit;

use std::io::{self, Write};
use std::process::ExitCode;
use std::sync::mpsc::RecvTimeoutError;

use outside::onair::library::{is_proved, library};
use outside::onair::signals::{asked_to_end, heed};
use outside::onair::words::Words;

use args::{Args, Asked};
use log::say;
use session::Session;
use unit::Unit;

/// Wrong words, and what else was wrong.
const WRONG_WORDS: u8 = 2;
const FAILED: u8 = 1;

fn main() -> ExitCode {
    let ended = match args::read(Words::of_command()) {
        Ok(Asked::Help) => io::stdout().write_all(args::USAGE.as_bytes()).map_err(|error| (FAILED, error.to_string())),
        Ok(Asked::Run(args)) => run(args),
        Err(words) => Err((WRONG_WORDS, words)),
    };
    match ended {
        Ok(()) => ExitCode::SUCCESS,
        Err((code, words)) => {
            say(words);
            ExitCode::from(code)
        }
    }
}

/// Runs the station until it is asked to end, or says why not, with the exit status of that.
fn run(args: Args) -> Result<(), (u8, String)> {
    let library = library();
    let unit = Unit::new(library, &args.serial).map_err(|code| {
        (WRONG_WORDS, format!("--serial {}: it may be eight of A-Z and 0-9 (code {code})", args.serial))
    })?;
    let source = source::open(args.source, library).map_err(|why| (WRONG_WORDS, why))?;
    heed();
    let (address, sender, events) = control::listen(args.listen)
        .map_err(|error| (FAILED, format!("it cannot listen on {}: {error}", args.listen)))?;
    if !is_proved() {
        say("built without the proved library: what decides here is not proved");
    }
    say(format_args!("listening on {address}"));
    let mut session = Session::new(unit, source, args.troubles, sender);
    while !asked_to_end() {
        match events.recv_timeout(session.wait()) {
            Ok(event) => session.heed(event),
            Err(RecvTimeoutError::Timeout) => {}
            // the session has a sender itself, so that this does not come
            Err(RecvTimeoutError::Disconnected) => break,
        }
        session.go_on();
    }
    session.end();
    say("ended");
    Ok(())
}
