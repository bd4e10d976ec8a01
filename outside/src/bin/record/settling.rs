//! The box is set as wanted, wish by wish, and what it replies makes the capture's head.

use outside::boundary::{Library, Shape};
use outside::head::VERSION_2;
use outside::onair::library::DONE;
use outside::Head;

use crate::args::Wanted;
use crate::arriving::Terms;
use crate::say::say;
use crate::talk::Talk;
use crate::wishes;

/// A box that is set and idle.
pub struct Settled {
    pub head: Vec<u8>,
    pub terms: Terms,
}

/// Stops the box, so that it takes what it would not while it runs, and sets it.
pub fn settle(talk: &mut Talk, wanted: &Wanted, library: &dyn Library) -> Result<Settled, String> {
    talk.ask(&wishes::idle())?;
    let name = ask_name(talk)?;
    let serial = talk.ask(&wishes::serial())?.0.first.to_le_bytes();
    say(format_args!("{name} {}", String::from_utf8_lossy(&serial)));
    for wish in wishes::tuning(wanted) {
        talk.ask(&wish)?;
    }
    let rate = ask_number(talk, &wishes::rate(wanted))?;
    talk.ask(&wishes::size(wanted))?;
    let clock = ask_number(talk, &wishes::clock())?;

    let divisor = library.divisor(rate);
    if divisor == 0 {
        return Err(format!("no box samples at the rate that it replied, {rate} a second"));
    }
    let (mode, shape) = shape_of(wanted, library)?;
    let frequency = wanted.first.hertz;
    let head = Head { version: VERSION_2, divisor, frequency, mode, size: wanted.size, serial, clock };
    tell(wanted, &shape, &head, rate);
    Ok(Settled { head: head_bytes(head, library)?, terms: Terms { shape, divisor, clock } })
}

/// The name, as it stands at the reply's end: so many bytes, of which the last is zero.
fn ask_name(talk: &mut Talk) -> Result<String, String> {
    let (said, bytes) = talk.ask(&wishes::name())?;
    let name = bytes.get(bytes.len().saturating_sub(said.count)..).unwrap_or_default();
    Ok(String::from_utf8_lossy(name).trim_end_matches('\0').into())
}

fn ask_number(talk: &mut Talk, wish: &wishes::Wish) -> Result<u32, String> {
    let said = talk.ask(wish)?.0;
    u32::try_from(said.first).map_err(|_| format!("no reply of a box to {}: {}", wish.says, said.first))
}

/// The head's mode byte, and how the packets are laid out.
fn shape_of(wanted: &Wanted, library: &dyn Library) -> Result<(u8, Shape), String> {
    let (code, mode) = library.head_mode(wanted.mode, wishes::setup_of(wanted));
    if code != DONE {
        return Err(format!("no head has this mode (code {code})"));
    }
    match library.shape(mode, wanted.size) {
        (DONE, shape) => Ok((mode, shape)),
        (code, _) => Err(format!("no packets are laid out so (code {code})")),
    }
}

fn head_bytes(head: Head, library: &dyn Library) -> Result<Vec<u8>, String> {
    let mut bytes = vec![0; library.head_length(head.version)];
    match library.write_head(head, &mut bytes) {
        DONE => Ok(bytes),
        code => Err(format!("no head can be written (code {code})")),
    }
}

fn tell(wanted: &Wanted, shape: &Shape, head: &Head, rate: u32) {
    let Head { frequency, divisor, clock, .. } = head;
    let Shape { bits, total, .. } = shape;
    say(format_args!(
        "{frequency} Hz, {} dB; {rate} samples a second (D = {divisor}) where {} were asked for; {bits} bits, packets of \
         {total} bytes; clock {clock} Hz",
        wanted.first.gain, wanted.rate
    ));
    if let Some(second) = wanted.second {
        say(format_args!("second channel: {} Hz, {} dB (it stands in no head: keep it)", second.hertz, second.gain));
    }
}
