//! The lines of the span program, for an input that is there as a whole.

use std::fmt::Write;

use crate::code::Code;
use crate::head::Head;
use crate::packet::Form;
use crate::reader::{Place, Reader};

/// A capture that has begun.
struct Capture {
    packets: u64,
    last: Place,
}

pub fn text(input: &[u8]) -> String {
    let mut out = String::from("SPAN 1\n");
    let head = match Head::read(input) {
        Ok(head) => head,
        Err(code) => {
            refuse(&mut out, code, 0);
            return out;
        }
    };
    let mut captures = 0;
    let mut open: Option<Capture> = None;
    let mut reader = Reader::new(head.channels());
    let mut rest = &input[head.length()..];
    while !rest.is_empty() {
        match next_packet(&head, &mut reader, rest) {
            Ok(place) if place.position == 0 => {
                if let Some(capture) = open.take() {
                    line(&mut out, &head, captures, &capture);
                }
                captures += 1;
                open = Some(Capture { packets: 1, last: place });
            }
            Ok(place) => {
                if let Some(capture) = &mut open {
                    capture.packets += 1;
                    capture.last = place;
                }
            }
            Err(code) => {
                if let Some(capture) = &open {
                    line(&mut out, &head, captures, capture);
                }
                refuse(&mut out, code, input.len() - rest.len());
                return out;
            }
        }
        rest = &rest[head.form().total()..];
    }
    if let Some(capture) = &open {
        line(&mut out, &head, captures, capture);
    }
    let _ = writeln!(out, "E {captures}");
    out
}

fn next_packet(head: &Head, reader: &mut Reader, rest: &[u8]) -> Result<Place, Code> {
    let &[low, high, ..] = rest else { return Err(Code::NotAPacket) };
    let form = Form::of_header([low, high]).ok_or(Code::NotAPacket)?;
    let packet = rest.get(..form.total()).ok_or(Code::NotAPacket)?;
    if form != head.form() {
        return Err(Code::FormChanged);
    }
    reader.read(packet)
}

/// A capture's line. Pairs, samples and end time are those of each channel.
fn line(out: &mut String, head: &Head, number: u64, capture: &Capture) {
    let form = head.form();
    let pairs = form.pairs_each(head.channels());
    let positions = capture.last.position + 1;
    let samples = positions * pairs;
    let _ = writeln!(
        out,
        "C {number} {} {pairs} {} {positions} {samples} {} {}",
        form.bits,
        capture.packets,
        end_time(samples, head.divisor, head.clock),
        capture.last.total,
    );
}

/// The end of so many samples in microseconds, rounded down: a sample lasts 4 D ticks of the clock.
pub fn end_time(samples: u64, divisor: u32, clock: u32) -> u64 {
    // of a long capture the product has more than 64 bits, the quotient never
    (u128::from(samples) * 4 * u128::from(divisor) * 1_000_000 / u128::from(clock)) as u64
}

fn refuse(out: &mut String, code: Code, offset: usize) {
    let _ = writeln!(out, "R {} {offset}", code as u8);
}
