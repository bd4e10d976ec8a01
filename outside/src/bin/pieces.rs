//! Times feeding in pieces: the proved library against the plain Rust of this folder and plain C.
//!
//!     pieces [--quick]
//!
//! A program of its own, so that in `bench` feeding keeps its one caller in each language, and the compilers what they make
//! of that. What is lent to a call is a black box, as there.

use std::hint::black_box;

use outside::boundary::{Library, Plain, SETUP_AT, STATION_BYTES};
use outside::item::{SETUP_DUAL, SETUP_SINGLE};
use outside::talk::{frequencies, frequencies_of_both, Talk, MESSAGE, MESSAGES};
use outside::timing::{best, head, row, runners, Rooms};

#[cfg(not(proved))] // a name for what is then not called
use outside::boundary::Plain as Proved;
#[cfg(proved)]
use outside::proved::Proved;

#[cfg(peer)]
mod peer {
    extern "C" {
        pub fn peer_feed(
            state: *mut u8,
            bytes: usize,
            host: *const u8,
            n: usize,
            reply: *mut u8,
            room: usize,
            consumed: *mut usize,
            wrote: *mut usize,
        ) -> i32;
    }
}

/// The same talk in pieces of one size, each handed over by a call of its own with the box in bytes, as a program that
/// reads from a socket has to. Both peers keep the box in the same bytes between the calls.
fn feed_pieces(what: &str, talk: &Talk, setup: u8, size: usize, rounds: usize) {
    let (mut rooms, mut states) = (Rooms::new(talk.room()), Rooms::new(STATION_BYTES));
    let host = &talk.host[..];
    let mut fresh = [0; STATION_BYTES];
    Plain.fresh(b"MT123456", &mut fresh);
    fresh[SETUP_AT] = setup;
    let mut runners = runners(
        || by_pieces(host, size, &fresh, &mut states.proved, &mut rooms.proved, |s, h, r| Proved.feed(s, h, r)),
        || by_pieces(host, size, &fresh, &mut states.rust, &mut rooms.rust, |s, h, r| Plain.feed(s, h, r)),
        || by_pieces(host, size, &fresh, &mut states.c, &mut rooms.c, c_feed),
    );
    let found = best(&mut runners, MESSAGES as f64, rounds);
    drop(runners);
    rooms.agree(&found);
    states.agree(&found);
    row(what, &found, None);
}

/// How many bytes of reply a fresh box writes. A call answers code, bytes consumed, bytes of reply.
fn by_pieces(
    host: &[u8],
    size: usize,
    fresh: &[u8],
    state: &mut [u8],
    replies: &mut [u8],
    feed: impl Fn(&mut [u8], &[u8], &mut [u8]) -> (u8, usize, usize),
) -> u64 {
    let (state, replies, size) = (black_box(state), black_box(replies), black_box(size));
    state.copy_from_slice(fresh);
    let mut at = 0;
    for mut piece in host.chunks(size) {
        while !piece.is_empty() {
            let (code, consumed, wrote) = feed(state, piece, &mut replies[at..]);
            assert!(code < 2, "a message of the talk was answered with {code}");
            piece = &piece[consumed..];
            at += wrote;
        }
    }
    at as u64
}

#[cfg(peer)]
fn c_feed(state: &mut [u8], host: &[u8], reply: &mut [u8]) -> (u8, usize, usize) {
    let (mut consumed, mut wrote) = (0, 0);
    let code = unsafe {
        peer::peer_feed(
            state.as_mut_ptr(),
            state.len(),
            host.as_ptr(),
            host.len(),
            reply.as_mut_ptr(),
            reply.len(),
            &mut consumed,
            &mut wrote,
        )
    };
    (code as u8, consumed, wrote)
}

#[cfg(not(peer))]
fn c_feed(_: &mut [u8], _: &[u8], _: &mut [u8]) -> (u8, usize, usize) {
    (0, 0, 0)
}

fn main() {
    let quick = std::env::args().any(|word| word == "--quick");
    let rounds = if quick { 50 } else { 1000 };
    head("message, over the boundary");
    for (more, talk, setup) in
        [("", frequencies(), SETUP_SINGLE), (", for both channels", frequencies_of_both(), SETUP_DUAL)]
    {
        for (what, size) in
            [("feed, a message whole", MESSAGE), ("feed, in two pieces", MESSAGE / 2), ("feed, byte by byte", 1)]
        {
            feed_pieces(&format!("{what}{more}"), &talk, setup, size, rounds);
        }
    }
}
