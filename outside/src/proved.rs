//! The proved library, as the crates `boxdoor`, `harvestdoor`, `airdoor`, `talks` and `runs` export it.

use std::io::Write;
use std::process::{Command, Stdio};

use crate::boundary::{Library, Said, Shape, WishFields};
use crate::head::Head;
use crate::packet::Form;
use crate::random::Random;
use crate::reader::Place;

/// The exports of the crates `boxdoor`, `harvestdoor`, `airdoor`, `talks` and `runs`.
mod door {
    extern "C" {
        pub fn skvornela_fresh(serial: *const u8, serial_len: usize, state: *mut u8, state_len: usize) -> u8;
        pub fn skvornela_feed(
            state: *mut u8,
            state_len: usize,
            host: *const u8,
            host_len: usize,
            reply: *mut u8,
            reply_len: usize,
            consumed: *mut usize,
            wrote: *mut usize,
        ) -> u8;
        pub fn skvornela_word(state: *const u8, state_len: usize, channel: u8, word: *mut u32) -> u8;
        pub fn skvornela_cut(
            state: *mut u8,
            state_len: usize,
            samples: *const i32,
            samples_len: usize,
            packet: *mut u8,
            packet_len: usize,
            wrote: *mut usize,
        ) -> u8;
        pub fn skvornela_silent(channels: u8, reader: *mut u8, reader_len: usize) -> u8;
        pub fn skvornela_read(
            reader: *mut u8,
            reader_len: usize,
            packet: *const u8,
            packet_len: usize,
            position: *mut u64,
            sample: *mut u64,
            missed: *mut u64,
            total: *mut u64,
        ) -> u8;
        pub fn skvornela_sample_byte(packet: *const u8, packet_len: usize, place: usize, byte: *mut u8) -> usize;
        pub fn skvornela_unpack(
            packet: *const u8,
            packet_len: usize,
            numbers: *mut i32,
            numbers_len: usize,
            count: *mut usize,
        ) -> u8;
        pub fn skvornela_wish(
            which: u8,
            byte: u8,
            mode: u8,
            gain: i8,
            word: u32,
            hertz: u64,
            channel: u8,
            buffer: *mut u8,
            buffer_len: usize,
            wrote: *mut usize,
        ) -> u8;
        pub fn skvornela_head_write(
            version: u32,
            divisor: u32,
            frequency: u64,
            mode: u8,
            size: u8,
            serial: u64,
            clock: u32,
            buffer: *mut u8,
            buffer_len: usize,
        ) -> u8;
        pub fn skvornela_head_read(
            bytes: *const u8,
            bytes_len: usize,
            version: *mut u32,
            divisor: *mut u32,
            frequency: *mut u64,
            mode: *mut u8,
            size: *mut u8,
            serial: *mut u64,
            clock: *mut u32,
        ) -> u8;
        pub fn skvornela_head_newer(bytes: *const u8, bytes_len: usize, buffer: *mut u8, buffer_len: usize) -> u8;
        pub fn skvornela_head_older(bytes: *const u8, bytes_len: usize, buffer: *mut u8, buffer_len: usize) -> u8;
        pub fn skvornela_reply(
            which: u8,
            byte: u8,
            mode: u8,
            gain: i8,
            word: u32,
            hertz: u64,
            channel: u8,
            bytes: *const u8,
            bytes_len: usize,
            item: *mut u16,
            count: *mut usize,
            first: *mut u64,
            second: *mut u64,
            level: *mut i8,
        ) -> u8;
        pub fn skvornela_serve(host: *const u8, host_len: usize, replies: *mut u8, replies_len: usize) -> usize;
        pub fn skvornela_cut_run(
            mode: u8,
            size: u8,
            setup: u8,
            n: usize,
            total: usize,
            samples: *const i32,
            samples_len: usize,
            packets: *mut u8,
            packets_len: usize,
        ) -> usize;
        pub fn skvornela_read_run(
            channels: u8,
            packets: *const u8,
            packets_len: usize,
            each: usize,
            total: *mut u64,
        ) -> u64;
        pub fn skvornela_head_mode(mode: u8, setup: u8, byte: *mut u8) -> u8;
        pub fn skvornela_head_length(version: u32) -> usize;
        pub fn skvornela_shape(
            mode: u8,
            size: u8,
            channels: *mut u8,
            bits: *mut u64,
            pairs: *mut u64,
            numbers: *mut usize,
            total: *mut usize,
        ) -> u8;
        pub fn skvornela_divisor(rate: u32) -> u32;
        pub fn skvornela_message(bytes: *const u8, bytes_len: usize) -> usize;
        pub fn skvornela_end_time(samples: u64, divisor: u32, clock: u32, microseconds: *mut u64) -> u8;
    }
}

/// Calls go to the archive that was linked in.
pub struct Proved;

impl Library for Proved {
    fn fresh(&self, serial: &[u8], state: &mut [u8]) -> u8 {
        unsafe { door::skvornela_fresh(serial.as_ptr(), serial.len(), state.as_mut_ptr(), state.len()) }
    }

    fn feed(&self, state: &mut [u8], host: &[u8], reply: &mut [u8]) -> (u8, usize, usize) {
        let (mut consumed, mut wrote) = (usize::MAX, usize::MAX);
        let code = unsafe {
            door::skvornela_feed(
                state.as_mut_ptr(),
                state.len(),
                host.as_ptr(),
                host.len(),
                reply.as_mut_ptr(),
                reply.len(),
                &mut consumed,
                &mut wrote,
            )
        };
        (code, consumed, wrote)
    }

    fn word(&self, state: &[u8], channel: u8) -> (u8, u64) {
        let mut word = u32::MAX;
        let code = unsafe { door::skvornela_word(state.as_ptr(), state.len(), channel, &mut word) };
        (code, word.into())
    }

    fn cut(&self, state: &mut [u8], samples: &[i32], packet: &mut [u8]) -> (u8, usize) {
        let mut wrote = usize::MAX;
        let code = unsafe {
            door::skvornela_cut(
                state.as_mut_ptr(),
                state.len(),
                samples.as_ptr(),
                samples.len(),
                packet.as_mut_ptr(),
                packet.len(),
                &mut wrote,
            )
        };
        (code, wrote)
    }

    fn silent(&self, channels: u8, reader: &mut [u8]) -> u8 {
        unsafe { door::skvornela_silent(channels, reader.as_mut_ptr(), reader.len()) }
    }

    fn read(&self, reader: &mut [u8], packet: &[u8]) -> (u8, Place) {
        let mut place = Place { position: u64::MAX, sample: u64::MAX, missed: u64::MAX, total: u64::MAX };
        let code = unsafe {
            door::skvornela_read(
                reader.as_mut_ptr(),
                reader.len(),
                packet.as_ptr(),
                packet.len(),
                &mut place.position,
                &mut place.sample,
                &mut place.missed,
                &mut place.total,
            )
        };
        (code, place)
    }

    fn sample_byte(&self, packet: &[u8], place: usize) -> (usize, u8) {
        let mut byte = u8::MAX;
        let count = unsafe { door::skvornela_sample_byte(packet.as_ptr(), packet.len(), place, &mut byte) };
        (count, byte)
    }

    fn unpack(&self, packet: &[u8], numbers: &mut [i32]) -> (u8, usize) {
        let mut count = usize::MAX;
        let code = unsafe {
            door::skvornela_unpack(packet.as_ptr(), packet.len(), numbers.as_mut_ptr(), numbers.len(), &mut count)
        };
        (code, count)
    }

    fn write_wish(&self, fields: WishFields, buffer: &mut [u8]) -> (u8, usize) {
        let mut wrote = usize::MAX;
        let code = unsafe {
            door::skvornela_wish(
                fields.which,
                fields.byte,
                fields.mode,
                fields.gain,
                fields.word,
                fields.hertz,
                fields.channel,
                buffer.as_mut_ptr(),
                buffer.len(),
                &mut wrote,
            )
        };
        (code, wrote)
    }

    fn read_reply(&self, fields: WishFields, bytes: &[u8]) -> (u8, Said) {
        let mut said = Said { item: u16::MAX, count: usize::MAX, first: u64::MAX, second: u64::MAX, gain: i8::MAX };
        let code = unsafe {
            door::skvornela_reply(
                fields.which,
                fields.byte,
                fields.mode,
                fields.gain,
                fields.word,
                fields.hertz,
                fields.channel,
                bytes.as_ptr(),
                bytes.len(),
                &mut said.item,
                &mut said.count,
                &mut said.first,
                &mut said.second,
                &mut said.gain,
            )
        };
        (code, said)
    }

    /// The serial crosses as the number of its eight bytes, the least significant first.
    fn write_head(&self, head: Head, buffer: &mut [u8]) -> u8 {
        unsafe {
            door::skvornela_head_write(
                head.version,
                head.divisor,
                head.frequency,
                head.mode,
                head.size,
                u64::from_le_bytes(head.serial),
                head.clock,
                buffer.as_mut_ptr(),
                buffer.len(),
            )
        }
    }

    fn read_head(&self, bytes: &[u8]) -> (u8, Head) {
        let (mut version, mut divisor, mut clock) = (u32::MAX, u32::MAX, u32::MAX);
        let (mut frequency, mut serial) = (u64::MAX, u64::MAX);
        let (mut mode, mut size) = (u8::MAX, u8::MAX);
        let code = unsafe {
            door::skvornela_head_read(
                bytes.as_ptr(),
                bytes.len(),
                &mut version,
                &mut divisor,
                &mut frequency,
                &mut mode,
                &mut size,
                &mut serial,
                &mut clock,
            )
        };
        (code, Head { version, divisor, frequency, mode, size, serial: serial.to_le_bytes(), clock })
    }

    fn newer(&self, bytes: &[u8], buffer: &mut [u8]) -> u8 {
        unsafe { door::skvornela_head_newer(bytes.as_ptr(), bytes.len(), buffer.as_mut_ptr(), buffer.len()) }
    }

    fn older(&self, bytes: &[u8], buffer: &mut [u8]) -> u8 {
        unsafe { door::skvornela_head_older(bytes.as_ptr(), bytes.len(), buffer.as_mut_ptr(), buffer.len()) }
    }

    fn serve(&self, host: &[u8], replies: &mut [u8]) -> usize {
        serve(host, replies)
    }

    fn cut_run(&self, mode: u8, size: u8, setup: u8, samples: &[i32], packets: &mut [u8]) -> usize {
        cut_run(mode, size, setup, samples, packets)
    }

    fn read_run(&self, channels: u8, packets: &[u8], each: usize) -> (u64, u64) {
        read_run(channels, packets, each)
    }

    /// Runs the program that SPAN_PROGRAM names. The input goes to it in pieces of many sizes, cut as its length says.
    fn span(&self, input: &[u8]) -> Option<Vec<u8>> {
        let program = std::env::var_os("SPAN_PROGRAM")?;
        let mut child =
            Command::new(program).stdin(Stdio::piped()).stdout(Stdio::piped()).spawn().expect("the span program runs");
        let mut stdin = child.stdin.take().expect("a pipe to it");
        let mut random = Random::new(input.len() as u64);
        let mut rest = input;
        while !rest.is_empty() {
            let most = if random.once_in(2) { 5 } else { 1 << 17 };
            let (piece, after) = rest.split_at(1 + random.size(rest.len().min(most)));
            // it stops reading at the first refusal
            if stdin.write_all(piece).is_err() {
                break;
            }
            rest = after;
        }
        drop(stdin);
        let output = child.wait_with_output().expect("the span program ends");
        assert!(output.status.success(), "the span program ended with {}", output.status);
        Some(output.stdout)
    }

    fn head_mode(&self, mode: u8, setup: u8) -> (u8, u8) {
        let mut byte = u8::MAX;
        let code = unsafe { door::skvornela_head_mode(mode, setup, &mut byte) };
        (code, byte)
    }

    fn head_length(&self, version: u32) -> usize {
        unsafe { door::skvornela_head_length(version) }
    }

    fn shape(&self, mode: u8, size: u8) -> (u8, Shape) {
        let mut shape =
            Shape { channels: u8::MAX, bits: u64::MAX, pairs: u64::MAX, numbers: usize::MAX, total: usize::MAX };
        let code = unsafe {
            door::skvornela_shape(
                mode,
                size,
                &mut shape.channels,
                &mut shape.bits,
                &mut shape.pairs,
                &mut shape.numbers,
                &mut shape.total,
            )
        };
        (code, shape)
    }

    fn divisor(&self, rate: u32) -> u32 {
        unsafe { door::skvornela_divisor(rate) }
    }

    fn message(&self, bytes: &[u8]) -> usize {
        unsafe { door::skvornela_message(bytes.as_ptr(), bytes.len()) }
    }

    fn end_time(&self, samples: u64, divisor: u32, clock: u32) -> (u8, u64) {
        let mut microseconds = u64::MAX;
        let code = unsafe { door::skvornela_end_time(samples, divisor, clock, &mut microseconds) };
        (code, microseconds)
    }
}

pub fn serve(host: &[u8], replies: &mut [u8]) -> usize {
    unsafe { door::skvornela_serve(host.as_ptr(), host.len(), replies.as_mut_ptr(), replies.len()) }
}

pub fn cut_run(mode: u8, size: u8, setup: u8, samples: &[i32], packets: &mut [u8]) -> usize {
    let form = Form::of_settings(mode, size);
    unsafe {
        door::skvornela_cut_run(
            mode,
            size,
            setup,
            form.samples(),
            form.total(),
            samples.as_ptr(),
            samples.len(),
            packets.as_mut_ptr(),
            packets.len(),
        )
    }
}

pub fn read_run(channels: u8, packets: &[u8], each: usize) -> (u64, u64) {
    let mut total = u64::MAX;
    let sample = unsafe { door::skvornela_read_run(channels, packets.as_ptr(), packets.len(), each, &mut total) };
    (sample, total)
}
