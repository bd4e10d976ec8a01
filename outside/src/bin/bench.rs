//! Times the proved library against the plain Rust of this folder and plain C, and the span program against `cat`.
//!
//!     bench [--quick]
//!
//! Each row is the best of many runs, taken in turn, so that whatever else the machine does falls on all alike. bench.sh
//! builds all that it needs; what was not built is left out of the table.

use std::fs::File;
use std::hint::black_box;
use std::io::{BufWriter, Write};
use std::path::Path;
use std::process::{Command, Stdio};
use std::time::Instant;

use outside::boundary::{Library, Plain};
use outside::capture::{first_packets, packets, signal, COUNTS, FORMS, PACKETS, PACKETS_READ};
use outside::packet::number_at;
use outside::random::Random;
use outside::talk::{frequencies, kinds, Talk};
use outside::timing::{best, head, row, runners, Rooms};
use outside::{head, reader, span, station, Form, Head};

#[cfg(proved)]
use outside::proved::{cut_run, read_run, serve, Proved};
#[cfg(not(proved))] // names for what is then not called
use {outside::boundary::Plain as Proved, reader::read_run, station::cut_run, station::serve};

#[cfg(peer)]
mod peer {
    extern "C" {
        pub fn peer_serve(host: *const u8, n: usize, replies: *mut u8, room: usize) -> usize;
        pub fn peer_cut_run(
            mode: u8,
            size: u8,
            setup: u8,
            samples: *const i32,
            n: usize,
            packets: *mut u8,
            room: usize,
        ) -> usize;
        pub fn peer_read_run(channels: u8, packets: *const u8, n: usize, total: usize, missed: *mut u64) -> u64;
        pub fn peer_unpack(packet: *const u8, n: usize, numbers: *mut i32, room: usize, count: *mut usize) -> i32;
    }
}

// All three must make the same call. The proved library and the C are compiled apart from this program; a Rust call would be
// fitted to its one caller, whose lengths the compiler knows and who may drop a part of the answer. So what is lent is a black
// box, the Rust calls are never inlined here, and code and count are both looked at. And compilers inline by the number of
// callers: each call has one place here, for any number of rows, and the test that a box is not broken, which in Rust and C has
// several callers and in each proved library one, is inlined in all three.

fn feed(talk: &Talk, rounds: usize, wanted: Option<f64>) {
    let host = &talk.host[..];
    let mut rooms = Rooms::new(talk.room());
    let mut runners = runners(
        || serve(black_box(host), black_box(&mut rooms.proved)) as u64,
        || station::serve(black_box(host), black_box(&mut rooms.rust)) as u64,
        || c_serve(black_box(host), black_box(&mut rooms.c)) as u64,
    );
    let found = best(&mut runners, talk.messages as f64, rounds);
    drop(runners);
    rooms.agree(&found);
    row(talk.what, &found, wanted);
}

fn cut(what: &str, form: Form, (mode, size, setup): (u8, u8, u8), rounds: usize, wanted: Option<f64>) {
    let (mode, size, setup, samples) = (black_box(mode), black_box(size), black_box(setup), &signal(form)[..]);
    let mut rooms = Rooms::new(PACKETS * form.total());
    let mut runners = runners(
        || cut_run(mode, size, setup, black_box(samples), black_box(&mut rooms.proved)) as u64,
        || station::cut_run(mode, size, setup, black_box(samples), black_box(&mut rooms.rust)) as u64,
        || c_cut_run(mode, size, setup, black_box(samples), black_box(&mut rooms.c)) as u64,
    );
    let found = best(&mut runners, PACKETS as f64, rounds);
    drop(runners);
    rooms.agree(&found);
    row(&format!("cut, {what}"), &found, wanted);
}

fn read(what: &str, channels: u8, packets: &[u8], total: usize, rounds: usize, wanted: Option<f64>) {
    let channels = black_box(channels);
    let both = |answer| {
        let (sample, missed): (u64, u64) = black_box(answer);
        sample + missed
    };
    let mut runners = runners(
        || both(read_run(channels, black_box(packets), black_box(total))),
        || both(reader::read_run(channels, black_box(packets), black_box(total))),
        || both(c_read_run(channels, black_box(packets), black_box(total))),
    );
    let found = best(&mut runners, (packets.len() / total) as f64, rounds);
    drop(runners);
    row(what, &found, wanted);
}

/// A run so long that no processor learns by heart which packets are missing.
fn read_lossy(what: &str, form: Form, percent: u64, rounds: usize) {
    const HEARD: usize = 4096;
    let mut random = Random::new(4);
    let mut position = 0;
    let positions = (0..HEARD).map(|_| {
        let here = position;
        position += 1;
        while random.within(1, 100) <= percent {
            position += 1;
        }
        here
    });
    let packets = packets(form, positions);
    read(&format!("read, {what}, {percent} % lost"), 1, &packets, form.total(), rounds, None);
}

fn unpack(
    what: &str,
    form: Form,
    packets: &[u8],
    rust: impl Fn(&[u8], &mut [i32]) -> (u8, usize) + Copy,
    rounds: usize,
    wanted: Option<f64>,
) {
    let total = black_box(form.total());
    let mut rooms = Rooms::new(form.samples());
    let mut runners = runners(
        || each(packets, total, black_box(&mut rooms.proved), |packet, numbers| Proved.unpack(packet, numbers)),
        || each(packets, total, black_box(&mut rooms.rust), rust),
        || each(packets, total, black_box(&mut rooms.c), c_unpack),
    );
    let found = best(&mut runners, PACKETS as f64, rounds);
    drop(runners);
    rooms.agree(&found);
    row(&format!("unpack, {what}"), &found, wanted);
}

#[inline(never)]
fn by_chunks(packet: &[u8], numbers: &mut [i32]) -> (u8, usize) {
    reader::unpack_by_chunks(packet, numbers).map_or_else(|code| (code as u8, 0), |count| (1, count))
}

/// Unpacks packets of one length, each by a call of its own, and looks at both code and count.
fn each(packets: &[u8], total: usize, numbers: &mut [i32], unpack: impl Fn(&[u8], &mut [i32]) -> (u8, usize)) -> u64 {
    let unpacked = packets.chunks_exact(total).map(|packet| {
        let (code, count) = unpack(packet, numbers);
        u64::from(code) + count as u64
    });
    unpacked.sum()
}

#[cfg(peer)]
fn c_serve(host: &[u8], replies: &mut [u8]) -> usize {
    unsafe { peer::peer_serve(host.as_ptr(), host.len(), replies.as_mut_ptr(), replies.len()) }
}

#[cfg(peer)]
fn c_cut_run(mode: u8, size: u8, setup: u8, samples: &[i32], packets: &mut [u8]) -> usize {
    let (from, to) = (samples.as_ptr(), packets.as_mut_ptr());
    unsafe { peer::peer_cut_run(mode, size, setup, from, samples.len(), to, packets.len()) }
}

#[cfg(peer)]
fn c_read_run(channels: u8, packets: &[u8], total: usize) -> (u64, u64) {
    let mut missed = 0;
    let sample = unsafe { peer::peer_read_run(channels, packets.as_ptr(), packets.len(), total, &mut missed) };
    (sample, missed)
}

#[cfg(peer)]
fn c_unpack(packet: &[u8], numbers: &mut [i32]) -> (u8, usize) {
    let mut count = 0;
    let code =
        unsafe { peer::peer_unpack(packet.as_ptr(), packet.len(), numbers.as_mut_ptr(), numbers.len(), &mut count) };
    (code as u8, count)
}

#[cfg(not(peer))]
fn c_serve(_: &[u8], _: &mut [u8]) -> usize {
    0
}

#[cfg(not(peer))]
fn c_cut_run(_: u8, _: u8, _: u8, _: &[i32], _: &mut [u8]) -> usize {
    0
}

#[cfg(not(peer))]
fn c_read_run(_: u8, _: &[u8], _: usize) -> (u64, u64) {
    (0, 0)
}

#[cfg(not(peer))]
fn c_unpack(_: &[u8], _: &mut [i32]) -> (u8, usize) {
    (0, 0)
}

// ---- the span program against cat

/// The head of version 1, large packets of 24 bits, and one of version 2 that names a box and its clock.
fn either_head() -> [Head; 2] {
    let old = Head {
        version: head::VERSION_1,
        divisor: 100,
        frequency: 14_010_000,
        mode: 0x80,
        size: 0,
        serial: head::UNKNOWN,
        clock: head::USUAL_CLOCK,
    };
    [old, Head { version: head::VERSION_2, serial: *b"MT123456", clock: 79_999_990, ..old }]
}

/// A capture of about so many bytes, no packet lost; answers how many packets.
fn make_capture(path: &Path, head: &Head, bytes: u64) -> std::io::Result<u64> {
    let form = head.form();
    let mut out = BufWriter::with_capacity(1 << 20, File::create(path)?);
    let mut start = vec![0; head.length()];
    let _ = head.write(&mut start);
    out.write_all(&start)?;
    let mut packet = Random::new(3).bytes(form.total());
    packet[..2].copy_from_slice(&form.header());
    let count = bytes / form.total() as u64;
    for position in 0..count {
        packet[2..4].copy_from_slice(&number_at(position).to_le_bytes());
        out.write_all(&packet)?;
    }
    out.flush()?;
    Ok(count)
}

/// Seconds that a shell command takes, `$1` in it the program and `$2` the capture, and what it wrote.
fn timed(command: &str, program: &str, file: &Path) -> (f64, String) {
    let start = Instant::now();
    let mut shell = Command::new("sh");
    shell.args(["-c", command, "sh", program]).arg(file).stdin(Stdio::null());
    let output = shell.output().expect("a shell");
    let took = start.elapsed().as_secs_f64();
    assert!(output.status.success(), "{command}: {}", String::from_utf8_lossy(&output.stderr));
    (took, String::from_utf8_lossy(&output.stdout).into_owned())
}

fn span(program: &str, folder: &Path, head: &Head, bytes: u64, rounds: usize) {
    let file = folder.join("capture.spn");
    let count = make_capture(&file, head, bytes).expect("room for the capture");
    let rows = [
        ("span from a file, against `cat FILE > /dev/null`", r#""$1" < "$2""#, r#"cat "$2" > /dev/null"#, 1.05),
        (
            "span from a pipe, against `cat FILE \\| cat > /dev/null`",
            r#"cat "$2" | "$1""#,
            r#"cat "$2" | cat > /dev/null"#,
            1.1,
        ),
    ];
    for (what, ours, cat, wanted) in rows {
        let (mut least, mut least_cat) = (f64::INFINITY, f64::INFINITY);
        for _ in 0..rounds {
            let (took, text) = timed(ours, program, &file);
            assert_eq!(text, lines(head, count), "what span printed");
            least = least.min(took);
            least_cat = least_cat.min(timed(cat, program, &file).0);
        }
        println!(
            "| {what}, head of version {} | {:.0} | {:.0} | {:.2} | {wanted} |",
            head.version,
            least * 1000.0,
            least_cat * 1000.0,
            least / least_cat
        );
    }
}

/// What span prints of the capture.
fn lines(head: &Head, count: u64) -> String {
    let samples = count * 240;
    format!(
        "SPAN 1\nC 1 24 240 {count} {count} {samples} {} 0\nE 1\n",
        span::end_time(samples, head.divisor, head.clock)
    )
}

fn main() {
    let quick = std::env::args().any(|word| word == "--quick");
    let rounds = if quick { 200 } else { 4000 };
    head("message or packet");
    feed(&frequencies(), rounds, Some(1.0));
    for (more, setup, _) in COUNTS {
        for ((what, form, mode, size), wanted) in FORMS.into_iter().zip([Some(0.8), None, Some(0.8), Some(0.8)]) {
            cut(&format!("{what}{more}"), form, (mode, size, setup), rounds, wanted);
        }
    }
    for (more, _, channels) in COUNTS {
        for (what, form, ..) in FORMS {
            let packets = first_packets(form, PACKETS_READ);
            read(&format!("read, {what}{more}"), channels, &packets, form.total(), rounds, Some(0.8));
        }
    }
    for percent in [0, 1, 30] {
        read_lossy("small, 24 bits", Form::SMALL_24, percent, rounds / 4);
    }
    // unpacking is not told how many channels a packet holds: with two it is the same call
    for (more, ..) in COUNTS {
        for ((what, form, ..), wanted) in FORMS.into_iter().zip([Some(0.8), Some(1.0), Some(1.0), Some(1.0)]) {
            unpack(
                &format!("{what}{more}"),
                form,
                &first_packets(form, PACKETS),
                |packet, numbers| Plain.unpack(packet, numbers),
                rounds,
                wanted,
            );
        }
    }
    for (what, form, ..) in FORMS {
        unpack(
            &format!("{what}, Rust by `chunks_exact`"),
            form,
            &first_packets(form, PACKETS),
            by_chunks,
            rounds,
            Some(1.0),
        );
    }
    println!();
    head("message, by kind");
    for talk in kinds() {
        feed(&talk, rounds, Some(1.0));
    }
    let (Ok(program), Ok(folder)) = (std::env::var("SPAN_PROGRAM"), std::env::var("CAPTURE_FOLDER")) else {
        return;
    };
    let (bytes, said, rounds) = if quick { (100_000_000, "100 MB", 3) } else { (1_000_000_000, "1 GB", 11) };
    println!("\n| ms for a capture of {said} | span | cat | span / cat | at most |\n|---|---|---|---|---|");
    for head in either_head() {
        span(&program, Path::new(&folder), &head, bytes, rounds);
    }
}
