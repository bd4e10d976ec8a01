//! Trouble on the air: what `air` and `record` do with clients, boxes, networks, files and disks that are not as they
//! should be. Nothing panics, nothing hangs, no packet leaves for another address, and what was written stays readable.
//!
//! Built where the proved library is (see check.sh), since its word is what the programs go by.
#![cfg(proved)]

use std::fs;
use std::io::{self, Read, Write};
use std::net::{IpAddr, Shutdown, SocketAddr, TcpListener, TcpStream, UdpSocket};
use std::path::{Path, PathBuf};
use std::process::{Child, Command, Stdio};
use std::sync::atomic::{AtomicU16, Ordering};
use std::sync::{Arc, Mutex};
use std::thread::{self, sleep};
use std::time::{Duration, Instant};

use outside::boundary::{WishFields, ASK_FREQUENCY, SET_RATE, SET_SIZE, SET_STATE, STATION_BYTES};
use outside::onair::library::library;
use outside::random::Random;
use outside::span;

const IDLE: u64 = 1;
const RUN_24: u64 = 2 + 256 * 0x80;

/// A port that no other test of this run has.
fn port() -> u16 {
    static NEXT: AtomicU16 = AtomicU16::new(0);
    // below those that the system hands out
    let first = 21_000 + (std::process::id() % 40) as u16 * 64;
    first + NEXT.fetch_add(1, Ordering::Relaxed)
}

/// A folder of the test's own.
struct Room(PathBuf);

impl Room {
    fn new() -> Self {
        let room = std::env::temp_dir().join(format!("trouble-{}-{}", std::process::id(), port()));
        fs::create_dir(&room).expect("a folder for the test");
        Room(room)
    }

    fn file(&self, name: &str) -> PathBuf {
        self.0.join(name)
    }
}

impl Drop for Room {
    fn drop(&mut self) {
        let _ = fs::remove_dir_all(&self.0);
    }
}

/// A program that runs, with what it says on standard error so far.
struct Running {
    child: Child,
    said: Arc<Mutex<String>>,
    hearing: Option<thread::JoinHandle<()>>,
}

impl Running {
    fn start(command: &mut Command) -> Self {
        let mut child = command
            .stdin(Stdio::null())
            .stdout(Stdio::piped())
            .stderr(Stdio::piped())
            .spawn()
            .expect("the program starts");
        let said = Arc::new(Mutex::new(String::new()));
        let mut from = child.stderr.take().expect("a pipe from it");
        let into = Arc::clone(&said);
        let hearing = thread::spawn(move || {
            let mut piece = [0; 4096];
            while let Ok(n @ 1..) = from.read(&mut piece) {
                into.lock().expect("no test panics with it").push_str(&String::from_utf8_lossy(&piece[..n]));
            }
        });
        Running { child, said, hearing: Some(hearing) }
    }

    fn said(&self) -> String {
        self.said.lock().expect("no test panics with it").clone()
    }

    /// Waits until it has said this.
    fn wait_for(&mut self, words: &str) {
        wait(words, Duration::from_secs(10), || self.said().contains(words) || self.has_ended().is_some());
        assert!(self.said().contains(words), "it does not say '{words}':\n{}", self.said());
    }

    fn has_ended(&mut self) -> Option<i32> {
        self.child.try_wait().expect("a child of ours").map(|status| status.code().unwrap_or(-1))
    }

    /// Waits for its end: its exit status, and what it wrote on standard output.
    fn end(&mut self, most: Duration) -> (i32, String) {
        wait("the end", most, || self.has_ended().is_some());
        let mut wrote = String::new();
        self.child.stdout.take().expect("a pipe from it").read_to_string(&mut wrote).expect("text");
        // the last that it said may still be on its way
        if let Some(hearing) = self.hearing.take() {
            hearing.join().expect("it only hears");
        }
        let said = self.said();
        assert!(!said.contains("panicked"), "{said}");
        (self.has_ended().expect("ended"), wrote)
    }

    fn signal(&self, name: &str) {
        let done = Command::new("kill").args([name, &self.child.id().to_string()]).status().expect("kill runs");
        assert!(done.success());
    }

    /// The most memory that it has had, in kilobytes.
    fn most_memory(&self) -> u64 {
        let status = fs::read_to_string(format!("/proc/{}/status", self.child.id())).expect("it runs");
        let line = status.lines().find(|line| line.starts_with("VmHWM:")).expect("Linux tells");
        line.split_whitespace().nth(1).and_then(|word| word.parse().ok()).expect("a number")
    }
}

impl Drop for Running {
    fn drop(&mut self) {
        let _ = self.child.kill();
        let _ = self.child.wait();
    }
}

fn wait(what: &str, most: Duration, mut until: impl FnMut() -> bool) {
    let start = Instant::now();
    while !until() {
        assert!(start.elapsed() < most, "{what}: not within {most:?}");
        sleep(Duration::from_millis(5));
    }
}

fn station(port: u16, words: &[&str]) -> Running {
    let mut air = Running::start(
        Command::new(env!("CARGO_BIN_EXE_air")).args(["--listen", &format!("127.0.0.1:{port}")]).args(words),
    );
    air.wait_for("listening");
    air
}

/// A recorder of 24 bits in small packets, at the highest rate.
fn recorder(port: u16, words: &[&str], file: &Path) -> Command {
    let mut command = Command::new(env!("CARGO_BIN_EXE_record"));
    command.args(["--from", &format!("127.0.0.1:{port}"), "--hz", "14010000", "--rate", "2000000", "--size", "small"]);
    command.args(words).arg(file);
    command
}

fn message(which: u64, value: u64) -> Vec<u8> {
    let mut buffer = [0; 16];
    let (code, length) = library().write_wish(WishFields::of(which, 0, value), &mut buffer);
    assert_eq!(code, 1);
    buffer[..length].to_vec()
}

fn connect(port: u16) -> TcpStream {
    let client = TcpStream::connect(("127.0.0.1", port)).expect("somebody listens");
    client.set_read_timeout(Some(Duration::from_secs(5))).expect("a socket of ours");
    client
}

/// Says a message, and hears the reply to it.
fn talk(client: &mut TcpStream, message: &[u8]) -> io::Result<Vec<u8>> {
    client.write_all(message)?;
    let mut reply = vec![0; 2];
    client.read_exact(&mut reply)?;
    reply.resize(library().message(&reply), 0);
    client.read_exact(&mut reply[2..])?;
    Ok(reply)
}

/// Connects as the client that is served: where the one before has only just gone, again until it is.
fn connect_served(port: u16) -> TcpStream {
    let start = Instant::now();
    loop {
        let mut client = connect(port);
        match talk(&mut client, &message(ASK_FREQUENCY, 0)) {
            Ok(_) => return client,
            Err(error) => assert!(start.elapsed() < Duration::from_secs(15), "not served: {error}"),
        }
        sleep(Duration::from_millis(20));
    }
}

/// What span says of a file: the proved program where SPAN_PROGRAM names it.
fn spanned(file: &Path) -> String {
    let bytes = fs::read(file).expect("the file is there");
    library().span(&bytes).map_or_else(|| span::text(&bytes), |text| String::from_utf8_lossy(&text).into_owned())
}

/// The file is a head and whole packets, and span reads it to its end: the packets heard.
fn readable(file: &Path) -> u64 {
    let text = spanned(file);
    let lines: Vec<&str> = text.lines().collect();
    assert!(matches!(lines.last(), Some(&("E 0" | "E 1"))), "{text}");
    match lines[1].strip_prefix("C ") {
        Some(line) => line.split(' ').nth(3).and_then(|word| word.parse().ok()).expect("a number"),
        None => 0,
    }
}

// ------------------------------------------------------------------ the station

#[test]
fn rubbish_is_answered_and_the_next_client_is_served() {
    let port = port();
    let mut air = station(port, &["--tone", "14020000"]);
    for seed in 0..20 {
        let mut client = connect_served(port);
        let rubbish = Random::new(seed).bytes(3000);
        let _ = client.write_all(&rubbish);
        // what comes back is nobody's concern here
        let _ = client.shutdown(Shutdown::Write);
        let _ = client.read_to_end(&mut Vec::new());
    }
    // half a message, and gone
    let half = message(SET_RATE, 200_000);
    connect_served(port).write_all(&half[..5]).expect("it listens");
    let mut client = connect_served(port);
    let fresh = talk(&mut client, &message(ASK_FREQUENCY, 0)).expect("a reply");
    assert_eq!(library().read_reply(WishFields::of(ASK_FREQUENCY, 0, 0), &fresh).1.first, 10_000_000);
    assert_eq!(air.has_ended(), None);
}

#[test]
fn a_hundred_megabytes_of_nothing() {
    let port = port();
    let air = station(port, &["--silence"]);
    let mut client = connect_served(port);
    let mut ears = client.try_clone().expect("a second handle");
    let hearing = thread::spawn(move || {
        let (mut piece, mut heard) = (vec![0; 1 << 16], 0u64);
        while let Ok(n @ 1..) = ears.read(&mut piece) {
            assert!(piece[..n].iter().all(|&byte| byte == 0 || byte == 2), "nothing but NAK");
            heard += n as u64;
        }
        heard
    });
    let nothing = vec![0; 1 << 20];
    for _ in 0..100 {
        client.write_all(&nothing).expect("it listens");
    }
    client.shutdown(Shutdown::Write).expect("a socket of ours");
    // a header of nothing is two bytes, and each gets a NAK of two
    assert_eq!(hearing.join().expect("it heard"), 100 << 20);
    assert!(air.most_memory() < 50_000, "{} kB", air.most_memory());
}

#[test]
fn a_client_that_does_not_hear_its_replies_is_dropped() {
    let port = port();
    let mut air = station(port, &["--silence"]);
    let mut client = connect_served(port);
    client.set_write_timeout(Some(Duration::from_secs(1))).expect("a socket of ours");
    let nothing = vec![0; 1 << 16];
    // until the ways in and out are full
    for _ in 0..1000 {
        if client.write_all(&nothing).is_err() {
            break;
        }
    }
    connect_served(port);
    assert!(air.most_memory() < 50_000, "{} kB", air.most_memory());
    assert_eq!(air.has_ended(), None);
}

#[test]
fn a_client_that_goes_while_the_box_runs_leaves_it_fresh() {
    let port = port();
    let mut air = station(port, &["--tone", "14020000"]);
    for _ in 0..3 {
        let mut client = connect_served(port);
        // nobody listens for the packets
        talk(&mut client, &message(SET_STATE, RUN_24)).expect("a reply");
        sleep(Duration::from_millis(200));
        talk(&mut client, &message(ASK_FREQUENCY, 0)).expect("control is answered all the same");
    }
    let mut client = connect_served(port);
    // a running box would refuse this
    let reply = talk(&mut client, &message(SET_SIZE, 1)).expect("a reply");
    assert!(reply.len() > 2, "{reply:02X?}");
    assert_eq!(air.has_ended(), None);
}

#[test]
fn another_client_is_turned_away() {
    let port = port();
    let mut air = station(port, &["--silence"]);
    let mut first = connect_served(port);
    for _ in 0..5 {
        let mut other = connect(port);
        assert_eq!(other.read(&mut [0; 16]).unwrap_or(0), 0, "nothing is said to it");
    }
    air.wait_for("turned away");
    talk(&mut first, &message(ASK_FREQUENCY, 0)).expect("the first is served on");
}

/// Packets go to the address that control comes from, and to no other: not to where another listens at the same port, and
/// not to where a client would have them sent (item 00C5 of document 003, which the box does not have).
#[test]
fn packets_go_to_the_client_alone() {
    let port = port();
    let _air = station(port, &["--tone", "14020000"]);
    let listen = |address: &str| {
        let socket = UdpSocket::bind((address, port)).expect("a free port");
        socket.set_nonblocking(true).expect("a socket of ours");
        socket
    };
    let (clients, others) = (listen("127.0.0.1"), listen("127.0.0.2"));
    let mut client = connect_served(port);
    let elsewhere = [0x0A, 0x00, 0xC5, 0x00, 2, 0, 0, 127, port.to_le_bytes()[0], port.to_le_bytes()[1]];
    assert_eq!(talk(&mut client, &elsewhere).expect("a reply"), [0x02, 0x00]);
    talk(&mut client, &message(SET_STATE, RUN_24)).expect("a reply");
    sleep(Duration::from_millis(300));
    talk(&mut client, &message(SET_STATE, IDLE)).expect("a reply");
    sleep(Duration::from_millis(50));
    let mut packet = [0; 2000];
    let count = |socket: &UdpSocket, packet: &mut [u8]| std::iter::from_fn(|| socket.recv(packet).ok()).count();
    assert!(count(&clients, &mut packet) > 50);
    assert_eq!(count(&others, &mut packet), 0);
    // and none comes after the box has stopped
    sleep(Duration::from_millis(200));
    assert_eq!(count(&clients, &mut packet), 0);
}

#[test]
fn a_source_that_is_none_is_refused_before_anybody_is_served() {
    let room = Room::new();
    let rubbish = room.file("rubbish");
    fs::write(&rubbish, Random::new(1).bytes(5000)).expect("a file of ours");
    let (rubbish, missing) = (rubbish.to_str().expect("text"), room.file("missing"));
    let missing = missing.to_str().expect("text");
    for words in [
        ["--capture", rubbish],
        ["--capture", missing],
        ["--capture", "/"],
        ["--wave", rubbish],
        ["--wave", missing],
        ["--tone", "fourteen"],
        ["--tone", "14020000:loud"],
        ["--lose", "0"],
        ["--lose", "-1"],
        ["--serial", "short"],
        ["--listen", "nowhere at all"],
        ["--what", "is this"],
    ] {
        let mut air = Running::start(Command::new(env!("CARGO_BIN_EXE_air")).args(words));
        let (status, wrote) = air.end(Duration::from_secs(5));
        assert_eq!((status, wrote.as_str()), (2, ""), "{words:?}: {}", air.said());
        assert!(air.said().lines().count() >= 1, "{words:?}");
    }
}

#[test]
fn the_station_ends_when_it_is_asked_to() {
    for name in ["-INT", "-TERM"] {
        let port = port();
        let mut air = station(port, &["--tone", "14020000"]);
        let mut client = connect_served(port);
        talk(&mut client, &message(SET_STATE, RUN_24)).expect("a reply");
        sleep(Duration::from_millis(200));
        air.signal(name);
        let (status, wrote) = air.end(Duration::from_secs(2));
        assert_eq!(status, 0);
        assert!(wrote.starts_with("C 1 24 240 "), "{wrote}");
        // and the address is free again
        drop(station(port, &["--silence"]));
    }
}

// ------------------------------------------------------------------ the recorder

#[test]
fn words_that_are_not_allowed_open_nothing() {
    let room = Room::new();
    let file = room.file("night.spn");
    let port = port();
    let run = |words: &str| {
        let from = format!("127.0.0.1:{port}");
        let mut command = Command::new(env!("CARGO_BIN_EXE_record"));
        let mut record = Running::start(command.args(["--from", &from]).args(words.split(' ')).arg(&file));
        let (status, wrote) = record.end(Duration::from_secs(5));
        assert_eq!(wrote, "", "{words}");
        assert!(!file.exists(), "{words}");
        (status, record.said())
    };
    // that these words are in order, and only nobody is there
    assert_eq!(run("--hz 14010000 --rate 200000").0, 1);
    for (words, told) in [
        ("--hz 1 --rate 200000", "--hz"),
        ("--hz 35000000 --rate 200000", "--hz"),
        ("--hz high --rate 200000", "--hz"),
        ("--hz 14010000 --rate 31999", "--rate"),
        ("--hz 14010000 --rate 2000001", "--rate"),
        ("--hz 14010000 --rate 200000 --gain -5", "--gain"),
        ("--hz 14010000 --rate 200000 --bits 20", "--bits"),
        ("--hz 14010000 --rate 200000 --size huge", "--size"),
        ("--hz 14010000 --rate 200000 --for soon", "--for"),
        ("--hz 14010000 --rate 200000 --for -1", "--for"),
        ("--hz 14010000 --rate 200000 --until 25:00", "--until"),
        ("--hz 14010000 --rate 200000 --until 2026-02-30T00:00Z", "--until"),
        ("--hz 14010000 --rate 200000 --second 1", "--second"),
        ("--hz 14010000 --rate 200000 --second 7000000 --second-gain 3", "--second-gain"),
        ("--hz 14010000 --rate 200000 --for 1 --until 10:00", "--until"),
        ("--hz 14010000 --rate 200000 --hz 7000000", "--hz"),
        ("--hz 14010000 --rate 200000 --what", "--what"),
        ("--hz 14010000", "--rate"),
    ] {
        let (status, said) = run(words);
        assert_eq!(status, 2, "{words}: {said}");
        assert!(said.contains(told), "{words}: {said}");
    }
}

#[test]
fn a_file_that_is_there_is_left_alone() {
    let room = Room::new();
    let file = room.file("night.spn");
    fs::write(&file, "the night before").expect("a file of ours");
    let port = port();
    let _air = station(port, &["--silence"]);
    let mut record = Running::start(&mut recorder(port, &["--for", "1"], &file));
    let (status, _) = record.end(Duration::from_secs(10));
    assert_ne!(status, 0, "{}", record.said());
    assert_eq!(fs::read(&file).expect("it is there"), b"the night before");
}

#[test]
fn nobody_there() {
    let room = Room::new();
    let file = room.file("night.spn");
    let mut record = Running::start(&mut recorder(port(), &["--for", "1"], &file));
    let (status, wrote) = record.end(Duration::from_secs(10));
    assert_eq!((status, wrote.as_str()), (1, ""), "{}", record.said());
    assert!(!file.exists());
}

#[test]
fn two_recorders_at_once() {
    let room = Room::new();
    let (first, second) = (room.file("first.spn"), room.file("second.spn"));
    let port = port();
    let mut air = station(port, &["--tone", "14020000"]);
    let mut one = Running::start(&mut recorder(port, &["--for", "3"], &first));
    wait("a capture", Duration::from_secs(5), || first.exists());
    let mut other = Running::start(&mut recorder(port, &["--for", "1"], &second));
    let (status, _) = other.end(Duration::from_secs(10));
    assert_eq!(status, 1, "{}", other.said());
    assert!(!second.exists());
    let (status, _) = one.end(Duration::from_secs(10));
    assert_eq!(status, 0, "{}", one.said());
    assert!(readable(&first) > 80_000);
    assert_eq!(air.has_ended(), None);
}

/// As many bytes as a file may have are few: a full disk, for the recorder.
#[test]
fn a_full_disk_leaves_whole_packets() {
    let room = Room::new();
    let port = port();
    let _air = station(port, &["--tone", "14020000"]);
    for blocks in [1, 3, 100, 1111] {
        let file = room.file(&format!("{blocks}.spn"));
        let mut command = Command::new("sh");
        command.args(["-c", &format!("trap '' XFSZ; ulimit -f {blocks}; exec \"$@\""), "sh"]);
        let inner = recorder(port, &["--for", "20"], &file);
        command.arg(inner.get_program()).args(inner.get_args());
        let mut record = Running::start(&mut command);
        let (status, _) = record.end(Duration::from_secs(15));
        assert_eq!(status, 1, "{}", record.said());
        let heard = readable(&file);
        let bytes = fs::metadata(&file).expect("it is there").len();
        assert!(bytes <= blocks * 512 && bytes + 388 > blocks * 512, "{bytes} of {} bytes", blocks * 512);
        assert_eq!(bytes, 26 + 388 * heard);
        // the box was stopped all the same, and serves the next
        drop(connect_served(port));
    }
}

/// However the recorder ends, and at whatever moment.
#[test]
fn a_killed_recorder_leaves_whole_packets() {
    let room = Room::new();
    let port = port();
    let _air = station(port, &["--tone", "14020000"]);
    let mut random = Random::new(7);
    for turn in 0..12 {
        let file = room.file(&format!("{turn}.spn"));
        let mut record = Running::start(&mut recorder(port, &["--for", "60"], &file));
        wait("packets", Duration::from_secs(10), || fs::metadata(&file).is_ok_and(|file| file.len() > 1000));
        sleep(Duration::from_micros(random.below(200_000)));
        record.signal("-KILL");
        record.end(Duration::from_secs(2));
        // the keeper has it in order in a moment
        wait("whole packets", Duration::from_secs(2), || {
            fs::metadata(&file).is_ok_and(|file| (file.len() - 26) % 388 == 0)
        });
        assert!(readable(&file) > 0);
        connect_served(port);
    }
}

#[test]
fn the_recorder_ends_when_it_is_asked_to() {
    let room = Room::new();
    let port = port();
    let _air = station(port, &["--tone", "14020000"]);
    for name in ["-INT", "-TERM"] {
        let file = room.file(&format!("{name}.spn"));
        let mut record = Running::start(&mut recorder(port, &[], &file));
        wait("packets", Duration::from_secs(10), || fs::metadata(&file).is_ok_and(|file| file.len() > 1000));
        record.signal(name);
        let (status, _) = record.end(Duration::from_secs(5));
        assert_eq!(status, 0, "{}", record.said());
        assert!(readable(&file) > 0);
        connect_served(port);
    }
}

// ------------------------------------------------------------------ a box that is not as it should be

/// What a box does that a test has made.
#[derive(Clone, Copy, PartialEq)]
enum Way {
    /// answers so many messages, and then no more
    Silent(usize),
    /// answers so many messages, and then goes
    Gone(usize),
    /// answers so many messages, and then NAK
    Nak(usize),
    /// answers so many messages, and then what is no reply
    NoReply(usize),
    /// answers all, and when it runs sends what [`Packets`] says
    Sends(Packets),
}

#[derive(Clone, Copy, PartialEq)]
enum Packets {
    /// a thousand, and then none
    Few,
    /// a thousand, and closes the connection
    FewAndGone,
    /// a thousand, and between them others that are not to be written: from another address, of another form, no packets
    AmongOthers,
    /// none that begins a capture
    NotTheFirst,
}

/// A box that a test has made, on a port of its own: it serves one client.
fn made(port: u16, way: Way) -> thread::JoinHandle<()> {
    let listener = TcpListener::bind(("127.0.0.1", port)).expect("a free port");
    thread::spawn(move || {
        let (mut client, address) = listener.accept().expect("a client");
        let mut state = [0; STATION_BYTES];
        assert_eq!(library().fresh(b"MT123456", &mut state), 1);
        let mut answered = 0;
        let mut piece = [0; 4096];
        while let Ok(n @ 1..) = client.read(&mut piece) {
            let mut host = &piece[..n];
            while !host.is_empty() {
                let mut reply = [0; 64];
                let (_, consumed, wrote) = library().feed(&mut state, host, &mut reply);
                host = &host[consumed..];
                let sent = match way {
                    Way::Silent(after) if answered >= after => continue,
                    Way::Gone(after) if answered >= after => return,
                    Way::Nak(after) if answered >= after => client.write_all(&[0x02, 0x00]),
                    // a name, which nobody asks for by then
                    Way::NoReply(after) if answered >= after => client.write_all(b"\x0B\x00\x01\x00NotSDR\x00"),
                    _ => client.write_all(&reply[..wrote]),
                };
                answered += usize::from(wrote > 0);
                if sent.is_err() {
                    return;
                }
            }
            let running = outside::boundary::station_in(&state).settings.running;
            if let (Way::Sends(packets), true) = (way, running) {
                send_packets(&mut state, packets, SocketAddr::new(address.ip(), port));
                if packets == Packets::FewAndGone {
                    return;
                }
            }
        }
    })
}

fn send_packets(state: &mut [u8], packets: Packets, to: SocketAddr) {
    let socket = |address: [u8; 4]| UdpSocket::bind((IpAddr::from(address), 0)).expect("a socket");
    let (ours, other) = (socket([127, 0, 0, 1]), socket([127, 0, 0, 2]));
    let samples = [0; 128];
    let mut packet = [0; 2000];
    for k in 0..1000 {
        let (code, length) = library().cut(state, &samples, &mut packet);
        assert_eq!((code, length), (1, 388));
        let packet = &packet[..length];
        if packets == Packets::AmongOthers {
            let mut large = vec![0; 1444];
            large[..4].copy_from_slice(&[0xA4, 0x85, packet[2], packet[3]]);
            ours.send_to(&large, to).expect("sent");
            ours.send_to(&packet[..387], to).expect("sent");
            ours.send_to(b"rubbish", to).expect("sent");
            ours.send_to(&[], to).expect("sent");
            other.send_to(packet, to).expect("sent");
            other.send_to(&[&packet[..2], &[99, 99], &packet[4..]].concat(), to).expect("sent");
        }
        if !(packets == Packets::NotTheFirst && k == 0) {
            ours.send_to(packet, to).expect("sent");
        }
        if k % 10 == 0 {
            sleep(Duration::from_micros(400));
        }
    }
}

#[test]
fn a_box_that_does_not_answer_as_it_should_records_nothing() {
    let room = Room::new();
    for after in [0, 1, 4, 7] {
        for way in [Way::Silent(after), Way::Gone(after), Way::Nak(after), Way::NoReply(after)] {
            let (file, port) = (room.file("night.spn"), port());
            let made = made(port, way);
            let mut record = Running::start(&mut recorder(port, &["--for", "1"], &file));
            let (status, wrote) = record.end(Duration::from_secs(10));
            assert_eq!((status, wrote.as_str()), (1, ""), "{}", record.said());
            assert!(!file.exists(), "{}", record.said());
            made.join().expect("the box that was made");
        }
    }
}

#[test]
fn a_box_that_stops_sending_or_goes() {
    let room = Room::new();
    for (packets, heard) in [(Packets::Few, 1000), (Packets::FewAndGone, 1000), (Packets::NotTheFirst, 0)] {
        let (file, port) = (room.file(&format!("{heard}-{}.spn", packets as u8)), port());
        let made = made(port, Way::Sends(packets));
        let mut record = Running::start(&mut recorder(port, &["--for", "30"], &file));
        let (status, _) = record.end(Duration::from_secs(15));
        assert_eq!(status, 1, "{}", record.said());
        if heard > 0 {
            assert_eq!(readable(&file), heard, "{}", record.said());
        } else {
            assert!(!file.exists() || readable(&file) == 0, "{}", record.said());
        }
        made.join().expect("the box that was made");
    }
}

#[test]
fn what_is_no_packet_of_this_capture_is_not_written() {
    let room = Room::new();
    let (file, port) = (room.file("night.spn"), port());
    let made = made(port, Way::Sends(Packets::AmongOthers));
    let mut record = Running::start(&mut recorder(port, &["--for", "1"], &file));
    let (status, _) = record.end(Duration::from_secs(15));
    let text = spanned(&file);
    assert_eq!(text, "SPAN 1\nC 1 24 64 1000 1000 64000 32000 0\nE 1\n", "{status} {}", record.said());
    made.join().expect("the box that was made");
}

/// That a test reads what it thinks it reads.
#[test]
fn a_file_that_is_cut_off_is_not_readable() {
    let room = Room::new();
    let file = room.file("night.spn");
    let mut head = [0; 26];
    let plain = outside::Head {
        version: 2,
        divisor: 10,
        frequency: 14_010_000,
        mode: 0x80,
        size: 1,
        serial: *b"MT123456",
        clock: 80_000_000,
    };
    assert_eq!(library().write_head(plain, &mut head), 1);
    let packet = [&[0x84, 0x81, 0, 0][..], &[0; 384]].concat();
    fs::write(&file, [&head[..], &packet].concat()).expect("a file of ours");
    assert_eq!(readable(&file), 1);
    fs::write(&file, [&head[..], &packet[..387]].concat()).expect("a file of ours");
    let text = spanned(&file);
    assert!(text.ends_with("R 30 26\n"), "{text}");
}
