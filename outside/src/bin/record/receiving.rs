//! The thread that takes packets from the network and hands those of the capture on, many at once.
//!
//! It reads all that has arrived and then sleeps a moment, instead of being woken for each packet: what arrives meanwhile
//! waits in the socket, which has room for much more. A packet is received where it stays until it is written.

use std::io::ErrorKind;
use std::net::{IpAddr, UdpSocket};
use std::sync::mpsc::Sender;
use std::sync::Arc;
use std::thread;
use std::time::{Duration, Instant};

use crate::arriving::{Arriving, Verdict};
use crate::batch::{Batch, Free};
use crate::state::{Stage, State};

/// How long it sleeps where nothing has arrived.
const MOMENT: Duration = Duration::from_millis(2);

/// Packets wait no longer than that for the batch to be full.
const GATHERED: Duration = Duration::from_millis(200);

/// How often it looks at more than packets, where they come without end.
const LOOK: Duration = Duration::from_millis(20);

/// A box that sends nothing for so long has failed: at least, and at most.
const SILENT: Duration = Duration::from_secs(3);
const LONGEST_SILENT: Duration = Duration::from_secs(30);

/// After the box has stopped: no more packets are on their way when none came for so long, and are not waited for longer.
const QUIET: Duration = Duration::from_millis(300);
const ON_THEIR_WAY: Duration = Duration::from_secs(2);

/// How long it waits for a free batch before it looks whether the recording is over.
const FREE_WITHIN: Duration = Duration::from_millis(50);

/// Why no more packets are taken.
#[derive(Debug, PartialEq, Eq)]
pub enum Over {
    AsAsked,
    Trouble(String),
}

pub struct Receiving {
    pub socket: UdpSocket,
    /// packets from elsewhere are none of the capture
    pub from: IpAddr,
    pub arriving: Arriving,
    /// from when on the times of arrival are counted
    pub start: Instant,
    pub free: Free,
    pub full: Sender<Batch>,
    pub state: Arc<State>,
}

/// Since when what is waited for has not come.
struct Since {
    /// a packet of the capture was written, or the box began to run
    written: Option<Instant>,
    /// a packet of the capture came, also a late one
    came: Instant,
    /// the box has stopped
    ending: Option<Instant>,
    /// the first packet of the batch came
    batch: Instant,
    /// it was looked at more than packets
    look: Instant,
}

impl Receiving {
    /// Takes packets until the recording is over.
    pub fn run(mut self) -> Over {
        let now = Instant::now();
        let mut since = Since { written: None, came: now, ending: None, batch: now, look: now };
        let Some(mut batch) = self.empty_batch(&mut since) else { return Over::AsAsked };
        let over = loop {
            // before it is read, so that nothing can have come unseen until then
            let before = Instant::now();
            let looked = match self.socket.recv_from(batch.next()) {
                Ok((length, from)) => {
                    let from_box = from.ip().to_canonical() == self.from;
                    self.take(&mut batch, length, from_box, &mut since)
                }
                Err(error) if error.kind() == ErrorKind::Interrupted => None,
                Err(error) if error.kind() == ErrorKind::WouldBlock => {
                    let looked = self.silence(before, &since).or_else(|| self.look(before, &mut batch, &mut since));
                    thread::sleep(MOMENT);
                    looked
                }
                Err(error) => Some(Over::Trouble(format!("packets cannot be received: {error}"))),
            };
            if let Some(over) = looked {
                break over;
            }
        };
        if !batch.is_empty() {
            // where nobody takes it, the writer has told why
            let _ = self.full.send(batch);
        }
        over
    }

    /// Judges what was put at the batch's end.
    fn take(&mut self, batch: &mut Batch, length: usize, from_box: bool, since: &mut Since) -> Option<Over> {
        let now = Instant::now();
        let packet = batch.next().get(..length).unwrap_or_default();
        match self.arriving.judge(packet, from_box, now - self.start) {
            Verdict::Write => {
                if batch.is_empty() {
                    since.batch = now;
                }
                batch.keep(self.arriving.missed());
                since.written = Some(now);
                since.came = now;
            }
            Verdict::Late => {
                self.state.count_late();
                since.came = now;
            }
            Verdict::Stray => self.state.count_stray(),
            Verdict::End(why) => return Some(Over::Trouble(why.to_string())),
        }
        if batch.is_full() || now.duration_since(since.look) >= LOOK {
            return self.look(now, batch, since);
        }
        None
    }

    /// Looks whether the batch has to go, and whether the recording is over.
    fn look(&mut self, now: Instant, batch: &mut Batch, since: &mut Since) -> Option<Over> {
        since.look = now;
        let gathered = !batch.is_empty() && now.duration_since(since.batch) >= GATHERED;
        if batch.is_full() || gathered {
            let Some(empty) = self.empty_batch(since) else { return Some(Over::AsAsked) };
            if self.full.send(std::mem::replace(batch, empty)).is_err() {
                return Some(Over::AsAsked);
            }
        }
        match self.state.stage() {
            Stage::Waiting | Stage::Stopping => None,
            Stage::Running => {
                since.written.get_or_insert(now);
                None
            }
            Stage::Ending => {
                let ending = *since.ending.get_or_insert(now);
                let quiet = now.duration_since(since.came.max(ending)) >= QUIET;
                (quiet || now.duration_since(ending) >= ON_THEIR_WAY).then_some(Over::AsAsked)
            }
            Stage::Over => Some(Over::AsAsked),
        }
    }

    /// Whether the box has failed, at a moment when all that had arrived was read.
    fn silence(&self, now: Instant, since: &Since) -> Option<Over> {
        let written = since.written.filter(|_| self.state.stage() == Stage::Running)?;
        let patience = self.patience();
        if now.duration_since(written) < patience {
            return None;
        }
        let seconds = patience.as_secs();
        Some(Over::Trouble(if let (true, Some(code)) = (self.arriving.has_begun(), self.arriving.refused()) {
            format!("no packet of the capture came for {seconds} s: those that come are refused with code {code}")
        } else if self.arriving.has_begun() {
            format!("no packet came for {seconds} s")
        } else {
            let strays = self.state.counts().stray;
            format!("no packet numbered 0 came within {seconds} s of the start ({strays} others came)")
        }))
    }

    /// A network may be gone for a while, and the loss is counted exactly as long as it is no turn: the longer a turn takes, the
    /// longer the box is waited for.
    fn patience(&self) -> Duration {
        self.arriving.turn_takes().map_or(SILENT, |turn| (turn / 4).clamp(SILENT, LONGEST_SILENT))
    }

    /// An empty batch, as soon as there is one. Where the disk is too slow that takes time, and packets are lost as by the
    /// network; `None` where the recording is over before, or nobody writes any more.
    fn empty_batch(&mut self, since: &mut Since) -> Option<Batch> {
        let began = Instant::now();
        while self.state.stage() != Stage::Over && self.state.is_written() {
            if let Some(batch) = self.free.take(FREE_WITHIN) {
                // it was not the box that was silent
                let waited = began.elapsed();
                since.written = since.written.map(|written| written + waited);
                return Some(batch);
            }
        }
        None
    }
}

#[cfg(test)]
mod tests {
    use super::*;
    use std::sync::mpsc::{channel, Receiver};
    use std::thread::JoinHandle;

    use outside::boundary::{Library, Plain};
    use outside::item::{MODE_24, SIZE_SMALL};
    use outside::{packet, Form};

    use crate::arriving::Terms;

    static PLAIN: Plain = Plain;
    const FORM: Form = Form::SMALL_24;

    struct Scene {
        socket: UdpSocket,
        state: Arc<State>,
        full: Receiver<Batch>,
        thread: JoinHandle<Over>,
    }

    /// 31,250 packets a second from this address; the receiving thread has begun.
    fn scene(from: &str) -> Scene {
        let (_, shape) = PLAIN.shape(MODE_24, SIZE_SMALL);
        let arriving = Arriving::new(&PLAIN, Terms { shape, divisor: 10, clock: 80_000_000 }).expect("a reader");
        let there = UdpSocket::bind("127.0.0.1:0").expect("a socket");
        there.set_nonblocking(true).expect("no waiting");
        let socket = UdpSocket::bind("127.0.0.1:0").expect("a socket");
        socket.connect(there.local_addr().expect("an address")).expect("connected");
        let (free, _) = Free::new(shape.total);
        let (sender, full) = channel();
        let state = Arc::new(State::default());
        let receiving = Receiving {
            socket: there,
            from: from.parse().expect("an address"),
            arriving,
            start: Instant::now(),
            free,
            full: sender,
            state: state.clone(),
        };
        Scene { socket, state, full, thread: thread::spawn(|| receiving.run()) }
    }

    impl Scene {
        fn send(&self, position: u64) {
            let mut bytes = vec![0; FORM.total()];
            packet::write(FORM, position, &vec![0; FORM.samples()], &mut bytes);
            self.socket.send(&bytes).expect("sent");
        }

        /// How it ended, how many packets were handed on, and how many were missed.
        fn end(self) -> (Over, usize, u64) {
            let over = self.thread.join().expect("it ends");
            let batches: Vec<Batch> = self.full.iter().collect();
            let packets = batches.iter().map(|batch| batch.packets().len() / FORM.total()).sum();
            (over, packets, batches.last().map_or(0, |batch| batch.missed))
        }
    }

    #[test]
    fn packets_before_the_reply_and_after_the_stop() {
        let scene = scene("127.0.0.1");
        (0..5).for_each(|position| scene.send(position));
        thread::sleep(Duration::from_millis(50));
        scene.state.enter(Stage::Running);
        (7..9).for_each(|position| scene.send(position));
        scene.send(8);
        scene.socket.send(b"rubbish").expect("sent");
        scene.state.enter(Stage::Ending);
        thread::sleep(Duration::from_millis(100));
        scene.send(9);
        let state = scene.state.clone();
        assert_eq!(scene.end(), (Over::AsAsked, 8, 2));
        assert_eq!((state.counts().late, state.counts().stray), (1, 1));
    }

    #[test]
    fn nothing_from_elsewhere() {
        let scene = scene("127.0.0.2");
        (0..5).for_each(|position| scene.send(position));
        thread::sleep(Duration::from_millis(50));
        scene.state.enter(Stage::Over);
        let state = scene.state.clone();
        assert_eq!(scene.end(), (Over::AsAsked, 0, 0));
        assert_eq!(state.counts().stray, 5);
    }

    #[test]
    fn silence_ends_it() {
        let scene = scene("127.0.0.1");
        scene.send(0);
        scene.state.enter(Stage::Running);
        assert_eq!(scene.end(), (Over::Trouble("no packet came for 3 s".into()), 1, 0));
    }

    #[test]
    fn without_the_first_it_ends() {
        let scene = scene("127.0.0.1");
        scene.send(1);
        scene.send(2);
        scene.state.enter(Stage::Running);
        let why = "no packet numbered 0 came within 3 s of the start (2 others came)";
        assert_eq!(scene.end(), (Over::Trouble(why.into()), 0, 0));
    }

    #[test]
    fn another_capture_ends_it() {
        let scene = scene("127.0.0.1");
        scene.state.enter(Stage::Running);
        scene.send(0);
        thread::sleep(Duration::from_millis(1_200));
        scene.send(30_000);
        scene.send(0);
        let (over, packets, missed) = scene.end();
        assert!(matches!(over, Over::Trouble(_)), "{over:?}");
        assert_eq!((packets, missed), (2, 29_999));
    }
}
