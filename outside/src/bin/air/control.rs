//! Control over TCP: clients come, send bytes, read replies and go.
//!
//! One thread takes clients in and one reads the bytes of the client that is there; both hand what they have to the main
//! loop over a channel of few places, so that a client who sends without end waits, and takes no memory.

use std::io::{self, ErrorKind, Read, Write};
use std::net::{Shutdown, SocketAddr, TcpListener, TcpStream};
use std::sync::mpsc::{sync_channel, Receiver, SyncSender};
use std::thread;
use std::time::{Duration, Instant};

use outside::onair::signals::asked_to_end;

use crate::aerial::Aerial;
use crate::alive::ask_after;
use crate::log::say;

/// What the main loop waits for.
pub enum Event {
    Came(TcpStream, SocketAddr),
    /// bytes of a client, by its number
    Bytes(u64, Vec<u8>),
    Gone(u64, Why),
}

/// Why a client is gone, in words.
pub type Why = String;

/// A piece is short, so that samples that are due between two do not wait for long.
const PIECE: usize = 4096;
const PIECES: usize = 16;

/// So long a client may leave its replies unread.
const PATIENCE: Duration = Duration::from_secs(2);

/// A write waits so long at a time, and so does who could not take a client in.
const AT_A_TIME: Duration = Duration::from_millis(100);

/// Listens; what comes is in the receiver, and the sender is for the threads of the clients.
pub fn listen(address: SocketAddr) -> io::Result<(SocketAddr, SyncSender<Event>, Receiver<Event>)> {
    let listener = TcpListener::bind(address)?;
    let address = listener.local_addr()?;
    let (sender, receiver) = sync_channel(PIECES);
    let events = sender.clone();
    thread::Builder::new().spawn(move || take_in(&listener, &events))?;
    Ok((address, sender, receiver))
}

/// Takes clients in, until the main loop is no more.
fn take_in(listener: &TcpListener, events: &SyncSender<Event>) {
    let mut failed = false;
    loop {
        match listener.accept() {
            Ok((stream, address)) => {
                failed = false;
                if events.send(Event::Came(stream, address)).is_err() {
                    return;
                }
            }
            Err(error) => {
                if !failed {
                    say(format_args!("a client could not be taken in: {error}"));
                }
                failed = true;
                thread::sleep(AT_A_TIME);
            }
        }
    }
}

/// The client that is there.
pub struct Client {
    pub number: u64,
    pub address: SocketAddr,
    /// messages that were refused
    pub refused: u64,
    stream: TcpStream,
    aerial: Aerial,
}

impl Client {
    /// Takes a client on and begins to read its bytes.
    pub fn take_on(
        number: u64,
        stream: TcpStream,
        address: SocketAddr,
        events: SyncSender<Event>,
    ) -> io::Result<Client> {
        stream.set_nodelay(true)?;
        stream.set_write_timeout(Some(AT_A_TIME))?;
        ask_after(&stream)?;
        let aerial = Aerial::new(address, stream.local_addr()?)?;
        let reading = stream.try_clone()?;
        thread::Builder::new().spawn(move || hand_over(number, reading, &events))?;
        Ok(Client { number, address, refused: 0, stream, aerial })
    }

    pub fn aerial(&self) -> &Aerial {
        &self.aerial
    }

    /// Sends replies, in one write as long as the client has room for it.
    pub fn send(&mut self, replies: &[u8]) -> Result<(), Why> {
        let given_up = Instant::now() + PATIENCE;
        let mut rest = replies;
        while !rest.is_empty() {
            match self.stream.write(rest) {
                Ok(0) => return Err("it takes no more".into()),
                Ok(written) => rest = &rest[written..],
                Err(error) if is_wait(&error) && Instant::now() < given_up && !asked_to_end() => {}
                Err(error) if is_wait(&error) => return Err("it does not read its replies".into()),
                Err(error) => return Err(error.to_string()),
            }
        }
        Ok(())
    }
}

impl Drop for Client {
    /// Closes both ways, so that the thread that reads ends too.
    fn drop(&mut self) {
        let _ = self.stream.shutdown(Shutdown::Both);
    }
}

fn is_wait(error: &io::Error) -> bool {
    matches!(error.kind(), ErrorKind::WouldBlock | ErrorKind::TimedOut | ErrorKind::Interrupted)
}

/// Hands a client's bytes over, until it is gone.
fn hand_over(number: u64, mut stream: TcpStream, events: &SyncSender<Event>) {
    let mut piece = [0; PIECE];
    let why = loop {
        match stream.read(&mut piece) {
            Ok(0) => break "it closed".into(),
            Ok(count) => {
                if events.send(Event::Bytes(number, piece[..count].to_vec())).is_err() {
                    return;
                }
            }
            Err(error) if error.kind() == ErrorKind::Interrupted => {}
            Err(error) => break error.to_string(),
        }
    };
    // where the main loop is no more, there is nobody to tell
    let _ = events.send(Event::Gone(number, why));
}
