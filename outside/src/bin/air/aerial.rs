//! The way of the samples, by UDP.

use std::io;
use std::net::{SocketAddr, UdpSocket};

use outside::onair::c::{set_option, SEND_BUFFER};

/// Bytes that may wait to be sent.
const ROOM: i32 = 4 << 20;

/// Sends from the address that the client came to, to the client's own, at the port number that control came to: real
/// clients listen there.
pub struct Aerial {
    socket: UdpSocket,
    to: SocketAddr,
}

impl Aerial {
    /// For a client at one address who came to the other.
    pub fn new(client: SocketAddr, came_to: SocketAddr) -> io::Result<Aerial> {
        let (mut from, mut to) = (came_to, client);
        to.set_port(came_to.port());
        from.set_port(0);
        let socket = UdpSocket::bind(from)?;
        // a network that is too slow loses packets; to wait for it would make all later ones late, and control too
        socket.set_nonblocking(true)?;
        // room for a burst after a stall; where the system allows less, that holds
        let _ = set_option(&socket, SEND_BUFFER, ROOM);
        Ok(Aerial { socket, to })
    }

    pub fn send(&self, packet: &[u8]) -> io::Result<()> {
        self.socket.send_to(packet, self.to).map(|_| ())
    }
}
