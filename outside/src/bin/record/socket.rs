//! The socket that packets arrive at.

use std::io::{self, ErrorKind};
use std::net::{SocketAddr, UdpSocket};
use std::time::{Duration, Instant};

use outside::onair::c::{option, set_option, FORCED_RECEIVE_BUFFER, RECEIVE_BUFFER};

use crate::say::say;

/// How many bytes may wait to be read, as far as the system allows: what arrives in half a second and more at the highest
/// rate, with what the kernel adds to each packet.
const WAITING: i32 = 32 << 20;

/// Less is told: it is a tenth of a second at the highest rate.
const ENOUGH: i32 = 4 << 20;

/// How long packets of the time before are thrown away at most.
const DRAINED_WITHIN: Duration = Duration::from_millis(200);

/// Binds to this side's address at the port number of the box, to which it sends. Reading does not wait.
pub fn bind(mut here: SocketAddr, port: u16) -> Result<UdpSocket, String> {
    here.set_port(port);
    let socket = UdpSocket::bind(here).map_err(|error| match error.kind() {
        ErrorKind::AddrInUse => format!("UDP port {port} of {} is in use: by another recorder?", here.ip()),
        _ => format!("UDP port {port} of {} cannot be opened: {error}", here.ip()),
    })?;
    socket.set_nonblocking(true).map_err(|error| format!("UDP port {port} cannot be read: {error}"))?;
    enlarge(&socket);
    Ok(socket)
}

/// Lets more packets wait. More than the system's limit takes a privilege; without it the limit holds, which is no error, but
/// is told.
fn enlarge(socket: &UdpSocket) {
    if set_option(socket, FORCED_RECEIVE_BUFFER, WAITING).is_ok() {
        return;
    }
    let _ = set_option(socket, RECEIVE_BUFFER, WAITING);
    match option(socket, RECEIVE_BUFFER) {
        Ok(room) if room < ENOUGH => say(format_args!(
            "the system lets {room} bytes of packets wait to be read, which may be too few at high rates; \
             sysctl -w net.core.rmem_max={WAITING} allows more"
        )),
        _ => {}
    }
}

/// Throws away what has come: of captures that were stopped before this one is begun.
pub fn drain(socket: &UdpSocket) -> io::Result<()> {
    let until = Instant::now() + DRAINED_WITHIN;
    while Instant::now() < until {
        match socket.recv_from(&mut [0; 1]) {
            Ok(_) => {}
            Err(error) if error.kind() == ErrorKind::Interrupted => {}
            Err(error) if error.kind() == ErrorKind::WouldBlock => return Ok(()),
            Err(error) => return Err(error),
        }
    }
    Ok(())
}

#[cfg(test)]
mod tests {
    use super::*;

    #[test]
    fn bound_once_and_drained() {
        let here: SocketAddr = "127.0.0.1:0".parse().expect("an address");
        let free = UdpSocket::bind(here).expect("a port").local_addr().expect("an address").port();
        let socket = bind(here, free).expect("bound");
        let why = bind(here, free).expect_err("in use");
        assert!(why.contains("in use: by another recorder?"), "{why}");
        for _ in 0..10 {
            UdpSocket::bind(here).and_then(|from| from.send_to(b"old", ("127.0.0.1", free))).expect("sent");
        }
        drain(&socket).expect("drained");
        assert_eq!(socket.recv_from(&mut [0; 9]).expect_err("empty").kind(), ErrorKind::WouldBlock);
    }
}
