//! Calls of the C library that the standard library rests on, for what it has no call of its own: all that is unsafe in the
//! programs on the air, besides the library's door. The numbers are Linux's.

use std::io;
use std::os::fd::{AsFd, AsRawFd};

pub const SIGHUP: i32 = 1;
pub const SIGINT: i32 = 2;
pub const SIGTERM: i32 = 15;
pub const SIGXFSZ: i32 = 25;

const IGNORED: usize = 1;

/// Options of a socket: its level and its name.
pub const SEND_BUFFER: (i32, i32) = (1, 7);
pub const RECEIVE_BUFFER: (i32, i32) = (1, 8);
pub const KEEP_ALIVE: (i32, i32) = (1, 9);
pub const FORCED_RECEIVE_BUFFER: (i32, i32) = (1, 33);
pub const KEEP_ALIVE_IDLE: (i32, i32) = (6, 4);
pub const KEEP_ALIVE_BETWEEN: (i32, i32) = (6, 5);
pub const KEEP_ALIVE_TIMES: (i32, i32) = (6, 6);
/// milliseconds that what was sent may be unacknowledged
pub const UNACKNOWLEDGED: (i32, i32) = (6, 18);

extern "C" {
    fn signal(number: i32, handler: usize) -> usize;
    fn setsockopt(socket: i32, level: i32, name: i32, value: *const i32, length: u32) -> i32;
    fn getsockopt(socket: i32, level: i32, name: i32, value: *mut i32, length: *mut u32) -> i32;
}

/// From now on a signal calls `handler`, which must do no more than a handler may; true where it was ignored before.
pub fn on_signal(number: i32, handler: extern "C" fn(i32)) -> bool {
    // a handler is a function's address
    unsafe { signal(number, handler as *const () as usize) == IGNORED }
}

/// From now on a signal does nothing.
pub fn ignore_signal(number: i32) {
    // no handler is run
    unsafe { signal(number, IGNORED) };
}

pub fn set_option(socket: &impl AsFd, (level, name): (i32, i32), value: i32) -> io::Result<()> {
    let socket = socket.as_fd().as_raw_fd();
    // the value is read within the call
    match unsafe { setsockopt(socket, level, name, &value, size_of::<i32>() as u32) } {
        0 => Ok(()),
        _ => Err(io::Error::last_os_error()),
    }
}

pub fn option(socket: &impl AsFd, (level, name): (i32, i32)) -> io::Result<i32> {
    let socket = socket.as_fd().as_raw_fd();
    let (mut value, mut length) = (0, size_of::<i32>() as u32);
    // both are written within the call, and no more than the length told
    match unsafe { getsockopt(socket, level, name, &mut value, &mut length) } {
        0 => Ok(value),
        _ => Err(io::Error::last_os_error()),
    }
}
