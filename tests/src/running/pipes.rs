//! What the system knows of a pipe: how much of it is unread, and whether anybody is left to read it.
//! So a test waits for what the other side does, and never for a time.

use std::ffi::{c_int, c_short, c_ulong};
use std::io;
use std::os::fd::AsRawFd;

/// Linux's numbers, the same on every processor that the tests know.
const FIONREAD: c_ulong = 0x541B;
const POLLERR: c_short = 8;

/// How long the system is asked to wait before it is asked again.
const MILLISECOND: c_int = 1;

#[repr(C)]
struct Poll {
    descriptor: c_int,
    wanted: c_short,
    found: c_short,
}

extern "C" {
    fn ioctl(descriptor: c_int, request: c_ulong, ...) -> c_int;
    fn poll(polls: *mut Poll, count: c_ulong, milliseconds: c_int) -> c_int;
}

fn unread(end: &impl AsRawFd) -> io::Result<c_int> {
    let mut count: c_int = 0;
    // SAFETY: with FIONREAD ioctl writes one int, to which it is given a pointer.
    match unsafe { ioctl(end.as_raw_fd(), FIONREAD, &mut count) } {
        0 => Ok(count),
        _ => Err(io::Error::last_os_error()),
    }
}

/// Whether nobody has the reading end, which is waited for as long as a moment.
fn is_unheard(writing_end: &impl AsRawFd) -> bool {
    let mut one = Poll {
        descriptor: writing_end.as_raw_fd(),
        wanted: 0,
        found: 0,
    };
    // SAFETY: poll is given one place, and told so.
    unsafe { poll(&mut one, 1, MILLISECOND) > 0 && one.found & POLLERR != 0 }
}

/// Waits until all that was written has been read. False if the readers have gone before that.
pub fn wait_for_reader(writing_end: &impl AsRawFd) -> io::Result<bool> {
    while unread(writing_end)? > 0 {
        if is_unheard(writing_end) {
            return Ok(false);
        }
    }
    Ok(true)
}

/// The writing end of a pipe that nobody reads. A process that another thread starts has a hold on
/// both ends until it is another program: that is waited for.
pub fn unheard() -> io::Result<io::PipeWriter> {
    let (reader, writer) = io::pipe()?;
    drop(reader);
    while !is_unheard(&writer) {}
    Ok(writer)
}

#[cfg(test)]
mod tests {
    use super::*;
    use std::io::{Read, Write};
    use std::thread;

    #[test]
    fn a_pipe_is_read_or_its_reader_goes() {
        let (mut reader, mut writer) = io::pipe().unwrap();
        assert!(wait_for_reader(&writer).unwrap());
        writer.write_all(b"one").unwrap();
        assert_eq!(unread(&writer).unwrap(), 3);
        let reading = thread::spawn(move || {
            let mut front = [0; 3];
            reader.read_exact(&mut front).unwrap();
            reader
        });
        assert!(wait_for_reader(&writer).unwrap());
        let reader = reading.join().unwrap();
        writer.write_all(b"two").unwrap();
        drop(reader);
        assert!(!wait_for_reader(&writer).unwrap());
        assert!(unheard().unwrap().write_all(b"three").is_err());
    }
}
