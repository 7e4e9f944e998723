//! A terminal: what a program that writes to one shows there.

use outside::running::runner::{run, Feed, Printed};
use std::ffi::{c_char, c_int, CStr};
use std::fs::{File, OpenOptions};
use std::io::{self, Read};
use std::os::fd::AsRawFd;
use std::os::unix::fs::OpenOptionsExt;
use std::os::unix::process::{CommandExt, ExitStatusExt};
use std::process::{Command, Stdio};
use std::thread;

/// Linux's number: the terminal does not become that of the tests.
const O_NOCTTY: i32 = 0o400;

extern "C" {
    fn unlockpt(terminal: c_int) -> c_int;
    fn ptsname_r(terminal: c_int, name: *mut c_char, room: usize) -> c_int;
    fn kill(process: c_int, signal: c_int) -> c_int;
    fn signal(signal: c_int, handler: usize) -> usize;
}

fn open(path: &str) -> io::Result<File> {
    let mut options = OpenOptions::new();
    options.read(true).write(true).custom_flags(O_NOCTTY);
    options.open(path)
}

/// Our side of a new terminal, and that of the program.
fn terminal() -> io::Result<(File, File)> {
    let ours = open("/dev/ptmx")?;
    let mut name = [0; 64];
    // SAFETY: the descriptor is open, and the name is given room of the length that is told, which ends
    // in a zero afterwards.
    let name = unsafe {
        if unlockpt(ours.as_raw_fd()) != 0
            || ptsname_r(ours.as_raw_fd(), name.as_mut_ptr(), name.len()) != 0
        {
            return Err(io::Error::last_os_error());
        }
        CStr::from_ptr(name.as_ptr())
    };
    let theirs = open(&name.to_string_lossy())?;
    Ok((ours, theirs))
}

/// A run whose output and errors go to a terminal, and all that is shown there.
pub fn shown(mut command: Command) -> Result<(Printed, String), String> {
    let said = |fault: io::Error| format!("a terminal: {fault}");
    let (mut ours, theirs) = terminal().map_err(said)?;
    command.stdout(theirs.try_clone().map_err(said)?);
    command.stderr(theirs);
    let reader = thread::spawn(move || {
        let mut shown = Vec::new();
        // Where nobody has the other side any more, reading fails: that is the end.
        let _ = ours.read_to_end(&mut shown);
        shown
    });
    let printed = run(&mut command, &Feed::whole(b""));
    // The command has a hold on the other side too.
    drop(command);
    let shown = reader.join().map_err(|_| "the reading thread failed")?;
    let shown = String::from_utf8_lossy(&shown).replace("\r\n", "\n");
    Ok((printed?, shown))
}

/// A run that is interrupted as soon as these words are shown: the signal that it has ended by, if any,
/// and all that is shown.
pub fn interrupted(mut command: Command, words: &str) -> Result<(Option<i32>, String), String> {
    const SIGINT: c_int = 2;
    const SIG_DFL: usize = 0;
    let said = |fault: io::Error| format!("a terminal: {fault}");
    let (mut ours, theirs) = terminal().map_err(said)?;
    command.stdin(Stdio::null());
    command.stdout(theirs.try_clone().map_err(said)?);
    command.stderr(theirs);
    // Who runs the tests in the background may have the signal ignored, and a child would keep that.
    // SAFETY: signal is one of the calls that are allowed between fork and exec.
    unsafe {
        command.pre_exec(|| {
            signal(SIGINT, SIG_DFL);
            Ok(())
        })
    };
    let mut child = command.spawn().map_err(said)?;
    drop(command);
    let (mut shown, mut piece, mut is_sent) = (String::new(), [0; 256], false);
    // Where nobody has the other side any more, reading fails: that is the end.
    while let Ok(length @ 1..) = ours.read(&mut piece) {
        shown += &String::from_utf8_lossy(&piece[..length]);
        if !is_sent && shown.contains(words) {
            // SAFETY: it takes numbers alone, and the child has not been waited for, so that its number
            // is still its own.
            unsafe { kill(child.id() as c_int, SIGINT) };
            is_sent = true;
        }
    }
    let status = child.wait().map_err(said)?;
    Ok((status.signal(), shown.replace("\r\n", "\n")))
}
