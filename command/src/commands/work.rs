//! Work that may take long: on a terminal it is told for how long it has been going on, and Ctrl-C ends
//! it with a word.

use crate::calls::system;
use crate::failure::Failure;
use crate::streams;
use std::sync::mpsc::{self, RecvTimeoutError};
use std::thread;
use std::time::{Duration, Instant};

/// More than include/floebucket.h asks for, and so little that it is there where memory is short.
const STACK: usize = 4 << 20;

/// How often it is looked whether to say something.
const PAUSE: Duration = Duration::from_millis(100);

/// Does the work in a thread of its own, and waits for it.
pub fn at_work<T: Send>(work: impl FnOnce() -> T + Send) -> Result<T, Failure> {
    let begun = Instant::now();
    let (done, waiting) = mpsc::channel();
    if streams::is_told() {
        system::listen_for_interrupts();
    }
    thread::scope(|scope| {
        let worker = thread::Builder::new().stack_size(STACK);
        let started = worker.spawn_scoped(scope, move || done.send(work()));
        started.map_err(|why| Failure::Stream(format!("floe: cannot begin a thread: {why}")))?;
        let mut told = 0;
        loop {
            let seconds = begun.elapsed().as_secs();
            match waiting.recv_timeout(PAUSE) {
                Ok(done) => {
                    streams::tell("");
                    return Ok(done);
                }
                Err(RecvTimeoutError::Disconnected) => {
                    let message = "floe: the work has ended without an answer";
                    return Err(Failure::Stream(message.to_string()));
                }
                Err(RecvTimeoutError::Timeout) if system::is_interrupted() => {
                    streams::tell("");
                    streams::complain(&format!("floe: ended after {seconds} s, without a plan"));
                    system::end_by_interrupt();
                }
                Err(RecvTimeoutError::Timeout) if seconds > told => {
                    told = seconds;
                    streams::tell(&format!("floe: at work for {seconds} s; Ctrl-C ends it"));
                }
                Err(RecvTimeoutError::Timeout) => {}
            }
        }
    })
}
