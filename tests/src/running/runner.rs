//! Running the program on one file.

use crate::running::pipes::wait_for_reader;
use std::io::{self, Read, Write};
use std::os::unix::process::ExitStatusExt;
use std::path::Path;
use std::process::{Child, ChildStdin, Command, Stdio};
use std::sync::mpsc::{self, Receiver};
use std::thread;
use std::time::Duration;

/// Far longer than any case takes on the busiest machine: a program that hangs must fail the tests and
/// not hang them.
const PATIENCE: Duration = Duration::from_secs(600);

/// What is fed: a file in pieces of these lengths, of which each comes when the one before it has been
/// read.
pub struct Feed<'a> {
    pub file: &'a [u8],
    pub pieces: Vec<usize>,
}

impl Feed<'_> {
    pub fn whole(file: &[u8]) -> Feed<'_> {
        Feed {
            file,
            pieces: vec![file.len()],
        }
    }
}

/// What a run has left. A stream that the caller set up itself is not listened to, and is empty here.
pub struct Printed {
    pub output: Vec<u8>,
    pub errors: Vec<u8>,
    /// The status that it ended with, or the signal that ended it.
    pub status: Option<i32>,
    pub signal: Option<i32>,
}

impl Printed {
    /// The output of a run in which nothing went wrong: no signal, and no word on standard error.
    pub fn clean(self) -> Result<Vec<u8>, String> {
        if let Some(signal) = self.signal {
            return Err(format!("ended by signal {signal}"));
        }
        if !self.errors.is_empty() {
            let errors = String::from_utf8_lossy(&self.errors);
            return Err(format!("on standard error: {errors:?}"));
        }
        Ok(self.output)
    }

    pub fn report(&self) -> String {
        let [output, errors] =
            [&self.output, &self.errors].map(|text| String::from_utf8_lossy(text));
        let (status, signal) = (self.status, self.signal);
        format!("output {output:?}, errors {errors:?}, status {status:?}, signal {signal:?}")
    }
}

/// A command with pipes of ours for all three streams.
pub fn piped(program: &Path) -> Command {
    let mut command = Command::new(program);
    command.stdin(Stdio::piped());
    command.stdout(Stdio::piped());
    command.stderr(Stdio::piped());
    command
}

/// Runs a command to its end, feeding it if its standard input is a pipe of ours.
pub fn run(command: &mut Command, feed: &Feed) -> Result<Printed, String> {
    let mut child = command
        .spawn()
        .map_err(|fault| format!("{command:?} does not start: {fault}"))?;
    let heard = talk(&mut child, feed);
    if heard.is_err() {
        // It may have ended by itself meanwhile, and then there is nothing to end.
        let _ = child.kill();
    }
    let status = child.wait().map_err(|fault| fault.to_string())?;
    let (output, errors) = heard?;
    Ok(Printed {
        output,
        errors,
        status: status.code(),
        signal: status.signal(),
    })
}

/// Feeds and listens at the same time, so that neither side can wait for the other for ever.
fn talk(child: &mut Child, feed: &Feed) -> Result<(Vec<u8>, Vec<u8>), String> {
    let output = child.stdout.take().map(listen);
    let errors = child.stderr.take().map(listen);
    let feeder = child.stdin.take().map(|stdin| {
        let (file, pieces) = (feed.file.to_vec(), feed.pieces.clone());
        thread::spawn(move || write_pieces(stdin, &file, &pieces))
    });
    let output = heard(output)?;
    let errors = heard(errors)?;
    match feeder.map(|feeder| feeder.join()) {
        None | Some(Ok(Ok(()))) => Ok((output, errors)),
        Some(Ok(Err(fault))) => Err(format!("standard input: {fault}")),
        Some(Err(_)) => Err("the feeding thread failed".to_string()),
    }
}

fn listen(mut stream: impl Read + Send + 'static) -> Receiver<io::Result<Vec<u8>>> {
    let (sender, receiver) = mpsc::channel();
    thread::spawn(move || {
        let mut bytes = Vec::new();
        let read = stream.read_to_end(&mut bytes).map(|_| bytes);
        // Nobody listens any more if the patience has run out.
        let _ = sender.send(read);
    });
    receiver
}

fn heard(stream: Option<Receiver<io::Result<Vec<u8>>>>) -> Result<Vec<u8>, String> {
    let Some(stream) = stream else {
        return Ok(Vec::new());
    };
    stream
        .recv_timeout(PATIENCE)
        .map_err(|_| format!("no end of output after {} s", PATIENCE.as_secs()))?
        .map_err(|fault| format!("a stream of the program: {fault}"))
}

fn write_pieces(mut stdin: ChildStdin, file: &[u8], pieces: &[usize]) -> io::Result<()> {
    let mut rest = file;
    for &length in pieces {
        if !wait_for_reader(&stdin)? {
            return Ok(());
        }
        let (piece, later) = rest.split_at(length);
        rest = later;
        match stdin.write_all(piece) {
            // The number may be certain before the end of a long file, and the program gone.
            Err(fault) if fault.kind() == io::ErrorKind::BrokenPipe => return Ok(()),
            written => written?,
        }
    }
    Ok(())
}
