//! Reads and writes that fail. The program says so on standard error and stops: it prints no refusal
//! of a file that it could not read, and nothing after a write that did not go through.

use crate::cases::tables::{device_a, Tables};
use crate::oracle::expect::{search, text, BUDGET};
use crate::running::pipes;
use crate::running::runner::{piped, run, Feed, Printed};
use std::fs::{File, OpenOptions};
use std::io::{self, Read, Write};
use std::os::fd::AsRawFd;
use std::os::unix::fs::OpenOptionsExt;
use std::path::Path;
use std::process::Command;

const CANNOT_READ: &str = "plan: cannot read standard input\n";
const CANNOT_WRITE: &str = "plan: cannot write to standard output\n";

/// Linux's number, the same on every processor that the tests know.
const O_NONBLOCK: i32 = 0o4000;

/// What Linux lets a pipe hold.
const PIPE: usize = 65_536;

/// How many were tried, and what went wrong.
#[derive(Default)]
pub struct Trials {
    pub count: u64,
    pub failures: Vec<String>,
}

impl Trials {
    fn judge(&mut self, name: &str, is_right: bool, printed: &Result<Printed, String>) {
        self.count += 1;
        if !is_right {
            let left = printed.as_ref().map_or_else(String::clone, Printed::report);
            self.failures.push(format!("FAILED: {name}: {left}\n"));
        }
    }

    /// Nothing on standard output, these words on standard error, and an end by no signal.
    fn expect(&mut self, name: &str, printed: Result<Printed, String>, words: &str) {
        let is_right = printed.as_ref().is_ok_and(|printed| {
            printed.output.is_empty()
                && printed.errors == words.as_bytes()
                && printed.signal.is_none()
        });
        self.judge(name, is_right, &printed);
    }
}

pub fn all(program: &Path) -> Result<Trials, String> {
    let mut trials = Trials::default();
    let tried = unreadable(program, &mut trials)
        .and_then(|()| unwritable(program, &mut trials))
        .and_then(|()| no_room_for_all(program, &mut trials));
    tried.map_err(|fault| format!("a stream cannot be set up: {fault}"))?;
    Ok(trials)
}

/// The program by a line of shell, in which `$0` stands for it.
fn by_shell(line: &str, program: &Path) -> Command {
    let mut command = piped(Path::new("sh"));
    command.arg("-c").arg(line).arg(program);
    command
}

/// The same end of a pipe once more, one that does not wait: a read or write fails instead.
fn impatient(end: &impl AsRawFd, options: &mut OpenOptions) -> io::Result<File> {
    let path = format!("/proc/self/fd/{}", end.as_raw_fd());
    options.custom_flags(O_NONBLOCK).open(path)
}

/// Eight rows of 2,000 letters.
fn long_plan() -> Vec<u8> {
    Tables {
        horizon: 2000,
        devices: vec![device_a(); 8],
        ..Tables::default()
    }
    .bytes()
}

fn unreadable(program: &Path, trials: &mut Trials) -> io::Result<()> {
    let (nothing, end) = (Feed::whole(&[]), CANNOT_READ);

    let mut directory = piped(program);
    directory.stdin(File::open("/")?);
    trials.expect(
        "standard input is a directory",
        run(&mut directory, &nothing),
        end,
    );

    let mut closed = by_shell("exec \"$0\" <&-", program);
    trials.expect("standard input is closed", run(&mut closed, &nothing), end);

    // The first bytes come. Then a read fails, for more may follow: the writer is there to the end.
    let (reader, mut writer) = io::pipe()?;
    writer.write_all(&long_plan()[..9])?;
    let mut broken_off = piped(program);
    broken_off.stdin(impatient(&reader, OpenOptions::new().read(true))?);
    trials.expect(
        "standard input breaks off",
        run(&mut broken_off, &nothing),
        end,
    );
    drop(writer);
    Ok(())
}

fn unwritable(program: &Path, trials: &mut Trials) -> io::Result<()> {
    for (what, file) in [("plan", long_plan()), ("refusal", Vec::new())] {
        let mut expect = |how: &str, command: &mut Command| {
            let printed = run(command, &Feed::whole(&file));
            trials.expect(&format!("{what}: {how}"), printed, CANNOT_WRITE);
        };

        let mut full = piped(program);
        full.stdout(OpenOptions::new().write(true).open("/dev/full")?);
        expect("standard output is full", &mut full);

        let mut closed = by_shell("exec \"$0\" >&-", program);
        expect("standard output is closed", &mut closed);

        // Programs in Rattle pass over the signal of such a write, also where their caller does not.
        let mut unheard = piped(program);
        unheard.stdout(pipes::unheard()?);
        expect("nobody reads", &mut unheard);

        let mut unmoved = by_shell("trap '' PIPE; exec \"$0\"", program);
        unmoved.stdout(pipes::unheard()?);
        let how = "nobody reads, and the signal is ignored";
        expect(how, &mut unmoved);
    }
    Ok(())
}

/// A pipe with room for some rows and not for all, which does not wait. A row that finds no room is
/// not written, and a short line after it would be: what comes through must be the plan's beginning.
fn no_room_for_all(program: &Path, trials: &mut Trials) -> io::Result<()> {
    let filler = vec![b'.'; PIPE - 7_000];
    let (mut reader, mut writer) = io::pipe()?;
    writer.write_all(&filler)?;
    let mut command = piped(program);
    command.stdout(impatient(&writer, OpenOptions::new().write(true))?);
    let file = long_plan();
    let printed = run(&mut command, &Feed::whole(&file));
    // All holds on the writing end go, so that reading comes to an end.
    drop((command, writer));
    let mut through = Vec::new();
    reader.read_to_end(&mut through)?;

    let plan = text(&search(&file, BUDGET));
    let part = through.strip_prefix(filler.as_slice());
    let is_beginning = part.is_some_and(|part| {
        !part.is_empty() && part.len() < plan.len() && plan.as_bytes().starts_with(part)
    });
    let is_said = printed
        .as_ref()
        .is_ok_and(|printed| printed.errors == CANNOT_WRITE.as_bytes());
    trials.judge(
        "a pipe with too little room",
        is_beginning && is_said,
        &printed,
    );
    Ok(())
}
