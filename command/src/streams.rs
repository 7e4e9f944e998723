//! Reading what is given and writing what is asked for, where every failure is told.

use crate::calls::system;
use crate::failure::Failure;
use crate::text::lines::{is_hidden, visible};
use std::ffi::{OsStr, OsString};
use std::fs::{self, File, Metadata};
use std::io::{self, IsTerminal, Read, Write};
use std::os::fd::AsFd;
use std::os::unix::fs::{FileTypeExt, MetadataExt};
use std::path::Path;

/// More than any request with the longest comments has: a stream without end is not read for ever.
const MOST: u64 = 16 << 20;

/// How a file is called in messages: what cannot be seen in its name is spelt out, and of a long one the end is said.
pub fn name(path: &OsStr) -> String {
    const SAID: usize = 200;
    if path == "-" {
        return "standard input".to_string();
    }
    let name = visible(&path.to_string_lossy());
    match name.char_indices().nth_back(SAID) {
        None => name,
        Some((before, char)) => format!("...{}", &name[before + char.len_utf8()..]),
    }
}

/// All bytes of a file, or of standard input for `-`.
pub fn read(path: &OsStr) -> Result<Vec<u8>, Failure> {
    let failed = |why: String| Failure::Stream(format!("floe: cannot read {}: {why}", name(path)));
    let mut bytes = Vec::new();
    let is_awaited = is_awaited(path);
    if is_awaited {
        let name = name(path);
        tell(&format!(
            "floe: waiting for what {name} brings; Ctrl-C ends it"
        ));
    }
    let read = open(path).and_then(|file| file.take(MOST + 1).read_to_end(&mut bytes));
    if is_awaited {
        tell("");
    }
    read.map_err(|why| failed(why.to_string()))?;
    if bytes.len() as u64 > MOST {
        return Err(failed(format!("it has more than {MOST} bytes")));
    }
    Ok(bytes)
}

/// Whether nothing may come for long: a pipe with a name, to which nobody may write.
fn is_awaited(path: &OsStr) -> bool {
    path != "-" && fs::metadata(path).is_ok_and(|file| file.file_type().is_fifo())
}

/// What a file is, whatever it is called.
fn kept(path: &OsStr) -> io::Result<Metadata> {
    match path == "-" {
        true => open(path)?.metadata(),
        false => fs::metadata(path),
    }
}

/// Whether two names are of one file, as links may be. What is no file of a disk may be read and written.
pub fn is_one_file(one: &OsStr, other: &OsStr) -> bool {
    match (kept(one), kept(other)) {
        (Ok(one), Ok(other)) => {
            one.is_file() && (one.dev(), one.ino()) == (other.dev(), other.ino())
        }
        _ => false,
    }
}

/// That there is nothing in a file where something is wanted. Where a pipe brings nothing, the command
/// in front of it has said why.
pub fn empty(path: &OsStr, wanted: &str) -> Failure {
    Failure::Refused(format!("floe: {}: {wanted}", emptiness(path)))
}

/// The same as the beginning of a sentence.
pub fn emptiness(path: &OsStr) -> String {
    let name = name(path);
    match path == "-" {
        true => format!(
            "{name} is empty (if a command stands before the pipe, what it says is the reason)"
        ),
        false => format!("{name} is empty"),
    }
}

/// Standard input as a file: Rust's own takes one that cannot be read for one that is empty.
fn open(path: &OsStr) -> io::Result<File> {
    if path != "-" {
        return File::open(path);
    }
    if system::input_was_closed() {
        return Err(io::Error::other("it is closed"));
    }
    Ok(File::from(io::stdin().as_fd().try_clone_to_owned()?))
}

/// Writes everything to standard output. As a file too: Rust's own takes a write to one that cannot
/// be written for done.
pub fn print(bytes: &[u8]) -> Result<(), Failure> {
    let write = || {
        if system::output_was_closed() {
            return Err(io::Error::other("it is closed"));
        }
        File::from(io::stdout().as_fd().try_clone_to_owned()?).write_all(bytes)
    };
    write().map_err(|why| Failure::Stream(format!("floe: cannot write to standard output: {why}")))
}

/// Whether standard output is a terminal, which bytes that are no text would spoil.
pub fn is_output_shown() -> bool {
    io::stdout().is_terminal()
}

/// Writes everything to a file, which is made or replaced: as a whole, or it stays what it was.
pub fn save(path: &OsStr, bytes: &[u8]) -> Result<(), Failure> {
    let failed = |why| Failure::Stream(format!("floe: cannot write to {}: {why}", name(path)));
    replace(path, bytes).map_err(failed)
}

/// What is no file of a disk, or has other names, cannot be replaced, and is written to.
fn replace(path: &OsStr, bytes: &[u8]) -> io::Result<()> {
    let there = fs::metadata(path);
    let is_alone = |file: &Metadata| file.is_file() && file.nlink() == 1;
    // A link to what is not there yet stays a link too.
    let is_dangling = || there.is_err() && fs::symlink_metadata(path).is_ok();
    if there.as_ref().is_ok_and(|file| !is_alone(file)) || is_dangling() {
        return fs::write(path, bytes);
    }
    // A link stays one.
    let place = fs::canonicalize(path).unwrap_or_else(|_| path.into());
    let beside = beside(&place);
    let mut options = File::options();
    let Ok(mut new) = options.write(true).create_new(true).open(&beside) else {
        // A folder that may not be written to, with a file in it that may.
        return fs::write(path, bytes);
    };
    let written = new.write_all(bytes).and_then(|()| match &there {
        Ok(file) => new.set_permissions(file.permissions()),
        Err(_) => Ok(()),
    });
    let written = written.and_then(|()| new.sync_all());
    let renamed = written.and_then(|()| fs::rename(&beside, &place));
    if renamed.is_err() {
        let _ = fs::remove_file(&beside);
    }
    renamed
}

/// A name in the same folder, of this process alone.
fn beside(place: &Path) -> OsString {
    let mut name = place.as_os_str().to_os_string();
    name.push(format!(".{}.new", std::process::id()));
    name
}

/// A message on standard error, of which nothing can move a terminal. Where that fails too there is nobody to tell;
/// the status remains.
pub fn complain(message: &str) {
    let hidden = |char: char| char != '\n' && is_hidden(char);
    let message = match message.contains(hidden) {
        true => message
            .split('\n')
            .map(visible)
            .collect::<Vec<_>>()
            .join("\n"),
        false => message.to_string(),
    };
    let _ = writeln!(io::stderr(), "{message}");
}

/// Whether what goes on is told.
pub fn is_told() -> bool {
    io::stderr().is_terminal()
}

/// One line on a terminal that the next one replaces; elsewhere nothing is said.
pub fn tell(message: &str) {
    if is_told() {
        let _ = write!(io::stderr(), "\r{message}\x1b[K");
    }
}
