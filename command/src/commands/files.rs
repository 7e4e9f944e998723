//! write, show and build.

use crate::arguments::Arguments;
use crate::failure::Failure;
use crate::options::{PARTS_FROM, TEXT};
use crate::request::Request;
use crate::source::{self, Parts, Paths, Source};
use crate::streams;
use crate::text::show::show as text_of;
use std::ffi::OsString;

pub fn write(mut arguments: Arguments) -> Result<Vec<u8>, Failure> {
    let request = Source::alone(&mut arguments)?.open()?;
    file_of(request)
}

pub fn show(mut arguments: Arguments) -> Result<Vec<u8>, Failure> {
    let request = Source::alone(&mut arguments)?.open()?;
    shown(&request)
}

fn shown(request: &Request) -> Result<Vec<u8>, Failure> {
    let (horizon, tables) = request.tables()?;
    Ok(text_of(&tables, request.written_names(), horizon).into_bytes())
}

/// The bytes of a request that is accepted. They are no text, and a terminal would only be spoilt.
fn file_of(request: Request) -> Result<Vec<u8>, Failure> {
    request.tables()?;
    if streams::is_output_shown() {
        let message = "a request file is bytes and no text, and standard output is a terminal: \
                       send it to a file (> request.floe) or a pipe, or ask for its text (show, build --text)";
        return Err(Failure::Usage(message.to_string()));
    }
    Ok(request.file)
}

/// A request from a catalogue: by words in their order, or by options alone.
pub fn build(mut arguments: Arguments) -> Result<Vec<u8>, Failure> {
    let source = match source::has_files(&arguments) {
        true => Source::alone(&mut arguments)?,
        false => Source::Made(ordered(&mut arguments)?),
    };
    let request = source.open()?;
    match arguments.has(&TEXT) {
        true => shown(&request),
        false => file_of(request),
    }
}

/// The files and parts that stand as words.
fn ordered(arguments: &mut Arguments) -> Result<Paths, Failure> {
    let catalogue = arguments.next("CATALOGUE")?;
    let jobs = arguments.next("REQUEST")?;
    let words = arguments.rest();
    let parts = match arguments.option(&PARTS_FROM) {
        None => Parts::Given(words),
        Some(path) if words.is_empty() => Parts::Listed(OsString::from(path)),
        Some(_) => {
            let message = "parts are given, and --parts-from too: one of them is enough";
            return Err(Failure::Usage(message.to_string()));
        }
    };
    Ok(Paths {
        catalogue: Some(catalogue),
        jobs: Some(jobs),
        tasks: None,
        parts: Some(parts),
        horizon: arguments.horizon()?,
    })
}
