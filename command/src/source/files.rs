//! Reading the files that a request is made of, each a sheet or a text.

use super::Source;
use crate::failure::Failure;
use crate::foreign;
use crate::kinds::FIRST;
use crate::names::Names;
use crate::options::HORIZON;
use crate::request::{self, malformed, Request};
use crate::sheets;
use crate::streams;
use crate::tables::{Tables, MOST_TASKS};
use crate::text::catalogue::{self, Catalogue};
use crate::text::reader::{self, Places, Text};
use std::ffi::OsStr;

/// What a sheet without a request brings.
#[derive(Clone, Copy, PartialEq, Eq)]
pub enum Rows {
    Jobs,
    Tasks,
}

/// The tables of a text, of a request that is accepted, or of a sheet of these rows. A text may use
/// devices that only a catalogue brings, and is not judged here.
pub fn tables_in(source: Source, rows: Rows) -> Result<Tables, Failure> {
    let Source::File(path) = source else {
        return Ok(source.open()?.tables()?.1);
    };
    let bytes = streams::read(&path)?;
    match (request::is_text(&bytes), rows) {
        (false, _) => Ok(Request::of_bytes(&path, bytes)?.tables()?.1),
        (true, Rows::Jobs) if sheets::is_sheet(&bytes, &reader::WORDS) => {
            Ok(sheets::jobs(&path, &bytes, 0)?.tables)
        }
        (true, Rows::Tasks) if sheets::is_sheet(&bytes, &reader::WORDS) => {
            let mut others = bare(0);
            add_tasks(&mut others, &path, &bytes)?;
            Ok(others.tables)
        }
        (true, _) => {
            let text = reader::read(&bytes).map_err(|fault| malformed(&path, &fault))?;
            Ok(text.tables)
        }
    }
}

/// The sections that no sheet brings.
pub fn bare(horizon: u16) -> Text {
    let mut tables = Tables::empty();
    tables.horizon = horizon;
    Text {
        tables,
        places: Places::default(),
        names: Names::default(),
    }
}

/// All bytes of a sheet or text, which has to have some, and no tabs in the place of commas.
pub fn content(path: &OsStr, what: &str) -> Result<Vec<u8>, Failure> {
    let bytes = filled(path, what)?;
    match is_tabbed(&bytes) {
        true => Err(refused(path, "its columns are parted by tabs: in the dialogue on saving choose the comma as field delimiter")),
        false => Ok(bytes),
    }
}

/// All bytes of a sheet or text, which has to have some: a file that is empty by mistake is no sheet
/// without lines.
fn filled(path: &OsStr, what: &str) -> Result<Vec<u8>, Failure> {
    let bytes = streams::read(path)?;
    if let Some(words) = foreign::told(&bytes) {
        return Err(refused(path, words));
    }
    match bytes.iter().all(u8::is_ascii_whitespace) {
        true => Err(streams::empty(path, &format!("{what} has a line for each"))),
        false => Ok(bytes),
    }
}

fn refused(path: &OsStr, words: &str) -> Failure {
    let name = streams::name(path);
    Failure::Refused(format!("floe: {name}: {words}"))
}

/// Whether the first line with something in it is that of a sheet with tabs in the place of commas. In a text, which
/// begins with a word of its own, a tab is a blank.
fn is_tabbed(bytes: &[u8]) -> bool {
    let mut lines = bytes.split(|&byte| byte == b'\n');
    let Some(line) = lines.find(|line| !line.iter().all(u8::is_ascii_whitespace)) else {
        return false;
    };
    let text = String::from_utf8_lossy(line);
    let first = text.split_whitespace().next().unwrap_or("");
    let is_text = first.starts_with('#')
        || reader::WORDS
            .iter()
            .chain(&catalogue::WORDS)
            .any(|word| *word == first);
    text.trim().contains('\t') && !text.contains([',', ';']) && !is_text
}

/// A catalogue, as a sheet or as text.
pub fn catalogue_in(path: &OsStr) -> Result<Catalogue, Failure> {
    let bytes = filled(path, "a catalogue of parts")?;
    catalogue_of(path, &bytes)
}

fn catalogue_of(path: &OsStr, bytes: &[u8]) -> Result<Catalogue, Failure> {
    if sheets::is_sheet(bytes, &catalogue::WORDS) {
        return sheets::catalogue(path, bytes);
    }
    catalogue::read(bytes).map_err(|fault| malformed(path, &fault))
}

/// A catalogue, or else the request that the file is.
pub fn catalogue_or_request(path: &OsStr) -> Result<Result<Catalogue, Request>, Failure> {
    let bytes = content(path, "a catalogue of parts")?;
    let is_catalogue = sheets::is_sheet(&bytes, &reader::WORDS) || catalogue::is_one(&bytes);
    match is_catalogue {
        true => catalogue_of(path, &bytes).map(Ok),
        false => Request::of_bytes(path, bytes).map(Err),
    }
}

/// The horizon, the tasks and the jobs, or a sheet of jobs with the horizon beside it; and whether it
/// was a text. They may use devices that only the catalogue brings, so that they are taken as text and
/// not from a file, which would be refused. In a text these devices are called by their part numbers.
pub fn without_devices(
    path: &OsStr,
    horizon: Option<u16>,
    wanted: &[String],
) -> Result<(Text, bool), Failure> {
    let bytes = content(path, "a sheet of jobs")?;
    if sheets::is_sheet(&bytes, &reader::WORDS) {
        let jobs = sheets::jobs(path, &bytes, horizon.unwrap_or(0))?;
        return Ok((jobs, false));
    }
    if horizon.is_some() {
        let name = HORIZON.name;
        let message = format!("{name} goes with a sheet of jobs: a text has a line for it");
        return Err(Failure::Usage(message));
    }
    let names = Names::of_parts(wanted).devices;
    let text = reader::read_with(&bytes, &names).map_err(|fault| malformed(path, &fault))?;
    let number = text.tables.kind.number;
    let fault = match (text.places.kind, text.places.devices.first()) {
        (Some(line), _) if number != FIRST.number => Some((
            line,
            format!("kind {number}, and the parts of a catalogue are of kind 1"),
        )),
        (_, Some(&line)) => {
            let message = "a device, and the catalogue brings the devices";
            Some((line, message.to_string()))
        }
        _ => None,
    };
    match fault {
        None => Ok((text, true)),
        Some((line, message)) => Err(Failure::Refused(format!(
            "floe: {}: line {line}, column 1: {message}",
            streams::name(path)
        ))),
    }
}

/// The tasks of a sheet beside what else there is.
pub fn add_tasks(others: &mut Text, path: &OsStr, bytes: &[u8]) -> Result<(), Failure> {
    let tasks = sheets::tasks::tasks(path, bytes)?;
    for (record, line) in tasks.into_iter().zip(1..) {
        others.tables.tasks.add(record, MOST_TASKS);
        others.places.tasks.push(line);
        others.names.tasks.push(None);
    }
    Ok(())
}
