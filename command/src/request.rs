//! A request as it is given: a request file, or its text form.

use crate::calls::planner::{self, Refused, Sizes, Written};
use crate::conflict;
use crate::failure::Failure;
use crate::foreign;
use crate::jobs::jobs;
use crate::names::Names;
use crate::place::File;
use crate::refusal;
use crate::streams;
use crate::tables::Tables;
use crate::text::lines::Fault;
use crate::text::reader::{self, Text};
use std::ffi::OsStr;
use std::time::Duration;

/// Whether bytes are text and not a request file: they begin with three characters of text. Byte 2 of
/// every request file that is accepted is its device count, at most 8, and so no character of text,
/// unless the file begins with FF, which is none either. What is shorter is taken for a file, and
/// refused 1.
pub fn is_text(bytes: &[u8]) -> bool {
    let is_character = |byte: &u8| *byte >= b' ' || b"\t\n\r".contains(byte);
    match bytes {
        [0xFF, ..] => false,
        [first, second, third, ..] => [first, second, third].into_iter().all(is_character),
        _ => false,
    }
}

/// The bytes of a request, accepted by the library or not, and what its things are called.
pub struct Request {
    pub file: Vec<u8>,
    names: Names,
    /// The horizon and the tables, of a request that was made of them. Reading it gives the same.
    made_of: Option<(usize, Tables)>,
}

impl Request {
    /// What the library has written of these tables.
    pub fn written(written: Written, tables: Tables, names: Names) -> Request {
        Request {
            file: written.file,
            names,
            made_of: Some((written.horizon, tables)),
        }
    }

    /// Reads a request; text is written to a file by the library, or refused by it.
    pub fn open(path: &OsStr) -> Result<Request, Failure> {
        Request::of_bytes(path, streams::read(path)?)
    }

    /// The same of bytes that were read from there.
    pub fn of_bytes(path: &OsStr, bytes: Vec<u8>) -> Result<Request, Failure> {
        if bytes.is_empty() {
            return Err(refusal::words(1, streams::emptiness(path)));
        }
        if !is_text(&bytes) {
            return Ok(Request {
                file: bytes,
                names: Names::default(),
                made_of: None,
            });
        }
        let text = reader::read(&bytes).map_err(|fault| not_read(path, fault, &bytes))?;
        Request::of_text(text)
    }

    fn of_text(text: Text) -> Result<Request, Failure> {
        let Text {
            tables,
            places,
            names,
        } = text;
        match planner::write(&tables) {
            Ok(written) => Ok(Request::written(written, tables, names)),
            Err(refused) => {
                let bytes = tables.laid_out();
                let file = File::of_tables(&tables, &bytes);
                Err(refusal::of_file(
                    refused.number,
                    file,
                    Some(&places),
                    &names,
                ))
            }
        }
    }

    /// The numbers of a request that is accepted.
    pub fn sizes(&self) -> Result<Sizes, Failure> {
        planner::sizes(&self.file).map_err(|refused| self.refused(refused))
    }

    /// The horizon and the tables of a request that is accepted.
    pub fn tables(&self) -> Result<(usize, Tables), Failure> {
        match &self.made_of {
            Some((horizon, tables)) => Ok((*horizon, tables.clone())),
            None => planner::tables(&self.file).map_err(|refused| self.refused(refused)),
        }
    }

    /// What everything is called, the jobs that tasks release too. In a file nothing has a name.
    pub fn names(&self) -> Names {
        let names = self.names.clone();
        match &self.made_of {
            Some((horizon, tables)) => names.of_jobs(&jobs(tables, *horizon)),
            None => names,
        }
    }

    /// What its lines call things: jobs only where they are listed.
    pub fn written_names(&self) -> &Names {
        &self.names
    }

    /// A refusal of the file itself. A text that is refused never comes to be one.
    fn refused(&self, refused: Refused) -> Failure {
        let file = File::new(&self.file);
        let failure = refusal::of_file(refused.number, file, None, &self.names);
        match foreign::told(&self.file) {
            None => failure,
            Some(words) => Failure::Refused(format!("{}; {words}", failure.message())),
        }
    }

    /// A refusal by an operation without start times.
    pub fn not_found(&self, refused: Refused) -> Failure {
        match refused.number {
            19 => {
                let words = self.tables().ok().and_then(|(horizon, tables)| {
                    conflict::words(horizon, &jobs(&tables, horizon), &self.names())
                });
                refusal::of_search(refused, words)
            }
            20 => refusal::of_search(refused, None),
            _ => self.refused(refused),
        }
    }

    /// A refusal by the search that remembers, after so long.
    pub fn not_remembered(&self, refused: Refused, after: Duration) -> Failure {
        match refused.number {
            20 => refusal::given_up(refused, after),
            _ => self.not_found(refused),
        }
    }

    /// A refusal by an operation on these start times.
    pub fn not_judged(&self, refused: Refused, starts: &[u16]) -> Failure {
        let Ok((horizon, tables)) = self.tables() else {
            return self.refused(refused);
        };
        let (jobs, names) = (jobs(&tables, horizon), self.names());
        match refused.number {
            14 | 16..=18 => refusal::of_starts(refused, &jobs, starts, &names),
            24 | 25 => refusal::of_steps(refused.number, &tables, &jobs, &names),
            _ => self.refused(refused),
        }
    }
}

/// A text that cannot be read. A sheet is none, and where it belongs is said.
fn not_read(path: &OsStr, mut fault: Fault, bytes: &[u8]) -> Failure {
    let line = bytes.split(|&byte| byte == b'\n').next().unwrap_or(bytes);
    let commas = line.iter().filter(|byte| b",;".contains(byte)).count();
    if fault.line == 1 && fault.column == 1 && commas > 1 {
        fault.message += "; a sheet is given by --jobs, --tasks or --catalogue";
    }
    malformed(path, &fault)
}

pub fn malformed(path: &OsStr, fault: &Fault) -> Failure {
    let Fault {
        line,
        column,
        message,
    } = fault;
    let name = streams::name(path);
    Failure::Refused(format!(
        "floe: {name}: line {line}, column {column}: {message}"
    ))
}

#[cfg(test)]
mod tests {
    use super::*;

    #[test]
    fn a_file_that_begins_like_text_is_told_by_its_device_count() {
        // Horizons 0x0A20, 0x0923 and 0x0D0A: a line feed, a tab and a carriage return in front.
        for horizon in [[0x0A, 0x20], [0x09, 0x23], [0x0D, 0x0A]] {
            for devices in 0..=8 {
                assert!(!is_text(&[horizon[0], horizon[1], devices, 0, 0]));
            }
        }
        assert!(!is_text(&[0xFF, 0x02, 0x23, 0x23]));
        // Too many devices, and a file all the same.
        assert!(!is_text(&[0, 5, 9, 0, 0]) && !is_text(&[16, 0, 40, 0, 0]));
        assert!(!is_text(b"") && !is_text(b"# "));
    }

    #[test]
    fn text_is_text() {
        for text in [
            "horizon 5\n",
            "# a\n",
            "\n\n\nhorizon 5",
            "\u{FEFF}job",
            "\r\n#",
        ] {
            assert!(is_text(text.as_bytes()), "{text:?}");
        }
    }
}
