//! Sheets, which are comma-separated text: what a line of them says is the library's to judge. Here
//! they are told from texts, made ready for the library, and their faults put into words.

pub mod columns;
mod faults;
pub mod fields;
pub mod starts;
pub mod tasks;

use crate::calls::planner::{self, Refused};
use crate::failure::Failure;
use crate::names::Names;
use crate::refusal;
use crate::streams;
use crate::tables::{Tables, MOST_JOBS};
use crate::text::catalogue::Catalogue;
use crate::text::part::padded;
use crate::text::reader::{Places, Text};
use columns::{Column, DEVICES, JOBS};
use faults::Fault;
use fields::{lines, pieces};
use std::borrow::Cow;
use std::ffi::OsStr;

/// The mark that some spreadsheets put in front of a text is no part of it.
fn unmarked(bytes: &[u8]) -> &[u8] {
    bytes.strip_prefix(b"\xEF\xBB\xBF").unwrap_or(bytes)
}

/// Whether bytes are a sheet and no text form, whose first line is a comment or begins with one of
/// these words. The first line of a sheet has a comma, or what a hurried one has in its place; or it is
/// one word that begins like a part number or a number.
pub fn is_sheet(bytes: &[u8], words: &[&str]) -> bool {
    let text = String::from_utf8_lossy(unmarked(bytes));
    let Some(line) = text.lines().find(|line| !line.trim().is_empty()) else {
        return false;
    };
    let front: Vec<&str> = line.split_whitespace().take(3).collect();
    let commas = line.matches([',', ';']).count();
    if front[0].starts_with('#') {
        return false;
    }
    if words.contains(&front[0]) {
        // As in a header: a text has more words, or no commas.
        return front.len() == 2 && commas > 1;
    }
    let field = line.split([',', ';']).next().unwrap_or("");
    let is_like_one =
        |char: char| char.is_ascii_digit() || char.is_ascii_uppercase() || char == '"';
    match commas {
        0 => front.len() == 1 && front[0].starts_with(is_like_one),
        _ => field.split_whitespace().count() <= 2,
    }
}

/// A sheet as the library takes it: its lines end in CR LF. Where they end in LF alone, as a spreadsheet
/// program on Linux writes them, or all in CR alone, the other is put back, and that is said.
fn ready<'a>(path: &OsStr, bytes: &'a [u8]) -> Cow<'a, [u8]> {
    let sheet = unmarked(bytes);
    let (whole, ends) = match sheet.contains(&b'\n') {
        true => (with_returns(sheet), "LF"),
        false => (with_feeds(sheet), "CR"),
    };
    if whole == sheet {
        return Cow::Borrowed(sheet);
    }
    let name = streams::name(path);
    streams::complain(&format!(
        "floe: {name}: its lines end in {ends} alone; it is taken as if they ended in CR LF"
    ));
    Cow::Owned(whole)
}

/// With a CR before every LF.
fn with_returns(sheet: &[u8]) -> Vec<u8> {
    let mut whole = Vec::new();
    for &byte in sheet {
        if byte == b'\n' && whole.last() != Some(&b'\r') {
            whole.push(b'\r');
        }
        whole.push(byte);
    }
    whole
}

/// With an LF after every CR.
fn with_feeds(sheet: &[u8]) -> Vec<u8> {
    let pieces: Vec<&[u8]> = sheet.split(|&byte| byte == b'\r').collect();
    pieces.join(&b"\r\n"[..])
}

type Records = Vec<Vec<u8>>;

/// A kind of sheet: its columns, and what the library says of one.
struct Kind {
    columns: &'static [Column],
    import: fn(&[u8]) -> Result<Records, Refused>,
    /// The number of one that is refused, and the line, counted from 0.
    fault: fn(&[u8]) -> Option<(u8, usize)>,
}

const OF_DEVICES: Kind = Kind {
    columns: &DEVICES,
    import: planner::import_devices,
    fault: planner::devices_fault,
};

const OF_JOBS: Kind = Kind {
    columns: &JOBS,
    import: planner::import_jobs,
    fault: planner::jobs_fault,
};

/// The records of a sheet, and the line of each.
fn records(path: &OsStr, bytes: &[u8], kind: &Kind) -> Result<(Records, Vec<usize>), Failure> {
    let sheet = ready(path, bytes);
    match (kind.import)(&sheet) {
        Ok(records) => {
            let lines = (1..=records.len()).collect();
            Ok((records, lines))
        }
        Err(refused) => {
            let (number, line) = (kind.fault)(&sheet).unwrap_or((refused.number, 0));
            let line = line + 1;
            let file = streams::name(path);
            let before: Vec<&[u8]> = lines(&sheet).take(line).collect();
            Err(match fault(number, &before, line, kind.columns) {
                Some(fault) => refusal::said(number, fault.place(line, &file), fault.words),
                None => refusal::at(number, format!("line {line} of {file}")),
            })
        }
    }
}

/// What is wrong with the line that the library refuses, by the number that it gives.
fn fault(number: u8, lines: &[&[u8]], line: usize, columns: &'static [Column]) -> Option<Fault> {
    let at = lines.get(line - 1)?;
    let is_first = line == 1;
    match number {
        21 => faults::part_number(at, columns, is_first),
        22 => {
            let number = |line: &[u8]| pieces(line, b',').next().map(|piece| piece.text);
            let number_of = |line: &[u8]| padded(&number(line)?);
            let before = &lines[..line - 1];
            let first = before
                .iter()
                .position(|other| number_of(other) == number_of(at))?;
            Some(Fault::twice(&number(at)?, first + 1))
        }
        27 => faults::quotes(at, columns),
        28 => faults::count(at, columns),
        29 => faults::numbers(at, columns, is_first),
        _ => None,
    }
}

pub fn catalogue(path: &OsStr, sheet: &[u8]) -> Result<Catalogue, Failure> {
    let (parts, lines) = records(path, sheet, &OF_DEVICES)?;
    Ok(Catalogue { parts, lines })
}

/// Jobs, with a horizon that no sheet has.
pub fn jobs(path: &OsStr, sheet: &[u8], horizon: u16) -> Result<Text, Failure> {
    let (records, jobs) = records(path, sheet, &OF_JOBS)?;
    let mut tables = Tables::empty();
    tables.horizon = horizon;
    for record in records {
        tables.jobs.add(record, MOST_JOBS);
    }
    let places = Places {
        jobs,
        ..Places::default()
    };
    Ok(Text {
        tables,
        places,
        names: Names::default(),
    })
}

#[cfg(test)]
mod tests {
    use super::*;

    #[test]
    fn lines_end_in_both_bytes() {
        for sheet in ["a\nb\n", "a\r\nb\n", "a\r\nb\r\n"] {
            assert_eq!(with_returns(sheet.as_bytes()), b"a\r\nb\r\n");
        }
        assert_eq!(with_feeds(b"a\rb\r"), b"a\r\nb\r\n");
        assert_eq!(with_feeds(b"a"), b"a");
    }

    #[test]
    fn a_sheet_is_told_from_a_text() {
        let words = ["part"];
        for sheet in [
            "\"00417\",1,5,1,3",
            "417,1,5,1,3\r\n",
            "\u{FEFF}FLASH8M,1,5,1,3",
            "flash8m,3,12,1,6",
            "part,T,Pw,Ps,P0",
            "part number,T,Pw,Ps,P0",
            "sep=,\n417,1,5,1,3",
            "417;1;5;1;3",
            " 1,5,2,1",
            "00417",
            "\n\n417,1,5,1,3",
        ] {
            assert!(is_sheet(sheet.as_bytes(), &words), "{sheet:?}");
        }
        for text in [
            "part 00417 1 5 1 3",
            "# 1,2,3",
            "\n part A 1 5 1 3",
            "Part 00417 1 5 1 3",
            "jobs 0 5 2 0,1",
            "",
            "\n\n",
        ] {
            assert!(!is_sheet(text.as_bytes(), &words), "{text:?}");
        }
    }
}
