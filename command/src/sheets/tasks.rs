//! A sheet of tasks: period, running time, device set. The library has no importer for it, so that
//! its lines are read here, by the rules of its other sheets, as the text form's task lines are; what
//! the numbers mean the library judges, in the tables that they make.

use super::columns::TASKS;
use super::fields::{lines, pieces};
use super::{faults, ready};
use crate::failure::Failure;
use crate::kinds::{self, TASK};
use crate::streams;
use crate::text::lines::digits;
use std::ffi::OsStr;

/// The records of a sheet of tasks, a line each.
pub fn tasks(path: &OsStr, bytes: &[u8]) -> Result<Vec<Vec<u8>>, Failure> {
    let sheet = ready(path, bytes);
    let lines = lines(&sheet).zip(1..);
    lines
        .map(|(line, number)| record(path, line, number))
        .collect()
}

fn record(path: &OsStr, line: &[u8], number: usize) -> Result<Vec<u8>, Failure> {
    let fault = faults::quotes(line, &TASKS)
        .or_else(|| faults::count(line, &TASKS))
        .or_else(|| faults::numbers(line, &TASKS, number == 1));
    if let Some(fault) = fault {
        let place = fault.place(number, &streams::name(path));
        return Err(Failure::Refused(format!("floe: {place}: {}", fault.words)));
    }
    let numbers = pieces(line, b',').zip(&TASK);
    let bytes = numbers.flat_map(|(piece, field)| {
        let value = digits(&piece.text).unwrap_or(u64::from(kinds::largest(field)));
        let bytes = value.to_be_bytes();
        bytes[bytes.len() - field.bytes..].to_vec()
    });
    Ok(bytes.collect())
}

/// The sheet of task records.
pub fn sheet(records: &[Vec<u8>]) -> Vec<u8> {
    let line = |record: &Vec<u8>| {
        let number = |place| kinds::value(&TASK, record, place).to_string();
        [number(0), number(1), number(2)].join(",") + "\r\n"
    };
    records.iter().map(line).collect::<String>().into_bytes()
}

#[cfg(test)]
mod tests {
    use super::*;

    fn read(sheet: &str) -> Result<Vec<Vec<u8>>, String> {
        let read = tasks(OsStr::new("tasks.csv"), sheet.as_bytes());
        read.map_err(|failure| failure.message().to_string())
    }

    #[test]
    fn what_is_written_is_read_again() {
        let records = vec![vec![0, 250, 0, 40, 1], vec![3, 232, 0, 90, 6]];
        let text = String::from_utf8(sheet(&records)).unwrap();
        assert_eq!(text, "250,40,1\r\n1000,90,6\r\n");
        assert_eq!(read(&text), Ok(records));
    }

    #[test]
    fn a_line_that_is_none_is_told() {
        for (sheet, words) in [
            (
                "250,40",
                "floe: line 1 of tasks.csv: 2 fields, and 3 are wanted",
            ),
            (
                "4,1,0\r\n4,x,0",
                "line 2 of tasks.csv, column 2 (running time): 'x' is not a number",
            ),
            (
                "4,1,256",
                "column 3 (device set): '256' is too large: digits alone are wanted, at most 255",
            ),
            (
                "4,\"1,0",
                "column 2 (running time): '\\\"1,0' has a quote that is still open",
            ),
            ("period,run,set\r\n4,1,0", "this looks like a header"),
            ("4,1,0\r\n\r\n", "line 2 of tasks.csv: the line is empty"),
        ] {
            let said = read(sheet).unwrap_err();
            assert!(said.contains(words), "{said}");
        }
    }
}
