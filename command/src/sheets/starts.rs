//! Start times from the sheet of a plan that somebody has changed: job, start, and what may follow, as
//! the margin that was. The rows may stand in any order; the library judges the start times.

use super::columns::PLAN;
use super::fields::{lines, pieces};
use super::{faults, ready};
use crate::failure::Failure;
use crate::foreign;
use crate::streams;
use crate::text::lines::digits;
use std::ffi::OsStr;

/// The start times by job number.
pub fn starts(path: &OsStr) -> Result<Vec<u16>, Failure> {
    let bytes = streams::read(path)?;
    let file = streams::name(path);
    if bytes.iter().all(u8::is_ascii_whitespace) {
        return Err(streams::empty(
            path,
            "the sheet of a plan has a line for each job",
        ));
    }
    if let Some(words) = foreign::told(&bytes) {
        return Err(Failure::Refused(format!("floe: {file}: {words}")));
    }
    let sheet = ready(path, &bytes);
    read(&sheet, &file).map_err(|message| Failure::Refused(format!("floe: {message}")))
}

fn read(sheet: &[u8], file: &str) -> Result<Vec<u16>, String> {
    let mut rows: Vec<(u64, u16, usize)> = Vec::new();
    for (line, number) in lines(sheet).zip(1..) {
        let (job, start) = row(line, number, file)?;
        if let Some((_, _, first)) = rows.iter().find(|(other, _, _)| *other == job) {
            return Err(format!(
                "line {number} of {file}: job {job} stands in line {first} already"
            ));
        }
        rows.push((job, start, number));
    }
    rows.sort();
    let mut places = rows.iter().zip(0..);
    if let Some((_, missing)) = places.find(|((job, _, _), place)| job != place) {
        return Err(format!(
            "{file}: job {missing} is missing: jobs count from 0"
        ));
    }
    Ok(rows.into_iter().map(|(_, start, _)| start).collect())
}

/// The job and the start of a line.
fn row(line: &[u8], number: usize, file: &str) -> Result<(u64, u16), String> {
    let pieces: Vec<_> = pieces(line, b',').take(PLAN.len()).collect();
    let few = || faults::count(line, &PLAN).filter(|_| pieces.len() < PLAN.len());
    let fault = faults::quotes(line, &PLAN)
        .or_else(few)
        .or_else(|| faults::numbers(line, &PLAN, number == 1));
    if let Some(fault) = fault {
        return Err(format!("{}: {}", fault.place(number, file), fault.words));
    }
    let value = |place: usize| pieces.get(place).and_then(|piece| digits(&piece.text));
    let start = value(1).and_then(|start| u16::try_from(start).ok());
    Ok((value(0).unwrap_or(0), start.unwrap_or(u16::MAX)))
}

#[cfg(test)]
mod tests {
    use super::*;

    fn read_text(sheet: &str) -> Result<Vec<u16>, String> {
        read(sheet.as_bytes(), "plan.csv")
    }

    #[test]
    fn rows_are_put_in_the_order_of_the_jobs() {
        assert_eq!(read_text("0,4,7\r\n1,9,0"), Ok(vec![4, 9]));
        assert_eq!(read_text("1,9,0,\"send\"\r\n\"0\",4\r\n"), Ok(vec![4, 9]));
    }

    #[test]
    fn what_is_no_plan_is_told() {
        for (sheet, words) in [
            (
                "0\r\n",
                "line 1 of plan.csv: 1 field, and 2 are wanted (job, start)",
            ),
            (
                "0,4\r\n0,5\r\n",
                "line 2 of plan.csv: job 0 stands in line 1 already",
            ),
            (
                "0,4\r\n2,5\r\n",
                "plan.csv: job 1 is missing: jobs count from 0",
            ),
            (
                "0,4\r\n1,x\r\n",
                "line 2 of plan.csv, column 2 (start): 'x' is not a number",
            ),
            (
                "0,65536\r\n",
                "line 1 of plan.csv, column 2 (start): '65536' is too large",
            ),
            ("job,start,margin\r\n0,4,1", "this looks like a header"),
        ] {
            let said = read_text(sheet).unwrap_err();
            assert!(said.contains(words), "{said}");
        }
    }
}
