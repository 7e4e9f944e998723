//! Wanted parts from a file, a part a line. What a spreadsheet saves of one column will do too: quotes
//! around a part number are no part of it. Whether a catalogue has the part is the library's to say.

use crate::failure::Failure;
use crate::sheets::fields::pieces;
use crate::streams;
use crate::text::lines::quoted;
use std::ffi::OsStr;

/// More parts than this are not read.
const MOST: usize = 1_000;

/// The parts that a file lists, in its order. Empty lines are left out.
pub fn listed(path: &OsStr) -> Result<Vec<String>, Failure> {
    let bytes = streams::read(path)?;
    let parts = parts(&bytes).map_err(|(line, message)| {
        Failure::Refused(format!(
            "floe: line {line} of {}: {message}",
            streams::name(path)
        ))
    })?;
    match parts.is_empty() {
        true => Err(streams::empty(
            path,
            "a list of wanted parts has a part a line",
        )),
        false => Ok(parts),
    }
}

fn parts(bytes: &[u8]) -> Result<Vec<String>, (usize, String)> {
    let bytes = bytes.strip_prefix(b"\xEF\xBB\xBF").unwrap_or(bytes);
    let mut parts = Vec::new();
    for (line, number) in bytes.split(|&byte| byte == b'\n').zip(1..) {
        let line = line.strip_suffix(b"\r").unwrap_or(line);
        if line.iter().all(u8::is_ascii_whitespace) {
            continue;
        }
        let mut fields = pieces(line, b',');
        let part = fields.next().map_or(String::new(), |field| field.text);
        if fields.next().is_some() {
            let what = quoted(&String::from_utf8_lossy(line));
            return Err((
                number,
                format!("{what} is more than a part number: a part a line is wanted"),
            ));
        }
        if parts.len() == MOST {
            let message = format!("more than {MOST} parts, and no request has so many devices");
            return Err((number, message));
        }
        parts.push(part);
    }
    Ok(parts)
}

#[cfg(test)]
mod tests {
    use super::*;

    #[test]
    fn a_line_is_a_part() {
        let list = "\u{FEFF}00417\r\n\r\n\"FLASH8M\"\n417";
        assert_eq!(parts(list.as_bytes()).unwrap(), ["00417", "FLASH8M", "417"]);
        assert!(parts(b"\n\r\n").unwrap().is_empty());
    }

    #[test]
    fn a_line_with_more_is_told() {
        let said = |list: &str| parts(list.as_bytes()).unwrap_err();
        let (line, message) = said("417\n417,FLASH8M");
        assert_eq!(line, 2);
        assert!(message.starts_with("'417,FLASH8M' is more than a part number"));
    }
}
