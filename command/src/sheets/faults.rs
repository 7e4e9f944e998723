//! What is wrong with a line of a sheet, in words: the column, the field, and what is wanted there.

use super::columns::{names, Column};
use super::fields::{pieces, Piece, Quotes};
use crate::refusal::plural;
use crate::text::lines::{digits, quoted};
use crate::text::part::part_fault;

/// The column at fault, counted from 1, if it is one, and the words.
#[derive(Debug, PartialEq, Eq)]
pub struct Fault {
    pub column: Option<(usize, &'static str)>,
    pub words: String,
}

impl Fault {
    fn of_line(words: String) -> Fault {
        Fault {
            column: None,
            words,
        }
    }

    /// A part number that an earlier line has too (22).
    pub fn twice(part: &str, first: usize) -> Fault {
        let words = format!(
            "part {} stands in line {first} already: take one of the two out",
            quoted(part)
        );
        Fault::of_line(words)
    }

    /// As `line 2 of parts.csv, column 3 (Pw)`.
    pub fn place(&self, line: usize, file: &str) -> String {
        match self.column {
            Some((number, name)) => format!("line {line} of {file}, column {number} ({name})"),
            None => format!("line {line} of {file}"),
        }
    }
}

/// The first field for which there is something to say.
fn first(
    line: &[u8],
    columns: &'static [Column],
    words: impl Fn(&Piece, &Column) -> Option<String>,
) -> Option<Fault> {
    let mut both = pieces(line, b',').zip(columns).zip(1..);
    both.find_map(|((piece, column), number)| {
        let words = words(&piece, column)?;
        Some(Fault {
            column: Some((number, column.name)),
            words,
        })
    })
}

/// A quote that is stray or open (27).
pub fn quotes(line: &[u8], columns: &'static [Column]) -> Option<Fault> {
    let found = first(line, columns, |piece, _| {
        let what = quoted(&piece.text);
        match piece.quotes {
            Quotes::Right => None,
            Quotes::Stray => Some(format!(
                "{what} has a stray quote: quotes stand around a whole field, and one inside is written twice"
            )),
            Quotes::Open => Some(format!(
                "{what} has a quote that is still open at the end of the line: close it"
            )),
        }
    });
    // Beyond the columns that there are it has no name.
    let is_wrong = |piece: &Piece| piece.quotes != Quotes::Right;
    found.or_else(|| {
        let wrong = pieces(line, b',').find(is_wrong)?;
        let what = quoted(&wrong.text);
        Some(Fault::of_line(format!("{what} has a stray quote")))
    })
}

/// Another number of fields than there are columns (28).
pub fn count(line: &[u8], columns: &'static [Column]) -> Option<Fault> {
    let (found, wanted) = (pieces(line, b',').count(), columns.len());
    if found == wanted {
        return None;
    }
    let names = names(columns);
    let text = String::from_utf8_lossy(line);
    if line.iter().all(u8::is_ascii_whitespace) {
        return Some(Fault::of_line(format!(
            "the line is empty, and {wanted} fields are wanted ({names}): take the empty lines out"
        )));
    }
    if text.to_ascii_lowercase().starts_with("sep=") {
        return Some(Fault::of_line(format!(
            "{} is for a spreadsheet program and no line of the sheet: take it out",
            quoted(&text)
        )));
    }
    let fields = plural(found, "field");
    let is = if wanted == 1 { "is" } else { "are" };
    let hint = hint(line, found, wanted);
    Some(Fault::of_line(format!(
        "{found} {fields}, and {wanted} {is} wanted ({names}){hint}"
    )))
}

/// What may have made the number of fields another.
fn hint(line: &[u8], found: usize, wanted: usize) -> &'static str {
    let parted = |byte| pieces(line, byte).count() > found;
    if parted(b';') {
        ": there are semicolons where commas are wanted; in the dialogue on saving choose the comma as field delimiter"
    } else if parted(b'\t') {
        ": there are tabs where commas are wanted; in the dialogue on saving choose the comma as field delimiter"
    } else if found > wanted {
        ": a comma inside a number parts it in two"
    } else {
        ""
    }
}

/// A field that is no number, or too large (29).
pub fn numbers(line: &[u8], columns: &'static [Column], is_first: bool) -> Option<Fault> {
    let header = is_first && is_header(line, columns);
    let is_blank = |piece: Piece| piece.text.trim().is_empty();
    let all_blank = pieces(line, b',').all(is_blank);
    first(line, columns, |piece, column| {
        let most = column.most?;
        let wrong = wrong(&piece.text, most)?;
        let what = quoted(&piece.text);
        Some(if header {
            format!(
                "{what} {wrong}: this looks like a header, and a sheet has none: take the line out"
            )
        } else if all_blank {
            "the line is empty but for its commas: take the empty lines out".to_string()
        } else {
            format!("{what} {wrong}: digits alone are wanted, at most {most}")
        })
    })
}

/// Whether no number stands where numbers are wanted, but words.
fn is_header(line: &[u8], columns: &[Column]) -> bool {
    let mut numbers = pieces(line, b',')
        .zip(columns)
        .filter(|(_, column)| column.most.is_some());
    numbers.all(|(piece, _)| {
        let is_word = |char: char| char.is_alphabetic();
        !piece.text.starts_with(|char: char| char.is_ascii_digit()) && piece.text.contains(is_word)
    })
}

/// What keeps a text from being a number up to so much.
fn wrong(text: &str, most: u32) -> Option<&'static str> {
    if let Some(value) = digits(text) {
        return (value > u64::from(most)).then_some("is too large");
    }
    let is_digit = |char: char| char.is_ascii_digit();
    let has_digits = text.contains(is_digit);
    Some(if text.is_empty() {
        "is empty"
    } else if digits(text.trim()).is_some() {
        "has a blank before or after the number"
    } else if text.starts_with(['-', '+']) && digits(&text[1..]).is_some() {
        "has a sign"
    } else if has_digits
        && text
            .chars()
            .all(|char| is_digit(char) || ".,".contains(char))
    {
        "is not a whole number (round it, or choose a smaller unit)"
    } else if text.starts_with(is_digit) {
        "has more than a number in it (a unit does not belong there)"
    } else {
        "is not a number"
    })
}

/// A part number that is none (21).
pub fn part_number(line: &[u8], columns: &'static [Column], is_first: bool) -> Option<Fault> {
    let header = is_first && is_header(line, columns);
    first(line, columns, |piece, column| match column.most {
        None if header => Some(format!(
            "{} looks like a header, and a sheet has none: take the line out",
            quoted(&piece.text)
        )),
        None => part_fault(&piece.text),
        Some(_) => None,
    })
}

#[cfg(test)]
mod tests {
    use super::super::columns::{DEVICES, JOBS};
    use super::*;

    fn said(fault: Option<Fault>) -> (usize, String) {
        let fault = fault.expect("there is something to say");
        (fault.column.map_or(0, |(number, _)| number), fault.words)
    }

    #[test]
    fn a_number_is_digits_alone() {
        for (field, words) in [
            ("1.5", "'1.5' is not a whole number"),
            ("5 mW", "'5 mW' has more than a number in it"),
            (" 1", "' 1' has a blank before or after"),
            ("-1", "'-1' has a sign"),
            ("", "'' is empty"),
            ("x", "'x' is not a number"),
            ("65536", "'65536' is too large"),
        ] {
            let line = format!("A,1,{field},1,3");
            let (column, said) = said(numbers(line.as_bytes(), &DEVICES, false));
            assert_eq!(column, 3, "{line}");
            assert!(said.starts_with(words), "{said}");
            assert!(
                said.ends_with(": digits alone are wanted, at most 65535"),
                "{said}"
            );
        }
        assert_eq!(numbers(b"A,255,5,1,3", &DEVICES, true), None);
        assert_eq!(said(numbers(b"A,256,5,1,3", &DEVICES, true)).0, 2);
    }

    #[test]
    fn a_header_is_one_in_the_first_line_alone() {
        let header = b"part,T,Pw,Ps,P0";
        assert!(said(numbers(header, &DEVICES, true)).1.contains("header"));
        assert!(!said(numbers(header, &DEVICES, false)).1.contains("header"));
        assert!(!said(numbers(b"A,1,x,1,3", &DEVICES, true))
            .1
            .contains("header"));
        assert!(said(numbers(b"release,deadline,run,set", &JOBS, true))
            .1
            .contains("header"));
    }

    #[test]
    fn fields_are_counted() {
        let (_, words) = said(count(b"A,1,5", &DEVICES));
        assert_eq!(
            words,
            "3 fields, and 5 are wanted (part number, T, Pw, Ps, P0)"
        );
        assert!(said(count(b"A;1;5;1;3", &DEVICES)).1.contains("semicolons"));
        assert!(said(count(b"A\t1\t5\t1\t3", &DEVICES)).1.contains("tabs"));
        assert!(said(count(b"A,1,5,5,1,3", &DEVICES))
            .1
            .contains("a comma inside a number"));
        assert!(said(count(b"", &JOBS))
            .1
            .contains("take the empty lines out"));
        assert!(said(count(b"sep=,", &JOBS))
            .1
            .contains("spreadsheet program"));
        assert_eq!(count(b"0,5,2,1", &JOBS), None);
    }

    #[test]
    fn quotes_are_told_by_their_field() {
        assert_eq!(said(quotes(b"417,\"1\"0,5,1,3", &DEVICES)).0, 2);
        assert!(said(quotes(b"417,1,5,1,\"3", &DEVICES))
            .1
            .contains("still open"));
        assert!(said(quotes(b"1,2,3,4,5\"", &JOBS))
            .1
            .contains("stray quote"));
        assert_eq!(quotes(b"\"417\",1,5,1,3", &DEVICES), None);
    }
}
