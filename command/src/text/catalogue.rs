//! The text form of a catalogue: a line `part NUMBER T Pw Ps P0` for each part.

use super::lines::{lines, number, quoted, Fault, Word};
use super::part::{padded, part_fault, unpadded, NUMBER};
use crate::failure::Failure;
use crate::kinds::FIRST;
use crate::refusal;

/// Part numbers and device records as the library takes them, and the line of each part.
#[derive(Clone, Debug, Default)]
pub struct Catalogue {
    pub parts: Vec<Vec<u8>>,
    pub lines: Vec<usize>,
}

impl Catalogue {
    /// The number of a part as it is read, and where it stands in the file of this name.
    pub fn part(&self, part: usize, file: &str) -> (String, String) {
        let number = self.parts.get(part).map_or(&[][..], |part| &part[..NUMBER]);
        let line = self.lines.get(part).copied().unwrap_or(0);
        (unpadded(number), format!("line {line} of {file}"))
    }

    /// A refusal by a part that it should not have (21), or not twice (22).
    pub fn refused(&self, number: u8, part: usize, file: &str) -> Failure {
        let (name, place) = self.part(part, file);
        let mut earlier = (0..part).map(|part| self.part(part, file));
        let first = earlier.find(|(other, _)| *other == name);
        let words = match (number, first) {
            (22, Some((_, first))) => {
                let name = quoted(&name);
                Some(format!(
                    "part {name} stands in {first} already: take one of the two out"
                ))
            }
            (21, _) => part_fault(&name),
            _ => None,
        };
        match words {
            Some(words) => refusal::said(number, place, words),
            None => refusal::at(number, place),
        }
    }
}

/// The word with which a line begins.
pub const WORDS: [&str; 1] = ["part"];

pub fn read(text: &[u8]) -> Result<Catalogue, Fault> {
    let mut catalogue = Catalogue::default();
    let fields = FIRST.device_fields();
    let names: Vec<&str> = ["part number"]
        .into_iter()
        .chain(fields.iter().map(|field| field.name))
        .collect();
    for line in lines(text) {
        let line = line?;
        let Some(first) = line.words.first().filter(|word| word.text != WORDS[0]) else {
            let words = line.arguments(&names)?;
            if let Some((name, numbers)) = words.split_first() {
                let mut part = part_number(name)?;
                for (word, field) in numbers.iter().zip(fields) {
                    part.extend(number(word, field)?);
                }
                catalogue.parts.push(part);
                catalogue.lines.push(line.number);
            }
            continue;
        };
        let message = format!("a line begins with part, not with {}", quoted(first.text));
        return Err(first.fault(message));
    }
    Ok(catalogue)
}

/// Whether the first line with words is that of a part.
pub fn is_one(text: &[u8]) -> bool {
    let first = lines(text).next();
    first.is_some_and(|line| line.is_ok_and(|line| line.words[0].text == WORDS[0]))
}

/// Eight bytes, or the word that there are more.
fn part_number(word: &Word) -> Result<Vec<u8>, Fault> {
    let too_long = || {
        let message = part_fault(word.text).unwrap_or_else(|| "no part number".to_string());
        word.fault(message)
    };
    padded(word.text).ok_or_else(too_long)
}
