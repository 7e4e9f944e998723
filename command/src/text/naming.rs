//! Names and units in a text: `name WORD` at the end of a line, and lines `unit power mW` and
//! `unit tick 10 ms`.

use super::lines::{digits, is_hidden, lines, quoted, Fault, Line, Word};
use crate::units::Units;

/// The longest name, and the longest unit.
const LONGEST: usize = 24;

/// With what a formula begins. Names go into sheets.
const FORMULA: [char; 4] = ['=', '+', '-', '@'];

/// The word before a name.
const NAME: &str = "name";

/// A line without its name, and the name.
pub fn unnamed<'a>(line: Line<'a>) -> Result<(Line<'a>, Option<String>), Fault> {
    let is_name = |word: &Word| word.text == NAME;
    let Some(place) = line
        .words
        .iter()
        .position(is_name)
        .filter(|&place| place > 0)
    else {
        return Ok((line, None));
    };
    let Some(name) = line.words.get(place + 1) else {
        return Err(Fault {
            line: line.number,
            column: line.end,
            message: "a name is missing: name takes one word".to_string(),
        });
    };
    if let Some(extra) = line.words.get(place + 2) {
        let message = format!(
            "{} is a word too many: a name is one word",
            quoted(extra.text)
        );
        return Err(extra.fault(message));
    }
    let name = checked(name)?;
    let rest = Line {
        number: line.number,
        end: line.words[place].column,
        words: line.words[..place].to_vec(),
    };
    Ok((rest, Some(name)))
}

/// A name as it is given, if it can stand in a device set and in a picture.
fn checked(word: &Word) -> Result<String, Fault> {
    let has_any = |unwanted: &[char]| word.text.contains(unwanted);
    if word.text.chars().count() > LONGEST {
        let message = format!(
            "{} is too long a name: at most {LONGEST} characters",
            quoted(word.text)
        );
        return Err(word.fault(message));
    }
    if let Some(hidden) = word.text.chars().find(|&char| is_hidden(char)) {
        let message = format!(
            "{} is no name: the character {} in it cannot be seen, or moves what is seen; write it without",
            quoted(word.text),
            quoted(&hidden.to_string())
        );
        return Err(word.fault(message));
    }
    if word.text != "-" && word.text.starts_with(FORMULA) {
        let message = format!(
            "{} is no name: a spreadsheet takes what begins with = + - or @ for a formula; put a letter in front",
            quoted(word.text)
        );
        return Err(word.fault(message));
    }
    if has_any(&[',', '"']) || [NAME, "-"].contains(&word.text) {
        let message = format!(
            "{} is no name: a name has no comma, no quote and no blank, and is not 'name' or '-'",
            quoted(word.text)
        );
        return Err(word.fault(message));
    }
    Ok(word.text.to_string())
}

/// What the devices of a text are called, in their order. Lines that are no lines are left to the
/// reader, which tells the first fault of all.
pub fn devices(text: &[u8]) -> Vec<Option<String>> {
    let lines = lines(text).filter_map(Result::ok);
    lines
        .filter(|line| line.words.first().is_some_and(|word| word.text == "device"))
        .map(|line| unnamed(line).ok().and_then(|(_, name)| name))
        .collect()
}

/// A line of a unit, which is kept once.
pub fn unit(line: &Line, units: &mut Units) -> Result<(), Fault> {
    let Some(word) = line.words.first() else {
        return Ok(());
    };
    let is_twice = match line.words.get(1).map(|word| word.text) {
        Some("power") => {
            let words = line.arguments(&["power", "its unit"])?;
            units.power.replace(checked(&words[1])?).is_some()
        }
        Some("tick") => {
            let words = line.arguments(&["tick", "how many", "of which unit"])?;
            let count = digits(words[1].text).filter(|count| (1..=1_000_000).contains(count));
            let wrong = || {
                let what = quoted(words[1].text);
                words[1].fault(format!(
                    "{what} is not how many: a number from 1 to 1000000"
                ))
            };
            let tick = (count.ok_or_else(wrong)?, checked(&words[2])?);
            units.tick.replace(tick).is_some()
        }
        Some(other) => {
            let message = format!(
                "there is a unit of power and one of tick, not of {}",
                quoted(other)
            );
            return Err(line.words[1].fault(message));
        }
        None => return line.arguments(&["power or tick", "its unit"]).map(|_| ()),
    };
    if is_twice {
        return Err(word.fault("this unit is given twice".to_string()));
    }
    Ok(())
}
