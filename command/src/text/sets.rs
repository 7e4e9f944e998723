//! Device sets in a text: `-`, or devices with commas between, each by its number or its name.

use super::lines::{digits, quoted, visible, Fault, Word};
use crate::kinds::members;

/// The byte of a device set.
pub fn device_set(word: &Word, names: &[Option<String>]) -> Result<u8, Fault> {
    if word.text == "-" {
        return Ok(0);
    }
    let mut set = 0;
    let mut column = word.column;
    for text in word.text.split(',') {
        let part = Word {
            text,
            column,
            ..*word
        };
        column += text.chars().count() + 1;
        let device = device(&part, names)?;
        let bit = 1 << device;
        if set & bit != 0 {
            return Err(part.fault(format!("device {device} is named twice")));
        }
        set |= bit;
    }
    Ok(set)
}

/// The number that a text can be as the number of a device.
fn as_number(text: &str) -> Option<usize> {
    let number = digits(text).filter(|&number| number < 8)?;
    Some(number as usize)
}

/// The devices that have this name.
fn named(text: &str, names: &[Option<String>]) -> Vec<usize> {
    let devices = names.iter().take(8).enumerate();
    devices
        .filter(|(_, name)| name.as_deref() == Some(text))
        .map(|(device, _)| device)
        .collect()
}

/// A device by its name, or by its number. What can be both is not guessed.
fn device(part: &Word, names: &[Option<String>]) -> Result<usize, Fault> {
    let what = quoted(part.text);
    let fault = |message: String| Err(part.fault(message));
    match (&named(part.text, names)[..], as_number(part.text)) {
        ([device], None) => Ok(*device),
        ([device], Some(number)) if *device == number => Ok(number),
        ([device], Some(number)) => fault(format!(
            "{what} is the name of device {device} and the number of device {number}: write {} or {}",
            number_of(*device, names),
            number_of(number, names)
        )),
        ([first, second, ..], _) => fault(format!(
            "{what} is the name of the devices {first} and {second}: write the number"
        )),
        ([], Some(number)) => Ok(number),
        ([], None) if part.text.is_empty() => fault("a device number is missing".to_string()),
        ([], None) if digits(part.text).is_some() => fault(format!(
            "there is no device {what}: they have the numbers 0 to 7{}",
            known(names)
        )),
        ([], None) => fault(format!(
            "{what} is not a device number{}; '-' stands for no device",
            match known(names) {
                none if none.is_empty() => ", and no device has a name".to_string(),
                known => known,
            }
        )),
    }
}

/// The number of a device as a word that is no name: with zeros in front, if it has to be.
fn number_of(device: usize, names: &[Option<String>]) -> String {
    let mut words = (1..).map(|width| format!("{device:0width$}"));
    let is_free = |word: &String| named(word, names).is_empty();
    words.find(is_free).unwrap_or_default()
}

/// The names that there are, for whoever has given another. A list of wanted parts may have said anything.
fn known(names: &[Option<String>]) -> String {
    const SHOWN: usize = 24;
    let shown = |name: &String| visible(&name.chars().take(SHOWN).collect::<String>());
    let names: Vec<String> = names.iter().take(8).flatten().map(shown).collect();
    match names.is_empty() {
        true => String::new(),
        false => format!(", or one of the names {}", names.join(", ")),
    }
}

/// A set as a text has it: by the names that stand for one device alone, else by numbers.
pub fn shown(set: u32, names: &[Option<String>]) -> String {
    let word = |device: usize| {
        let name = names.get(device).and_then(|name| name.as_ref());
        let is_clear = |name: &&String| {
            named(name, names) == [device] && as_number(name).is_none_or(|number| number == device)
        };
        match name.filter(is_clear) {
            Some(name) => name.clone(),
            None => number_of(device, names),
        }
    };
    let devices: Vec<String> = members(set).map(word).collect();
    if devices.is_empty() {
        "-".to_string()
    } else {
        devices.join(",")
    }
}

#[cfg(test)]
mod tests {
    use super::*;

    fn names(names: &[&str]) -> Vec<Option<String>> {
        let name = |name: &&str| (!name.is_empty()).then(|| name.to_string());
        names.iter().map(name).collect()
    }

    fn read(text: &str, called: &[&str]) -> Result<u8, String> {
        let word = Word {
            text,
            line: 1,
            column: 1,
        };
        device_set(&word, &names(called)).map_err(|fault| fault.message)
    }

    #[test]
    fn devices_have_numbers_and_names() {
        assert_eq!(read("radio,0", &["00417", "417", "radio"]), Ok(5));
        assert_eq!(read("417,00417", &["00417", "417"]), Ok(3));
        assert_eq!(read("-", &["a"]), Ok(0));
        // A name that is its own number.
        assert_eq!(read("1", &["a", "1"]), Ok(2));
    }

    #[test]
    fn nothing_is_guessed() {
        let said = |text, called: &[&str]| read(text, called).unwrap_err();
        let both = said("1", &["1", "b"]);
        assert!(both.contains("the name of device 0 and the number of device 1: write 0 or 01"));
        assert!(said("a", &["a", "b", "a"]).contains("the name of the devices 0 and 2"));
        assert!(said("c", &["a", "b"]).contains("or one of the names a, b; '-' stands"));
        assert!(said("418", &["417"]).contains("the numbers 0 to 7, or one of the names 417"));
        assert!(said("a,0", &["a"]).contains("device 0 is named twice"));
    }

    #[test]
    fn a_set_is_shown_so_that_it_is_read_again() {
        for called in [
            &["a", "b", "c"][..],
            &["1", "b", "b"],
            &["", "0", "2"],
            &["1", "01", "0"],
            &[],
        ] {
            for set in 0..8 {
                let text = shown(set, &names(called));
                assert_eq!(read(&text, called), Ok(set as u8), "{text} of {called:?}");
            }
        }
        assert_eq!(shown(3, &names(&["00417", "FLASH"])), "00417,FLASH");
    }
}
