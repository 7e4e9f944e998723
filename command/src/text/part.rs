//! Part numbers: how they are padded, what keeps a text from being one, and which of a catalogue are
//! nearly the same as one that it lacks.

use super::lines::quoted;

/// How many bytes a part number has.
pub const NUMBER: usize = 8;

/// A part number with spaces on its right, as far as eight bytes.
pub fn padded(text: &str) -> Option<Vec<u8>> {
    let mut bytes = text.as_bytes().to_vec();
    (bytes.len() <= NUMBER).then(|| {
        bytes.resize(NUMBER, b' ');
        bytes
    })
}

/// A part number as it is read: without the spaces on its right.
pub fn unpadded(number: &[u8]) -> String {
    let text = String::from_utf8_lossy(number);
    text.trim_end_matches(' ').to_string()
}

fn belongs(char: char) -> bool {
    char.is_ascii_digit() || char.is_ascii_uppercase()
}

/// What keeps a text from being a part number.
pub fn part_fault(text: &str) -> Option<String> {
    const WANTED: &str = "a part number is up to 8 digits and capital letters";
    let what = quoted(text);
    let length = text.chars().count();
    let other = text.chars().find(|&char| !belongs(char));
    Some(match other {
        None if text.is_empty() => format!("the part number is empty: {WANTED}"),
        None if length > NUMBER => {
            format!("{what} is too long, with {length} characters: {WANTED}")
        }
        None => return None,
        Some(' ') => format!("{what} has a space in it: {WANTED}"),
        Some(char) if char.is_lowercase() => format!("{what} has small letters: {WANTED}"),
        Some(char) => format!(
            "{what} has the character {}: {WANTED}",
            quoted(&char.to_string())
        ),
    })
}

/// How a part of the catalogue differs from the wanted one, if it is nearly the same.
pub fn difference(wanted: &str, part: &str) -> Option<&'static str> {
    let without_zeros = |text: &str| text.trim_start_matches('0').to_string();
    let plain = |text: &str| {
        let letters = text.chars().filter(|char| char.is_alphanumeric());
        letters.flat_map(char::to_uppercase).collect::<String>()
    };
    if wanted.trim() == part {
        Some("which has no blank before or after it")
    } else if wanted.to_uppercase() == part {
        Some("which has capital letters")
    } else if without_zeros(wanted) == without_zeros(part) {
        Some("which has another number of zeros in front")
    } else if plain(wanted) == plain(part) {
        Some("which has no other characters than digits and capital letters")
    } else if without_zeros(&plain(wanted)) == without_zeros(&plain(part)) {
        Some("which is written otherwise")
    } else if is_near(wanted, part) {
        Some("which differs in one character")
    } else {
        None
    }
}

/// Whether one character is another, is missing, is too many, or has changed places with the next.
pub fn is_near(one: &str, other: &str) -> bool {
    let (one, other): (Vec<char>, Vec<char>) = (one.chars().collect(), other.chars().collect());
    if one.len().min(other.len()) < 3 {
        return false;
    }
    let front = one.iter().zip(&other).take_while(|(a, b)| a == b).count();
    let (one, other) = (&one[front..], &other[front..]);
    match (one, other) {
        ([a, b, one @ ..], [c, d, other @ ..]) if a == d && b == c && one == other => true,
        ([_, one @ ..], [_, other @ ..]) if one == other => true,
        ([_, one @ ..], other) if one == other => true,
        (one, [_, other @ ..]) => one == other,
        _ => false,
    }
}

#[cfg(test)]
mod tests {
    use super::*;

    #[test]
    fn what_is_no_part_number_is_said() {
        assert_eq!(part_fault("00417"), None);
        assert_eq!(part_fault("FLASH8MX"), None);
        for (text, words) in [
            ("ABCDEFGHI", "'ABCDEFGHI' is too long, with 9 characters: "),
            ("flash", "'flash' has small letters: "),
            ("AB 1", "'AB 1' has a space in it: "),
            ("AB-1", "'AB-1' has the character '-': "),
            ("", "the part number is empty: "),
        ] {
            let said = part_fault(text).unwrap();
            assert!(said.starts_with(words), "{said}");
        }
    }

    #[test]
    fn what_is_nearly_the_same_is_found_and_no_more() {
        for (wanted, part, is_near) in [
            ("417", "00417", true),
            ("00417", "417", true),
            ("flash8m", "FLASH8M", true),
            ("FLASH-8M", "FLASH8M", true),
            (" FLASH8M", "FLASH8M", true),
            ("0flash8m", "FLASH8M", true),
            ("FLASH8N", "FLASH8M", true),
            ("FLSAH8M", "FLASH8M", true),
            ("FLASH8", "FLASH8M", true),
            ("FLASH8MM", "FLASH8M", true),
            ("FLASH9N", "FLASH8M", false),
            ("A", "B", false),
            ("418", "FLASH8M", false),
        ] {
            assert_eq!(
                difference(wanted, part).is_some(),
                is_near,
                "{wanted} {part}"
            );
        }
    }
}
