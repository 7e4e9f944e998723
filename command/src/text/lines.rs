//! Text as lines of words, each with its place, and the numbers that words stand for.

use crate::kinds::{largest, Field};

/// More words than any line takes; the rest of a line that has more is not looked at.
const MOST_WORDS: usize = 16;

/// What is wrong with a text, and where. Lines and columns count from 1, columns in characters.
#[derive(Debug, PartialEq, Eq)]
pub struct Fault {
    pub line: usize,
    pub column: usize,
    pub message: String,
}

#[derive(Clone, Copy, Debug)]
pub struct Word<'a> {
    pub text: &'a str,
    pub line: usize,
    pub column: usize,
}

impl Word<'_> {
    pub fn fault(&self, message: String) -> Fault {
        Fault {
            line: self.line,
            column: self.column,
            message,
        }
    }
}

/// A line without its comment, in words.
pub struct Line<'a> {
    pub number: usize,
    pub words: Vec<Word<'a>>,
    /// Where a word more would stand.
    pub end: usize,
}

impl<'a> Line<'a> {
    /// The words after the first, which are to be `names`.
    pub fn arguments(&self, names: &[&str]) -> Result<Vec<Word<'a>>, Fault> {
        let Some((first, rest)) = self.words.split_first() else {
            return Ok(Vec::new());
        };
        let takes = || format!("{} takes {}", first.text, names.join(", "));
        if let Some(extra) = rest.get(names.len()) {
            let message = format!("{} is a word too many: {}", quoted(extra.text), takes());
            return Err(extra.fault(message));
        }
        if let Some(missing) = names.get(rest.len()) {
            return Err(Fault {
                line: self.number,
                column: self.end,
                message: format!("{missing} is missing: {}", takes()),
            });
        }
        Ok(rest.to_vec())
    }
}

/// The lines that have words. A carriage return at a line's end, and the mark that some editors put
/// in front of a text, are no part of it.
pub fn lines(text: &[u8]) -> impl Iterator<Item = Result<Line<'_>, Fault>> {
    let text = text.strip_prefix(b"\xEF\xBB\xBF").unwrap_or(text);
    let lines = text.split(|&byte| byte == b'\n').zip(1..);
    lines
        .map(|(line, number)| words(line, number))
        .filter(|line| !matches!(line, Ok(line) if line.words.is_empty()))
}

fn words(line: &[u8], number: usize) -> Result<Line<'_>, Fault> {
    let line = line.strip_suffix(b"\r").unwrap_or(line);
    let content = line.split(|&byte| byte == b'#').next().unwrap_or(line);
    let content = match std::str::from_utf8(content) {
        Ok(content) => content,
        Err(fault) => {
            let (before, after) = content.split_at(fault.valid_up_to());
            return Err(Fault {
                line: number,
                column: String::from_utf8_lossy(before).chars().count() + 1,
                message: format!(
                    "the byte {:02X} is not text in UTF-8",
                    after.first().unwrap_or(&0)
                ),
            });
        }
    };
    let mut found: Vec<Word> = Vec::new();
    let (mut column, mut end) = (1, 1);
    for text in content.split([' ', '\t']) {
        let length = text.chars().count();
        if length > 0 {
            found.push(Word {
                text,
                line: number,
                column,
            });
            end = column + length + 1;
        }
        if found.len() > MOST_WORDS {
            break;
        }
        column += length + 1;
    }
    Ok(Line {
        number,
        words: found,
        end,
    })
}

/// Whether a character cannot be seen, or moves what is seen: control and format characters, blanks of other kinds
/// than the space, and what is no character.
pub fn is_hidden(char: char) -> bool {
    // As Rust spells out a text; an accent is hidden only where it has no letter before it.
    let spelt = || format!("x{char}").escape_debug().count() > 2;
    !['\\', '\'', '"'].contains(&char) && spelt()
}

/// A text in which what cannot be seen is spelt out.
pub fn visible(text: &str) -> String {
    let seen = |char: char| match is_hidden(char) {
        true => char.escape_debug().to_string(),
        false => char.to_string(),
    };
    text.chars().map(seen).collect()
}

/// A word in a message: what cannot be seen is spelt out, and a long one is cut.
pub fn quoted(text: &str) -> String {
    const SHOWN: usize = 24;
    let shown: String = text
        .chars()
        .take(SHOWN)
        .flat_map(char::escape_debug)
        .collect();
    let more = if text.chars().nth(SHOWN).is_some() {
        "..."
    } else {
        ""
    };
    format!("'{shown}{more}'")
}

/// The value of decimal digits, which may be larger than anything that is asked for.
pub fn digits(text: &str) -> Option<u64> {
    let is_number = !text.is_empty() && text.bytes().all(|byte| byte.is_ascii_digit());
    is_number.then(|| {
        text.bytes().fold(0, |value: u64, digit| {
            value
                .saturating_mul(10)
                .saturating_add(u64::from(digit - b'0'))
        })
    })
}

/// The bytes of a number in a field.
pub fn number(word: &Word, field: &Field) -> Result<Vec<u8>, Fault> {
    let not_one = || {
        word.fault(format!(
            "{} is not a number ({})",
            quoted(word.text),
            field.name
        ))
    };
    let value = digits(word.text).ok_or_else(not_one)?;
    let most = largest(field);
    if value > u64::from(most) {
        let name = field.name;
        return Err(word.fault(format!(
            "{} is too large for {name}: at most {most}",
            quoted(word.text)
        )));
    }
    let bytes = value.to_be_bytes();
    Ok(bytes[bytes.len() - field.bytes..].to_vec())
}
