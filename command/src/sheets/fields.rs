//! The fields of a line of a sheet, for messages: which of them is at fault. What a line says is the
//! library's to judge.

/// Whether the quotes of a field are as they have to be.
#[derive(Clone, Copy, Debug, PartialEq, Eq)]
pub enum Quotes {
    Right,
    /// One stands inside, or before something else than a comma.
    Stray,
    /// One is not closed.
    Open,
}

#[derive(Clone, Debug, PartialEq, Eq)]
pub struct Piece {
    /// What the field says, without the quotes around it.
    pub text: String,
    pub quotes: Quotes,
}

/// The lines of a sheet. What follows the last end is a line too, unless it is nothing. There may be millions.
pub fn lines(sheet: &[u8]) -> impl Iterator<Item = &[u8]> {
    let mut rest = sheet;
    std::iter::from_fn(move || {
        let end = rest.windows(2).position(|pair| pair == b"\r\n");
        let (line, after) = match end {
            Some(end) => (&rest[..end], &rest[end + 2..]),
            None => (rest, &rest[rest.len()..]),
        };
        rest = after;
        (end.is_some() || !line.is_empty()).then_some(line)
    })
}

/// The fields of a line, parted by this byte. There may be millions.
pub fn pieces(line: &[u8], comma: u8) -> impl Iterator<Item = Piece> + '_ {
    let mut rest = Some(line);
    std::iter::from_fn(move || {
        let (piece, after) = first(rest?, comma);
        rest = after;
        Some(piece)
    })
}

/// The first field, and what follows the comma after it, if there is one.
fn first(line: &[u8], comma: u8) -> (Piece, Option<&[u8]>) {
    let Some(inside) = line.strip_prefix(b"\"") else {
        let (field, after) = up_to(line, comma);
        let quotes = match field.contains(&b'"') {
            true => Quotes::Stray,
            false => Quotes::Right,
        };
        return (piece(field, quotes), after);
    };
    let Some(end) = closing(inside) else {
        return (piece(line, Quotes::Open), None);
    };
    let (tail, after) = up_to(&inside[end + 1..], comma);
    if tail.is_empty() {
        let text = String::from_utf8_lossy(&inside[..end]).replace("\"\"", "\"");
        let quotes = Quotes::Right;
        return (Piece { text, quotes }, after);
    }
    let whole = &line[..line.len() - after.map_or(0, |after| after.len() + 1)];
    (piece(whole, Quotes::Stray), after)
}

fn piece(bytes: &[u8], quotes: Quotes) -> Piece {
    let text = String::from_utf8_lossy(bytes).into_owned();
    Piece { text, quotes }
}

fn up_to(line: &[u8], comma: u8) -> (&[u8], Option<&[u8]>) {
    match line.iter().position(|&byte| byte == comma) {
        Some(end) => (&line[..end], Some(&line[end + 1..])),
        None => (line, None),
    }
}

/// Where the quote stands that closes a field; two of them stand for one that does not.
fn closing(inside: &[u8]) -> Option<usize> {
    let mut at = 0;
    loop {
        at += inside[at..].iter().position(|&byte| byte == b'"')?;
        if inside.get(at + 1) != Some(&b'"') {
            return Some(at);
        }
        at += 2;
    }
}

#[cfg(test)]
mod tests {
    use super::*;

    fn texts(line: &str) -> Vec<(String, Quotes)> {
        let pieces = pieces(line.as_bytes(), b',');
        pieces.map(|piece| (piece.text, piece.quotes)).collect()
    }

    fn right(texts: &[&str]) -> Vec<(String, Quotes)> {
        let right = |text: &&str| (text.to_string(), Quotes::Right);
        texts.iter().map(right).collect()
    }

    #[test]
    fn commas_part_fields_outside_quotes() {
        assert_eq!(texts("417,1,5"), right(&["417", "1", "5"]));
        assert_eq!(texts("\"4,7\",\"a\"\"b\","), right(&["4,7", "a\"b", ""]));
        assert_eq!(texts(""), right(&[""]));
        assert_eq!(texts("\"\""), right(&[""]));
    }

    #[test]
    fn a_quote_that_is_wrong_is_found() {
        let quotes = |line| {
            texts(line)
                .into_iter()
                .map(|(_, quotes)| quotes)
                .collect::<Vec<_>>()
        };
        assert_eq!(quotes("a\"b,1"), [Quotes::Stray, Quotes::Right]);
        assert_eq!(
            quotes("1,\"A\"B,2"),
            [Quotes::Right, Quotes::Stray, Quotes::Right]
        );
        assert_eq!(quotes("1,\"A,2"), [Quotes::Right, Quotes::Open]);
        assert_eq!(texts("1,\"A\"B,2")[1].0, "\"A\"B");
    }

    #[test]
    fn lines_end_in_two_bytes() {
        let lines = |sheet| lines(sheet).collect::<Vec<_>>();
        assert_eq!(lines(b"a\r\nb\r\n"), [b"a", b"b"]);
        assert_eq!(lines(b"a\r\n\r\nb"), [&b"a"[..], b"", b"b"]);
        assert!(lines(b"").is_empty());
    }
}
