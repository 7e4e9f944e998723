//! Files that a spreadsheet program keeps for itself, told by their first bytes.

const WIDE: &str = "it is text in UTF-16: save it as CSV, and not as Unicode text";

const KINDS: [(&[u8], &str); 4] = [
    (
        b"PK\x03\x04",
        "it is a spreadsheet's own file (.xlsx or .ods): save it as CSV",
    ),
    (
        b"\xD0\xCF\x11\xE0",
        "it is a spreadsheet's own file (.xls): save it as CSV",
    ),
    (b"\xFF\xFE", WIDE),
    (b"\xFE\xFF", WIDE),
];

/// What the bytes are, and what to do. No request that is accepted begins like any of them: its horizon would be too
/// long, its kind unknown, or its devices or tasks too many.
pub fn told(bytes: &[u8]) -> Option<&'static str> {
    let kind = KINDS.iter().find(|(front, _)| bytes.starts_with(front));
    let kind = kind.map(|(_, words)| *words);
    kind.or(is_wide(bytes).then_some(WIDE))
}

/// Plain letters in UTF-16 without a mark: every second byte is 0.
fn is_wide(bytes: &[u8]) -> bool {
    match bytes {
        [0, first, 0, second, 0, third, ..] | [first, 0, second, 0, third, 0, ..] => {
            let letters = [first, second, third];
            letters.into_iter().all(|byte| (b' '..=b'~').contains(byte))
        }
        _ => false,
    }
}

#[cfg(test)]
mod tests {
    use super::*;

    #[test]
    fn requests_and_texts_are_not_foreign() {
        for bytes in [
            &b"\x00\x05\x01\x01\x00\x05"[..],
            b"\xFF\x02\x00\x0C\x00\x00",
            b"\x00\x20\x00\x00\x00\x00",
            b"horizon 5",
            b"PK",
            b"",
        ] {
            assert_eq!(told(bytes), None, "{bytes:02X?}");
        }
    }
}
