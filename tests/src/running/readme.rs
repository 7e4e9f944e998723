//! What README says of the tests' own figures, held to what was measured.

use std::fs;
use std::path::Path;

/// README has figures in whole thousands: of what was measured the part below a thousand is left out.
const WHOLE: u64 = 1_000;

/// So many of what these words name are what README says.
pub fn hold(measured: u64, words: &str) -> Result<(), String> {
    let path = Path::new(env!("CARGO_MANIFEST_DIR")).join("../README.md");
    let readme = fs::read_to_string(path).map_err(|fault| format!("README.md: {fault}"))?;
    let said = figure(&readme, words).ok_or(format!("README.md says no figure of {words:?}"))?;
    if said == measured - measured % WHOLE {
        return Ok(());
    }
    Err(format!(
        "README.md says {said} {words}, measured are {measured}"
    ))
}

/// The number that stands before these words.
fn figure(text: &str, words: &str) -> Option<u64> {
    let before = text.split(&format!(" {words}")).next()?;
    let is_there = before.len() < text.len();
    let digits = before.rsplit(' ').next().filter(|_| is_there)?;
    digits.replace(',', "").parse().ok()
}

#[cfg(test)]
mod tests {
    use super::*;

    #[test]
    fn a_figure_is_the_number_before_its_words() {
        let text = "so many: 1,366,000 calls of it, and 21 runs";
        assert_eq!(figure(text, "calls of it"), Some(1_366_000));
        assert_eq!(figure(text, "runs"), Some(21));
        assert_eq!(figure(text, "of it"), None);
        assert_eq!(figure(text, "searches"), None);
    }
}
