//! Calls whose words are files: a table has one line a call, in which the names of files stand in
//! capitals, and what is said has them again.

use crate::floe::{file, same, Floe, Tried};
use std::path::Path;

/// A file by its name in a table, and what is in it.
pub type Content = (&'static str, &'static str);

/// A call, its input, its status, and what it says: all of it, or some of it between dots.
pub type Call = (&'static str, &'static str, i32, &'static str);

/// Whether something is said as a table has it.
fn is_said(said: &str, expected: &str) -> bool {
    match expected.strip_prefix("..") {
        Some(part) => said.contains(part.strip_suffix("..").unwrap_or(part)),
        None => said == format!("{expected}\n"),
    }
}

/// Makes the files, and holds every call, which gives nothing, to what it has to say.
pub fn hold(floe: &Floe, folder: &Path, files: &[Content], calls: &[Call]) -> Tried {
    let mut paths = Vec::new();
    for (name, content) in files {
        let path = file(folder, &name.to_lowercase(), content.as_bytes())?;
        paths.push((*name, path));
    }
    for (call, input, status, expected) in calls {
        let word = |word: &str| {
            let path = paths.iter().find(|(name, _)| *name == word);
            // A word with a blank in it has an underscore there.
            path.map_or_else(|| word.replace('_', " "), |(_, path)| path.clone())
        };
        let words: Vec<String> = call.split(' ').map(word).collect();
        let words: Vec<&str> = words.iter().map(String::as_str).collect();
        let (got, mut said) = floe.failed(&words, input.as_bytes())?;
        for (name, path) in &paths {
            said = said.replace(path, name);
        }
        same((got, is_said(&said, expected)), (*status, true), || {
            format!("{call} of {input:?}: {said}")
        })?;
    }
    Ok(calls.len() as u64)
}
