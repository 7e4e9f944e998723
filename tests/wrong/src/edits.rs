//! The edits: a file each, in crates/NAME/must-fail or crates/NAME/must-pass.
//!
//! A file has what the program does, in words; of a wrong program then `fact: PROOF: GOAL`, the proof (below proofs/) and the goal or law in it that fails first;
//! then `file:` and pairs of `old:` and `new:`, one line each. It is rt's own format, which passes over all other lines.

use std::fmt;
use std::fs;
use std::io;
use std::path::{Path, PathBuf};

#[derive(Clone, Copy, PartialEq, Eq, Debug)]
pub enum Kind {
    /// A wrong program, which `rt ci` and `rt must-fail` try: must-fail/LABEL.edit.
    Wrong,
    /// A right program of another shape, which must not be refused: must-pass/LABEL.right.
    Right,
}

/// Where a wrong program has to be refused first.
#[derive(Clone, PartialEq, Eq, Debug)]
pub struct Fact {
    pub proof: String,
    pub goal: String,
}

impl Fact {
    fn read(text: &str) -> Option<Fact> {
        let (proof, goal) = text.split_once(": ")?;
        Some(Fact {
            proof: proof.to_string(),
            goal: goal.trim().to_string(),
        })
    }
}

impl fmt::Display for Fact {
    fn fmt(&self, f: &mut fmt::Formatter) -> fmt::Result {
        write!(f, "{}: {}", self.proof, self.goal)
    }
}

#[derive(Clone, Debug)]
pub struct Change {
    pub file: String,
    pub old: String,
    pub new: String,
}

#[derive(Clone, Debug)]
pub struct Edit {
    pub krate: String,
    pub label: String,
    pub kind: Kind,
    pub path: PathBuf,
    pub fact: Option<Fact>,
    pub changes: Vec<Change>,
}

impl fmt::Display for Edit {
    fn fmt(&self, f: &mut fmt::Formatter) -> fmt::Result {
        write!(f, "{}/{}", self.krate, self.label)
    }
}

impl Edit {
    fn read(krate: &str, kind: Kind, path: PathBuf) -> io::Result<Edit> {
        let text = fs::read_to_string(&path)?;
        let mut edit = Edit {
            krate: krate.to_string(),
            label: path
                .file_stem()
                .unwrap_or_default()
                .to_string_lossy()
                .into_owned(),
            kind,
            path,
            fact: None,
            changes: Vec::new(),
        };
        let (mut file, mut old) = (String::new(), String::new());
        for line in text.lines() {
            if let Some(fact) = line.strip_prefix("fact: ") {
                edit.fact = Fact::read(fact);
            } else if let Some(name) = line.strip_prefix("file: ") {
                file = name.trim().to_string();
            } else if let Some(text) = line.strip_prefix("old: ") {
                old = text.to_string();
            } else if let Some(text) = line.strip_prefix("new:") {
                let new = text.strip_prefix(' ').unwrap_or(text).to_string();
                let (file, old) = (file.clone(), std::mem::take(&mut old));
                edit.changes.push(Change { file, old, new });
            }
        }
        Ok(edit)
    }

    /// Makes the edit in the crate's copy `place`.
    pub fn apply(&self, place: &Path) -> Result<(), String> {
        if self.changes.is_empty() {
            return Err("it has no 'old:' and 'new:'".to_string());
        }
        for change in &self.changes {
            let path = place.join(&change.file);
            let text = fs::read_to_string(&path).map_err(|e| format!("{}: {e}", change.file))?;
            let at = only(&text, &change.old).ok_or_else(|| {
                let file = &change.file;
                format!("a text to replace is not in {file}, or more than once")
            })?;
            let (before, after) = (&text[..at], &text[at + change.old.len()..]);
            fs::write(&path, [before, &change.new, after].concat())
                .map_err(|e| format!("{}: {e}", change.file))?;
        }
        Ok(())
    }

    /// Names another fact in the edit's file: in the line of the one before, or in front of the first `file:`.
    pub fn name_fact(&self, fact: &Fact) -> io::Result<()> {
        let text = fs::read_to_string(&self.path)?;
        let mut lines: Vec<String> = text.lines().map(str::to_string).collect();
        let line = format!("fact: {fact}");
        match lines.iter().position(|line| line.starts_with("fact: ")) {
            Some(at) => lines[at] = line,
            None => {
                let at = lines.iter().position(|line| line.starts_with("file: "));
                lines.insert(at.unwrap_or(lines.len()), line);
            }
        }
        fs::write(&self.path, lines.join("\n") + "\n")
    }
}

/// Where a text stands in another, if it does so once.
fn only(text: &str, part: &str) -> Option<usize> {
    let at = text.find(part).filter(|_| !part.is_empty())?;
    let next = at + part.chars().next().map_or(1, char::len_utf8);
    (!text[next..].contains(part)).then_some(at)
}

/// All edits of the house, by crate and label. A file that nobody would try is an error.
pub fn all(root: &Path) -> Result<Vec<Edit>, String> {
    let cannot = |e: io::Error| format!("the edits cannot be read: {e}");
    let mut found = Vec::new();
    for krate in entries(&root.join("crates")).map_err(cannot)? {
        let name = word(&krate);
        for (folder, ending, kind) in [
            ("must-fail", "edit", Kind::Wrong),
            ("must-pass", "right", Kind::Right),
        ] {
            let place = krate.join(folder);
            if !place.is_dir() {
                continue;
            }
            for path in entries(&place).map_err(cannot)? {
                if path.extension().is_none_or(|e| e != ending) {
                    let file = format!("crates/{name}/{folder}/{}", word(&path));
                    return Err(format!(
                        "{file} is tried by nobody: it has to end in .{ending}"
                    ));
                }
                found.push(Edit::read(&name, kind, path).map_err(cannot)?);
            }
        }
    }
    Ok(found)
}

/// What a folder has, in the order of the names.
pub fn entries(folder: &Path) -> io::Result<Vec<PathBuf>> {
    let mut found = Vec::new();
    for entry in fs::read_dir(folder)? {
        found.push(entry?.path());
    }
    found.sort();
    Ok(found)
}

pub fn word(path: &Path) -> String {
    path.file_name()
        .unwrap_or_default()
        .to_string_lossy()
        .into_owned()
}

#[cfg(test)]
mod tests {
    use super::only;

    #[test]
    fn once_and_no_more() {
        assert_eq!(only("abc", "b"), Some(1));
        assert_eq!(only("abab", "ab"), None);
        assert_eq!(only("aaa", "aa"), None);
        assert_eq!(only("≤a≤", "≤a"), Some(0));
        assert_eq!(only("abc", ""), None);
    }
}
