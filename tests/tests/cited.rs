//! What the papers cite exists: names and files, links, rules by their number, and the wrong programs,
//! each of which the table of promises lists.
//!
//! A name is cited as ``crate/specs/File: `name`, `name` `` or as `` `name` in crate/proofs/File ``, and has
//! to stand in that file; a law or a type that is cited without a file has to stand in some crate.

use std::collections::BTreeSet;
use std::fs;
use std::path::{Path, PathBuf};

const PAPERS: [&str; 14] = [
    "README.md",
    "CHANGELOG.md",
    "docs/CONTRIBUTING.md",
    "docs/DECISIONS.md",
    "docs/FILE.md",
    "docs/GLOSSARY.md",
    "docs/LIBRARY.md",
    "docs/MANUAL.md",
    "docs/PROMISES.md",
    "docs/PROVING.md",
    "docs/RULES.md",
    "docs/SHEETS.md",
    "docs/SIZES.md",
    "docs/SPEED.md",
];

/// Folders at the top: a word in back ticks that begins with one of them is a file or a folder.
const FOLDERS: [&str; 7] = [
    "command/",
    "crates/",
    "docs/",
    "examples/",
    "include/",
    "linked/",
    "tests/",
];

fn root() -> PathBuf {
    Path::new(env!("CARGO_MANIFEST_DIR")).join("..")
}

fn read(path: &Path) -> String {
    fs::read_to_string(path).unwrap_or_else(|e| panic!("{}: {e}", path.display()))
}

/// All text below a path: of a file, or of the files of a folder and its folders.
fn text_below(path: &Path) -> String {
    if path.is_file() {
        return read(path);
    }
    let mut all = String::new();
    for entry in fs::read_dir(path).unwrap() {
        let inner = entry.unwrap().path();
        let code = inner
            .extension()
            .is_some_and(|e| e == "antt" || e == "rt" || e == "rs");
        if inner.is_dir() || code {
            all += &text_below(&inner);
            all.push('\n');
        }
    }
    all
}

fn in_word(c: char) -> bool {
    c.is_alphanumeric() || "-_'·".contains(c)
}

/// Whether a name stands in a text as a word of its own.
fn has_word(text: &str, name: &str) -> bool {
    text.match_indices(name).any(|(at, _)| {
        let before = text[..at].chars().next_back();
        let after = text[at + name.len()..].chars().next();
        !before.is_some_and(in_word) && !after.is_some_and(in_word)
    })
}

/// What a paper is made of, as far as it matters here.
#[derive(Debug, PartialEq)]
enum Piece {
    /// A word in back ticks.
    Name(String),
    /// A file or folder of a crate, of the tests or of the command line.
    Place(String),
    /// What stands between.
    Other(String),
}

/// The end of a place that begins at the front of a text, such as `crate/specs/File` or `crate/proofs/{A, B}`; 0 if there is none.
fn place_end(text: &str) -> usize {
    let crate_end = text
        .find(|c: char| !(c.is_ascii_lowercase() || c == '_'))
        .unwrap_or(text.len());
    let rest = &text[crate_end..];
    if crate_end == 0
        || !["/specs", "/proofs", "/src"]
            .iter()
            .any(|p| rest.starts_with(p))
    {
        return 0;
    }
    let mut end = crate_end;
    let mut inside = false;
    for (i, c) in rest.char_indices() {
        inside = (inside || c == '{') && c != '}';
        if !(c.is_ascii_alphanumeric() || "/_.+}".contains(c) || inside) {
            break;
        }
        end = crate_end + i + c.len_utf8();
    }
    text[..end].trim_end_matches('.').len()
}

fn pieces(text: &str) -> Vec<Piece> {
    let mut all = Vec::new();
    let mut other = String::new();
    let mut rest = text;
    while let Some(c) = rest.chars().next() {
        let in_a_word = other.ends_with(in_word);
        if c == '`' {
            let inner = &rest[1..];
            let len = inner.find('`').unwrap_or(inner.len());
            if len > 0 && inner[..len].chars().all(in_word) {
                all.push(Piece::Other(std::mem::take(&mut other)));
                all.push(Piece::Name(inner[..len].to_string()));
                rest = inner.get(len + 1..).unwrap_or("");
                continue;
            }
            other.push('`');
            rest = inner;
            continue;
        }
        let end = if in_a_word || other.ends_with('/') {
            0
        } else {
            place_end(rest)
        };
        if end > 0 {
            all.push(Piece::Other(std::mem::take(&mut other)));
            all.push(Piece::Place(rest[..end].to_string()));
            rest = &rest[end..];
            continue;
        }
        other.push(c);
        rest = &rest[c.len_utf8()..];
    }
    all.push(Piece::Other(other));
    all
}

/// The files that a place names: one, or those in its braces.
fn files_of(place: &str) -> Vec<PathBuf> {
    let names: Vec<String> = match place.split_once('{') {
        Some((front, list)) => list
            .trim_end_matches('}')
            .split(',')
            .map(|n| format!("{front}{}", n.trim()))
            .collect(),
        None => vec![place.to_string()],
    };
    // Of the crates, or of the tests and the command line, which are Rust.
    let (house, top) = (root().join("crates"), root());
    let places = |n: &str| {
        let of_house = ["", ".antt", ".rt"].map(|e| house.join(format!("{n}{e}")));
        let of_top = ["", ".rs"].map(|e| top.join(format!("{n}{e}")));
        of_house.into_iter().chain(of_top).find(|p| p.exists())
    };
    names
        .iter()
        .map(|n| places(n).unwrap_or_else(|| house.join(n)))
        .collect()
}

/// Whether a text between two pieces only joins names into a list.
fn joins(text: &str) -> bool {
    matches!(text.trim(), "," | "and" | ", and" | "" | "or")
}

/// For each name of a paper the place that it is cited with, if there is one.
fn cited(paper: &str) -> Vec<(String, Option<String>)> {
    let all = pieces(paper);
    let mut found = Vec::new();
    for (i, piece) in all.iter().enumerate() {
        let Piece::Name(name) = piece else { continue };
        let mut place = None;
        // Forwards: the rest of the list, then "in" a place.
        let mut k = i + 1;
        while let (Some(Piece::Other(gap)), Some(next)) = (all.get(k), all.get(k + 1)) {
            match next {
                Piece::Name(_) if joins(gap) => k += 2,
                Piece::Place(p) if gap.trim() == "in" => {
                    place = Some(p.clone());
                    break;
                }
                _ => break,
            }
        }
        // Backwards: the list so far, then a place and a colon.
        let mut k = i;
        while place.is_none() && k >= 2 {
            let (Piece::Other(gap), before) = (&all[k - 1], &all[k - 2]) else {
                break;
            };
            match before {
                Piece::Name(_) if joins(gap) => k -= 2,
                Piece::Place(p) if gap.trim() == ":" => place = Some(p.clone()),
                _ => break,
            }
        }
        found.push((name.clone(), place));
    }
    found
}

/// A law, a definition or a type, by the form of its name: words joined by low lines, or capitals and small letters.
fn is_telling(name: &str) -> bool {
    let law = name.trim_matches('_').contains('_')
        && name
            .chars()
            .all(|c| c.is_ascii_lowercase() || c.is_ascii_digit() || "_'".contains(c));
    let kind = name.starts_with(|c: char| c.is_ascii_uppercase())
        && name.contains(|c: char| c.is_ascii_lowercase());
    law || kind
}

#[test]
fn cited_names_and_files_exist() {
    let house = text_below(&root().join("crates"));
    let mut wrong = Vec::new();
    for paper in PAPERS {
        let text = read(&root().join(paper));
        for piece in pieces(&text) {
            let Piece::Place(place) = piece else { continue };
            for file in files_of(&place) {
                if !file.exists() {
                    wrong.push(format!("{paper}: there is no {place}"));
                }
            }
        }
        for (name, place) in cited(&text) {
            let there = match &place {
                Some(place) => files_of(place)
                    .iter()
                    .filter(|f| f.exists())
                    .any(|f| has_word(&text_below(f), &name)),
                None => !is_telling(&name) || has_word(&house, &name),
            };
            if !there {
                wrong.push(format!(
                    "{paper}: `{name}` is not in {}",
                    place.as_deref().unwrap_or("any crate")
                ));
            }
        }
    }
    assert!(wrong.is_empty(), "{}", wrong.join("\n"));
}

/// The words between two marks of a text: behind the first, up to the second, in one line.
fn between<'a>(text: &'a str, front: &str, end: char) -> Vec<&'a str> {
    let lines = text.lines().flat_map(|line| line.split(front).skip(1));
    lines
        .filter_map(|rest| rest.split_once(end))
        .map(|(word, _)| word)
        .collect()
}

/// Links lead to files, and files that are named in back ticks are there. `NAME` and the like stand for many.
#[test]
fn links_and_paths_lead_somewhere() {
    let mut wrong = Vec::new();
    for paper in PAPERS {
        let path = root().join(paper);
        let text = read(&path);
        let folder = path.parent().unwrap();
        for link in between(&text, "](", ')') {
            let file = link.split('#').next().unwrap();
            if !file.starts_with("http") && !folder.join(file).exists() {
                wrong.push(format!("{paper}: the link {link} leads nowhere"));
            }
        }
        let names = text
            .lines()
            .flat_map(|line| line.split('`').skip(1).step_by(2));
        for name in names.filter(|name| FOLDERS.iter().any(|folder| name.starts_with(folder))) {
            let file = name.split(' ').next().unwrap();
            let stands_for_many =
                file.contains(|c: char| c == '{' || c == '*') || file.contains("NAME");
            if !stands_for_many && !root().join(file).exists() {
                wrong.push(format!("{paper}: there is no {file}"));
            }
        }
    }
    assert!(wrong.is_empty(), "{}", wrong.join("\n"));
}

/// The numbers of the rules, as they stand at the front of their lines.
fn rules() -> Vec<u32> {
    let text = read(&root().join("docs/RULES.md"));
    let numbers = text.lines().filter_map(|line| line.split_once(". **"));
    numbers
        .filter_map(|(number, _)| number.parse().ok())
        .collect()
}

/// The numbers behind `rule` or `rules` in a text: one, some with commas and "and", or the ends of a
/// stretch, up to the end of a bracket or a sentence.
fn rules_cited(text: &str) -> Vec<u32> {
    let mut all = Vec::new();
    for front in ["rule ", "rules ", "Rule ", "Rules "] {
        for rest in text.split(front).skip(1) {
            for word in rest.split([' ', '\n']) {
                match word.trim_end_matches([',', '.', ';', ':', ')']).parse() {
                    Ok(number) => all.push(number),
                    Err(_) if matches!(word, "to" | "and" | "") => {}
                    Err(_) => break,
                }
                if word.contains([')', '.', ';', ':']) {
                    break;
                }
            }
        }
    }
    all
}

#[test]
fn cited_rules_exist_and_have_one_number_each() {
    let rules = rules();
    let once: BTreeSet<u32> = rules.iter().copied().collect();
    assert!(
        rules.len() == once.len() && rules.len() > 100,
        "{} rules",
        rules.len()
    );
    let mut texts: Vec<(String, String)> = PAPERS
        .iter()
        .map(|paper| (paper.to_string(), read(&root().join(paper))))
        .collect();
    for folder in ["crates", "tests", "command"] {
        texts.push((folder.to_string(), text_below(&root().join(folder))));
    }
    let mut wrong = BTreeSet::new();
    let mut cited = 0;
    for (place, text) in &texts {
        for number in rules_cited(text) {
            cited += 1;
            if !once.contains(&number) {
                wrong.insert(format!("{place}: there is no rule {number}"));
            }
        }
    }
    assert!(cited > 200, "only {cited} citations were found");
    assert!(wrong.is_empty(), "{wrong:?}");
}

/// The wrong programs as crate/label: those that stand beside the crates.
fn wrong_programs() -> BTreeSet<String> {
    let mut all = BTreeSet::new();
    for entry in fs::read_dir(root().join("crates")).unwrap() {
        let folder = entry.unwrap().path();
        let Ok(edits) = fs::read_dir(folder.join("must-fail")) else {
            continue;
        };
        for edit in edits {
            let path = edit.unwrap().path();
            assert!(
                path.extension().is_some_and(|e| e == "edit"),
                "{} is tried by nobody",
                path.display()
            );
            let label = path.file_stem().unwrap().to_str().unwrap().to_string();
            all.insert(format!(
                "{}/{label}",
                folder.file_name().unwrap().to_str().unwrap()
            ));
        }
    }
    all
}

/// The wrong programs that the table of promises lists: `crate/label, label; crate/label` in its third column.
fn listed_programs() -> BTreeSet<String> {
    let text = read(&root().join("docs/PROMISES.md"));
    let (_, table) = text
        .split_once("\n## Wrong programs")
        .expect("PROMISES has a section on wrong programs");
    let mut all = BTreeSet::new();
    for line in table
        .lines()
        .filter(|l| l.starts_with('|') && l.contains('/'))
    {
        let column = line.split('|').nth(3).unwrap();
        let mut folder = "";
        for word in column
            .split([',', ';'])
            .map(str::trim)
            .filter(|w| !w.is_empty())
        {
            let label = match word.split_once('/') {
                Some((front, label)) => {
                    folder = front;
                    label
                }
                None => word,
            };
            all.insert(format!("{folder}/{label}"));
        }
    }
    all
}

#[test]
fn wrong_programs_are_listed() {
    let (there, listed) = (wrong_programs(), listed_programs());
    let missing: Vec<_> = there.difference(&listed).collect();
    let gone: Vec<_> = listed.difference(&there).collect();
    assert!(
        missing.is_empty() && gone.is_empty(),
        "not in the table: {missing:?}; only in the table: {gone:?}"
    );
}

#[test]
fn citations_are_found() {
    let said = "It is so (base/specs/Lists: `up_to`, `padded`); `row_least'` and `one_seam` in device/proofs/Least, and `Far`.";
    let place = |p: &str| Some(p.to_string());
    assert_eq!(
        cited(said),
        [
            ("up_to".to_string(), place("base/specs/Lists")),
            ("padded".to_string(), place("base/specs/Lists")),
            ("row_least'".to_string(), place("device/proofs/Least")),
            ("one_seam".to_string(), place("device/proofs/Least")),
            ("Far".to_string(), None),
        ]
    );
    assert!(has_word("pub abc_d : x", "abc_d") && !has_word("pub abc_de : x", "abc_d"));
    assert!(!has_word("pub abc_d' : x", "abc_d"));
    let telling = ["row_least", "one_seam'", "mul_t9", "Far", "FarOff"];
    assert!(telling.iter().all(|name| is_telling(name)));
    let untelling = ["row", "FAR_OFF", "must-fail", "_", "T"];
    assert!(!untelling.iter().any(|name| is_telling(name)));
    assert_eq!(
        rules_cited("by rules 3, 10 to 15 and 80, and rule 7."),
        [7, 3, 10, 15, 80]
    );
}
