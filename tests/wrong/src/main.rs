//! Holds the wrong programs to their facts: each crates/NAME/must-fail/LABEL.edit is an edit of its crate, and names the fact at which the prover must refuse it.
//! Beside them the controls, crates/NAME/must-pass/LABEL.right: right programs of another shape, which the prover must not refuse.
//!
//!     cargo run --release -p wrong -- [NAME | NAME/LABEL]..                all, or those of some crates, or single ones
//!     cargo run --release -p wrong -- --log LOG [NAME | NAME/LABEL]..      the wrong programs alone, by what an `rt ci` has said of them
//!     cargo run --release -p wrong -- --controls [NAME | NAME/LABEL]..     the controls alone
//!     cargo run --release -p wrong -- --facts [--log LOG] [NAME ..]        writes into the wrong programs' files the facts at which they are refused
//!
//! The wrong programs are tried by rt: by the `rt ci` of which there is a log, or else by `rt must-fail`, which is called here. A wrong program passes if it is
//! refused, the error that refuses it is at the fact, and says that the fact fails and not that the proof's text does not fit the code. rt's word on an error
//! ends after some 160 characters: what is cut off of a goal is not held. The controls are tried here, by `rt check` in copies.
//!
//! The last line is 'wrong: N passed, M failed'. Every edit has a result, or it counts as failed.

mod controls;
mod edits;
mod functions;
mod holding;
mod log;
mod system;
mod view;

use edits::{Edit, Kind};
use holding::{fact_by_rt, failed, hold, passed, Verdict};
use log::Told;
use std::collections::BTreeSet;
use std::fs;
use std::path::{Path, PathBuf};
use std::process::{Command, ExitCode};
use std::sync::Mutex;
use view::House;

/// What is wrong with the call or the house: a word, and status 2.
type Words = String;

#[derive(Default)]
struct Wanted {
    names: Vec<String>,
    log: Option<PathBuf>,
    controls_alone: bool,
    writes_facts: bool,
}

fn main() -> ExitCode {
    match tried() {
        Ok((passed, failed)) => {
            println!("wrong: {passed} passed, {failed} failed");
            ExitCode::from(u8::from(failed > 0))
        }
        Err(words) => {
            eprintln!("wrong: {words}");
            ExitCode::from(2)
        }
    }
}

fn tried() -> Result<(usize, usize), Words> {
    let wanted = wanted(std::env::args().skip(1))?;
    let root = root()?;
    let has_controls = wanted.log.is_none() && !wanted.writes_facts;
    let is_asked = |edit: &Edit| match edit.kind {
        Kind::Wrong => !wanted.controls_alone,
        Kind::Right => has_controls,
    };
    let all = edits::all(&root)?.into_iter().filter(is_asked);
    let all = chosen(all.collect(), &wanted.names)?;
    let want = all.len();
    let (wrong, right): (Vec<Edit>, Vec<Edit>) =
        all.into_iter().partition(|edit| edit.kind == Kind::Wrong);

    let results = Mutex::new((0, 0));
    let tell = |verdict: Verdict| {
        println!("wrong {}: {}", verdict.of, verdict.said);
        let mut results = results
            .lock()
            .expect("no worker has failed with the results");
        match verdict.passed {
            true => results.0 += 1,
            false => results.1 += 1,
        }
    };
    if !wrong.is_empty() {
        let told = told(&root, &wrong, wanted.log.as_deref())?;
        let verdicts = match wanted.writes_facts {
            true => write_facts(&root, &wrong, &told)?,
            false => hold(&root, &wrong, &told, wanted.names.is_empty()),
        };
        verdicts.into_iter().for_each(tell);
    }
    if !right.is_empty() {
        let house = House::read(root).map_err(|e| format!("crates.txt cannot be read: {e}"))?;
        controls::try_all(&house, &right, &tell)?;
    }
    let (passed, failed) = *results
        .lock()
        .map_err(|_| "a worker has failed".to_string())?;
    if passed + failed < want {
        println!(
            "wrong: {want} results are wanted, and {} have come",
            passed + failed
        );
    }
    Ok((passed, failed.max(want.saturating_sub(passed))))
}

/// What rt has said of wrong programs, or says when it is asked for their crates.
fn told(root: &Path, edits: &[Edit], log: Option<&Path>) -> Result<Vec<(String, Told)>, Words> {
    let text = match log {
        Some(path) => {
            fs::read(path).map_err(|e| format!("{} cannot be read: {e}", path.display()))?
        }
        None => {
            let crates: BTreeSet<&str> = edits.iter().map(|edit| edit.krate.as_str()).collect();
            let mut command = Command::new("rt");
            command.arg("must-fail").args(crates).current_dir(root);
            let output = command
                .output()
                .map_err(|e| format!("rt (the Rattle toolchain) cannot be called: {e}"))?;
            // Of its status nothing is asked: each edit has a line.
            eprint!("{}", String::from_utf8_lossy(&output.stderr));
            output.stdout
        }
    };
    Ok(log::read(&String::from_utf8_lossy(&text)))
}

/// Writes into the edits' files the facts at which rt has refused them.
fn write_facts(
    root: &Path,
    edits: &[Edit],
    told: &[(String, Told)],
) -> Result<Vec<Verdict>, Words> {
    let mut verdicts = Vec::new();
    for edit in edits {
        let name = edit.to_string();
        let Some((_, told)) = told.iter().find(|(of, _)| *of == name) else {
            verdicts.push(failed(edit, "NOT TRIED: rt says nothing of it".to_string()));
            continue;
        };
        verdicts.push(match fact_by_rt(root, edit, told) {
            Err(why) => failed(edit, why),
            Ok(fact) if edit.fact.as_ref() == Some(&fact) => passed(edit, format!("is at {fact}")),
            Ok(fact) => {
                edit.name_fact(&fact)
                    .map_err(|e| format!("{} cannot be written: {e}", edit.path.display()))?;
                let before = edit
                    .fact
                    .as_ref()
                    .map_or("none".to_string(), |fact| fact.to_string());
                passed(edit, format!("is at {fact}, and was at {before}"))
            }
        });
    }
    Ok(verdicts)
}

fn wanted(words: impl Iterator<Item = String>) -> Result<Wanted, Words> {
    let mut wanted = Wanted::default();
    let mut words = words;
    while let Some(word) = words.next() {
        match word.as_str() {
            "--log" => wanted.log = Some(words.next().ok_or("--log wants a file")?.into()),
            "--controls" => wanted.controls_alone = true,
            "--facts" => wanted.writes_facts = true,
            _ if word.starts_with('-') => {
                return Err(format!(
                    "there is no option {word}: give names, NAME or NAME/LABEL, or --log LOG, --controls or --facts"
                ));
            }
            _ => wanted.names.push(word),
        }
    }
    if wanted.controls_alone && (wanted.log.is_some() || wanted.writes_facts) {
        return Err("--controls goes with names alone".to_string());
    }
    Ok(wanted)
}

/// The folder with crates.txt: this one, or the next above it.
fn root() -> Result<PathBuf, Words> {
    let here = std::env::current_dir().map_err(|e| format!("there is no current folder: {e}"))?;
    let root = here
        .ancestors()
        .find(|place| place.join("crates.txt").is_file());
    root.map(Path::to_path_buf).ok_or_else(|| {
        "there is no crates.txt in this folder or above it: call it inside a clone".to_string()
    })
}

/// The edits that are asked for: all, or those that the words name.
fn chosen(all: Vec<Edit>, names: &[String]) -> Result<Vec<Edit>, Words> {
    let is = |edit: &Edit, name: &str| edit.krate == name || edit.to_string() == name;
    for name in names {
        if !all.iter().any(|edit| is(edit, name)) {
            return Err(format!(
                "there is no edit {name}: give a crate that has some, or NAME/LABEL"
            ));
        }
    }
    let found: Vec<Edit> = all
        .into_iter()
        .filter(|edit| names.is_empty() || names.iter().any(|name| is(edit, name)))
        .collect();
    if found.is_empty() {
        return Err("there is no edit below crates/: nothing would be tried".to_string());
    }
    Ok(found)
}
