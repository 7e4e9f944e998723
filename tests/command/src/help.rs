//! Help, and calls that mean nothing: status 2, with what there is on standard error.

use crate::floe::{same, Floe, Tried};
use std::fs;
use std::path::Path;

const COMMANDS: [&str; 12] = [
    "plan", "check", "possible", "verdict", "rows", "step", "mend", "write", "show", "draw",
    "build", "export",
];

const WRONG: [&[&str]; 39] = [
    &[],
    &["planx"],
    &["Plan"],
    &[""],
    &["--version", "plan"],
    &["plan", "--version"],
    &["plan"],
    &["plan", "-", "-"],
    &["plan", "-", "--budget"],
    &["plan", "-", "--budget", "x"],
    &["plan", "-", "--budget", "4294967296"],
    &["plan", "-", "--budget=1", "--budget=2"],
    &["plan", "-", "--starts", "0"],
    &["plan", "-", "--memory", "x"],
    &["plan", "-", "--memory", "1048577"],
    &["plan", "-", "--memory", "1", "--budget", "9"],
    &["check", "-", "--memory", "1"],
    &["check", "-", "--budget", "1"],
    &["verdict"],
    &["verdict", "-", "x"],
    &["rows", "-", "0,,1"],
    &["mend", "-", "65536"],
    &["draw", "-", "--starts", "0", "--budget", "9"],
    &["draw", "-", "--starts", "0", "--memory", "9"],
    &["build", "-"],
    &["plan", "-", "--runs=1"],
    &["plan", "--csv", "-"],
    &["build", "-", "-", "--horizon", "x"],
    &["step"],
    &["export"],
    &["export", "devices", "-"],
    &["export", "jobs"],
    &["export", "jobs", "-", "--csv", "x"],
    &["export", "catalogue", "-", "--mend"],
    &["export", "plan", "-", "--mend"],
    &["draw", "-", "--width", "479"],
    &["draw", "-", "--light", "--dark"],
    &["check", "-", "--runs"],
    &["show", "-", "--text"],
];

/// The version, and of a clone the commit: hexadecimal digits, and a word if the sources had changed.
fn version(floe: &Floe) -> Tried {
    let output = floe.output(&["--version"], b"")?;
    let text = String::from_utf8_lossy(&output).into_owned();
    let front = format!("floe {}", env!("CARGO_PKG_VERSION"));
    let rest = text.strip_prefix(&front).unwrap_or("no such front");
    let commit = rest
        .strip_prefix(" (")
        .and_then(|rest| rest.strip_suffix(")\n"));
    let is_told = match commit {
        None => rest == "\n",
        Some(told) => {
            let commit = told.strip_suffix(", changed since").unwrap_or(told);
            commit.len() >= 12 && commit.chars().all(|digit| digit.is_ascii_hexdigit())
        }
    };
    same(is_told, true, || format!("--version says {text:?}"))?;
    Ok(1)
}

/// README's table has a row for each command, called as the overview says.
fn in_readme(overview: &str) -> Result<(), String> {
    let path = Path::new(env!("CARGO_MANIFEST_DIR")).join("../../README.md");
    let readme = fs::read_to_string(path).map_err(|fault| fault.to_string())?;
    let rows = readme.lines().filter_map(|line| line.strip_prefix("| `"));
    let calls: Vec<&str> = rows.filter_map(|row| row.split('`').next()).collect();
    for command in COMMANDS {
        let begins = |line: &&str| line.starts_with(&format!("{command} "));
        let told = overview.lines().map(str::trim_start).find(begins);
        let told = told.and_then(|line| line.split("  ").next());
        same(calls.iter().copied().find(begins), told, || {
            format!("README's row of {command}, and the overview")
        })?;
    }
    Ok(())
}

pub fn test(floe: &Floe) -> Tried {
    let overview = floe.output(&["--help"], b"")?;
    let mut runs = 1 + version(floe)?;
    let text = String::from_utf8_lossy(&overview).into_owned();
    for help in ["-h", "help"] {
        same(floe.output(&[help], b"")?, overview.clone(), || {
            help.to_string()
        })?;
        runs += 1;
    }
    let longest = text.lines().map(|line| line.chars().count()).max();
    same(longest <= Some(100), true, || {
        format!("a line of {longest:?}")
    })?;
    in_readme(&text)?;
    for command in COMMANDS {
        let line = text
            .lines()
            .find(|line| line.trim_start().starts_with(&format!("{command} ")));
        same(line.is_some(), true, || format!("no help on {command}"))?;
        let own = floe.output(&[command, "--help"], b"")?;
        same(floe.output(&["help", command], b"")?, own.clone(), || {
            command.to_string()
        })?;
        let is_own = String::from_utf8_lossy(&own).starts_with(&format!("floe {command} "));
        same(is_own, true, || format!("help on {command}"))?;
        runs += 2;
    }
    for words in WRONG {
        let printed = floe.run(words, b"")?;
        let is_told = printed.errors.len() > 20 && printed.output.is_empty();
        same((printed.status, is_told), (Some(2), true), || {
            format!("{words:?}: {}", printed.report())
        })?;
        let is_command = |word: &&str| COMMANDS.contains(word);
        if words.len() < 2 && !words.iter().any(is_command) {
            let errors = String::from_utf8_lossy(&printed.errors).into_owned();
            let names_all = COMMANDS.iter().all(|command| errors.contains(command));
            same(names_all, true, || format!("{words:?}: {errors}"))?;
        }
        runs += 1;
    }
    Ok(runs)
}
