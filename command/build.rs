//! Bakes in the commit from which the command line is built, where there is one. No path, host or time:
//! the same sources give the same program.

use std::fs;
use std::process::Command;

/// What git prints, if it is there and can tell.
fn git(words: &[&str]) -> Option<String> {
    let output = Command::new("git").args(words).output().ok()?;
    let text = String::from_utf8(output.stdout).ok()?;
    output.status.success().then(|| text.trim_end().to_string())
}

fn main() {
    for place in ["build.rs", "src", "../linked", "../crates.txt"] {
        println!("cargo:rerun-if-changed={place}");
    }
    // Of a crate not what rt keeps in its `out`.
    for krate in fs::read_dir("../crates").into_iter().flatten().flatten() {
        let parts = ["src", "specs", "proofs"].map(|part| krate.path().join(part));
        for part in parts.iter().filter(|part| part.is_dir()) {
            println!("cargo:rerun-if-changed={}", part.display());
        }
    }
    // A commit moves the branch that HEAD names, or HEAD itself.
    let branch = git(&["symbolic-ref", "--quiet", "HEAD"]);
    for name in [Some("HEAD".to_string()), branch].into_iter().flatten() {
        if let Some(path) = git(&["rev-parse", "--git-path", &name]) {
            println!("cargo:rerun-if-changed={path}");
        }
    }
    // Unpacked into a folder of another repository, it is not of that one's commit.
    let is_ours = git(&["rev-parse", "--show-prefix"]).is_some_and(|prefix| prefix == "command/");
    let commit = git(&["rev-parse", "--short=12", "HEAD"]).filter(|_| is_ours);
    let changes = git(&["status", "--porcelain", "--untracked-files=no"]);
    let is_changed = changes.is_some_and(|list| !list.is_empty());
    let told = match (commit, is_changed) {
        (None, _) => String::new(),
        (Some(commit), false) => format!(" ({commit})"),
        (Some(commit), true) => format!(" ({commit}, changed since)"),
    };
    println!("cargo:rustc-env=FLOE_COMMIT={told}");
}
