//! For how long a search has been at work, on a terminal and only there, and how it is ended; and the
//! script at the top.

use crate::floe::{same, Floe, Tried};
use crate::pty;
use outside::running::runner::{run, Feed};
use std::fs;
use std::os::unix::fs::symlink;
use std::path::Path;
use std::process::Command;

/// Ten loose jobs: 59,184,591 vertices. Without a memory that takes some seconds.
fn loose() -> String {
    "horizon 14\ndevice 1 5 1 3\n".to_string() + &"job 0 14 1 0\n".repeat(10)
}

pub fn test(floe: &Floe) -> Tried {
    let folder = std::env::temp_dir().join(format!("floe-terminal-{}", std::process::id()));
    fs::create_dir_all(&folder).map_err(|fault| fault.to_string())?;
    let tried = in_folder(floe, &folder);
    let _ = fs::remove_dir_all(&folder);
    tried
}

fn in_folder(floe: &Floe, folder: &Path) -> Tried {
    let request = folder.join("loose.txt");
    fs::write(&request, loose()).map_err(|fault| fault.to_string())?;
    let request = request.to_string_lossy();
    // Without a terminal the plan alone.
    let plan = floe.output(&["plan", &request], b"")?;
    let plan = String::from_utf8_lossy(&plan);
    same(plan.starts_with("energy 58\njob 0 start 0"), true, || {
        plan.to_string()
    })?;
    same(
        floe.refused(&["plan", &request, "--budget", "59184590"], b"")?
            .0,
        20,
        || "a budget that is one too small".to_string(),
    )?;
    let enough = floe.output(&["plan", &request, "--budget", "59184591"], b"")?;
    let counted = plan.replacen("\n", "\nvertices 59184591\n", 1);
    same(String::from_utf8_lossy(&enough), counted.into(), || {
        "a budget that is just enough".to_string()
    })?;
    let forgetful = || floe.command(&["plan", &request, "--memory", "0"]);
    let unseen = run(&mut forgetful(), &Feed::whole(b""))?;
    same(unseen.clean()?, plan.as_bytes().to_vec(), || {
        "without a memory".to_string()
    })?;
    let mut runs = 4;

    let (printed, said) = pty::shown(forgetful())?;
    let is_told = said.contains("\rfloe: at work for 1 s; Ctrl-C ends it")
        && said.ends_with(&format!("\r\x1b[K{plan}"));
    same((printed.status, is_told), (Some(0), true), || said.clone())?;
    runs += 1 + interrupted(forgetful())?;

    runs += bytes_to_a_terminal(floe, &request)?;

    // The script finds its house from anywhere, through a link too.
    let script = Path::new(env!("CARGO_MANIFEST_DIR")).join("../../floe");
    let link = folder.join("floe");
    symlink(&script, &link).map_err(|fault| fault.to_string())?;
    for program in [&script, &link] {
        let mut command = floe.called_by(program);
        command.args(["plan", "loose.txt"]).current_dir(folder);
        let printed = run(&mut command, &Feed::whole(b""))?;
        let output = String::from_utf8_lossy(&printed.output).into_owned();
        same(
            (printed.status, output),
            (Some(0), plan.to_string()),
            || String::from_utf8_lossy(&printed.errors).into_owned(),
        )?;
        runs += 1;
    }
    Ok(runs)
}

/// A request file is bytes, which would only spoil a terminal: it is not written there, and what to do
/// is said. Its text is.
fn bytes_to_a_terminal(floe: &Floe, request: &str) -> Tried {
    let (printed, shown) = pty::shown(floe.command(&["write", request]))?;
    let words = "floe write: a request file is bytes and no text, and standard output is a terminal: \
                 send it to a file (> request.floe) or a pipe, or ask for its text (show, build --text)\n";
    let is_told = shown.starts_with(words);
    same((printed.status, is_told), (Some(2), true), || shown.clone())?;
    let (printed, shown) = pty::shown(floe.command(&["show", request]))?;
    let is_shown = shown.starts_with("horizon 14\n");
    same((printed.status, is_shown), (Some(0), true), || {
        shown.clone()
    })?;
    Ok(2)
}

/// Interrupted while it is at work: the line is wiped, a word is said, there is no plan, and the signal is
/// what it has ended by.
fn interrupted(forgetful: Command) -> Tried {
    const SIGINT: i32 = 2;
    let (signal, said) = pty::interrupted(forgetful, "at work for 1 s")?;
    let is_told =
        said.contains("\r\x1b[Kfloe: ended after ") && said.ends_with(" s, without a plan\n");
    same((signal, is_told), (Some(SIGINT), true), || said.clone())?;
    Ok(1)
}
