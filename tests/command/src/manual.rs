//! The commands that docs/SHEETS.md shows are run, one after the other in one folder, and print what
//! stands below them there. A line of a command begins with `$`, in a block that is indented.

use crate::floe::{in_folder, same, Floe, Tried};
use outside::running::runner::{run, Feed};
use std::fs;
use std::os::unix::fs::symlink;
use std::path::Path;

const PAGES: [&str; 1] = ["SHEETS.md"];

/// A command and the lines below it.
struct Shown {
    line: usize,
    command: String,
    output: String,
}

pub fn test(floe: &Floe) -> Tried {
    let mut runs = 0;
    for page in PAGES {
        runs += in_folder("manual", |folder| of_page(floe, folder, page))?;
    }
    Ok(runs)
}

fn of_page(floe: &Floe, folder: &Path, page: &str) -> Tried {
    let house = Path::new(env!("CARGO_MANIFEST_DIR")).join("../..");
    let said = |fault: std::io::Error| format!("{page}: {fault}");
    let program = fs::canonicalize(floe.program()).map_err(said)?;
    symlink(program, folder.join("floe")).map_err(said)?;
    let examples = fs::canonicalize(house.join("examples")).map_err(said)?;
    symlink(examples, folder.join("examples")).map_err(said)?;
    let text = fs::read_to_string(house.join("docs").join(page)).map_err(said)?;
    let commands = shown(&text);
    same(commands.len() > 20, true, || {
        format!("{page} shows {} commands", commands.len())
    })?;
    let mut runs = 0;
    for Shown {
        line,
        command,
        output,
    } in commands
    {
        // What a reader sees: both streams, in the order in which they come.
        let is_ours = command.starts_with("./floe ");
        let mut shell = match is_ours {
            true => floe.called_by(Path::new("/bin/sh")),
            false => outside::running::runner::piped(Path::new("/bin/sh")),
        };
        runs += u64::from(is_ours);
        let both = format!("{{ {command}\n}} 2>&1");
        shell.args(["-c", &both]).current_dir(folder);
        let printed = run(&mut shell, &Feed::whole(b""))?;
        let got = String::from_utf8_lossy(&printed.output).replace("\r\n", "\n");
        same(got, output, || format!("{page}, line {line}: {command}"))?;
    }
    Ok(runs)
}

/// The commands of a page. A blank line inside a block belongs to the output, if the block goes on.
fn shown(text: &str) -> Vec<Shown> {
    let mut found: Vec<Shown> = Vec::new();
    let (mut is_open, mut blanks) = (false, 0);
    for (line, number) in text.lines().zip(1..) {
        let Some(code) = line.strip_prefix("    ") else {
            is_open &= line.is_empty();
            blanks += usize::from(line.is_empty());
            continue;
        };
        match (code.strip_prefix("$ "), found.last_mut()) {
            (Some(command), _) => {
                found.push(Shown {
                    line: number,
                    command: command.to_string(),
                    output: String::new(),
                });
                is_open = true;
            }
            (None, Some(last)) if is_open => {
                last.output += &"\n".repeat(blanks);
                last.output += code;
                last.output += "\n";
            }
            _ => {}
        }
        blanks = 0;
    }
    found
}
