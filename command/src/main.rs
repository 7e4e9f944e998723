//! `floe`: the planner as a command. All that it decides comes from the proved library; what it reads
//! and prints is tested (tests/command), not proved.

#![deny(unsafe_code)]

mod arguments;
#[allow(unsafe_code)]
mod calls;
mod commands;
mod conflict;
mod drawing;
mod energies;
mod failure;
mod foreign;
mod jobs;
mod kinds;
mod names;
mod options;
mod order;
mod place;
mod plan;
mod refusal;
mod request;
mod sheets;
mod source;
mod streams;
mod tables;
mod text;
mod units;
mod wanted;

use commands::{overview, Command, COMMANDS};
use failure::Failure;
use std::ffi::OsString;
use std::process::ExitCode;
use text::lines::quoted;

fn named(word: &OsString) -> Result<&'static Command, Failure> {
    let command = COMMANDS.iter().find(|command| word == command.name);
    command.ok_or_else(|| {
        let word = quoted(&word.to_string_lossy());
        Failure::Usage(format!(
            "floe: there is no command {word}\n\n{}",
            overview()
        ))
    })
}

fn is_help(word: &OsString) -> bool {
    ["--help", "-h"].iter().any(|help| word == help)
}

/// The version, and the commit from which the program was built, where there was one.
fn version() -> String {
    format!(
        "floe {}{}\n",
        env!("CARGO_PKG_VERSION"),
        env!("FLOE_COMMIT")
    )
}

fn run(words: Vec<OsString>) -> Result<Vec<u8>, Failure> {
    let mut words = words.into_iter();
    let Some(first) = words.next() else {
        return Err(Failure::Usage(overview()));
    };
    if is_help(&first) || first == "help" {
        let text = match words.next() {
            None => overview(),
            Some(word) => named(&word)?.help(),
        };
        return Ok(text.into_bytes());
    }
    if first == "--version" {
        return match words.next() {
            None => Ok(version().into_bytes()),
            Some(_) => Err(Failure::Usage("floe --version takes no word".to_string())),
        };
    }
    let command = named(&first)?;
    let words: Vec<OsString> = words.collect();
    if words.iter().any(is_help) {
        return Ok(command.help().into_bytes());
    }
    command.run(words.into_iter())
}

fn main() -> ExitCode {
    let words = std::env::args_os().skip(1).collect();
    match run(words).and_then(|output| streams::print(&output)) {
        Ok(()) => ExitCode::SUCCESS,
        Err(failure) => {
            streams::complain(&failure.short());
            ExitCode::from(failure.status())
        }
    }
}
