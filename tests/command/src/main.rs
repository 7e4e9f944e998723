//! `command PROGRAM [WORD] [--seed N]`: runs the command line on random requests, as files and as text, and
//! holds what it prints to the oracle; then on wrong texts, wrong calls and streams that fail. With a word, only
//! those tests that have it in their names; with a seed all is drawn anew.

mod both_ways;
mod calls;
mod conflicts;
mod exports;
mod floe;
mod harm;
mod help;
mod judging;
mod malformed;
mod manual;
mod names;
mod parts;
mod pictures;
mod planning;
mod pty;
mod second;
mod sentences;
mod sheet_words;
mod sheets;
mod sources;
mod steps;
mod streams;
mod svg;
mod terminal;
mod texts;
mod third;
mod wide_pictures;

use floe::{Floe, Tried};
use outside::cases::random::add_to_seeds;
use outside::running::readme;
use std::path::Path;
use std::process::ExitCode;
use std::sync::Mutex;
use std::thread;

type Test = fn(&Floe) -> Tried;

const TESTS: [(&str, Test); 27] = [
    ("plans and refusals of files", planning::test),
    ("plans of recorders", planning::recorders),
    ("write and show", both_ways::test),
    ("the second kind", second::test),
    ("the third kind", third::test),
    ("verdicts and rows", judging::verdicts),
    ("mended start times", judging::mends),
    ("any plan at all", judging::possible),
    ("parts of a catalogue", parts::test),
    ("sheets", sheets::test),
    ("what is said of sheets", sheet_words::test),
    ("requests from sheets", sources::test),
    ("exported sheets", exports::test),
    ("names and units", names::test),
    ("stepping", steps::test),
    ("jobs that do not fit", conflicts::test),
    ("pictures", pictures::test),
    ("pictures of crowded rounds", wide_pictures::test),
    ("wrong texts", malformed::test),
    ("what refusals say", sentences::test),
    ("help and wrong usage", help::test),
    ("the commands of the manual", manual::test),
    ("failing streams", streams::failing),
    ("slow streams", streams::slow),
    ("ten megabytes", streams::large),
    ("a terminal, and the script", terminal::test),
    ("harm", harm::test),
];

/// Two at a time, each in its own thread; what they say is printed in their order. How many runs were
/// as they must be, if all were.
fn run(program: &Path, tests: &[&(&str, Test)]) -> Option<u64> {
    let next = Mutex::new(tests.iter().enumerate());
    let found = Mutex::new(vec![None; tests.len()]);
    thread::scope(|scope| {
        for _ in 0..2 {
            scope.spawn(|| loop {
                let taken = next.lock().expect("no test has panicked").next();
                let Some((place, (_, test))) = taken else {
                    return;
                };
                let floe = Floe::new(program.to_path_buf());
                let tried = floe.counted(test(&floe));
                found.lock().expect("no test has panicked")[place] = Some(tried);
            });
        }
    });
    let mut passed = Some(0);
    let found = found.into_inner().expect("no test has panicked");
    for ((name, _), tried) in tests.iter().zip(found) {
        match tried {
            Some(Ok(count)) => {
                passed = passed.map(|all| all + count);
                println!("{count:7}  {name}");
            }
            Some(Err(reason)) => {
                passed = None;
                println!("FAILED: {name}: {reason}");
            }
            None => {
                passed = None;
                println!("FAILED: {name}: not run");
            }
        }
    }
    passed
}

/// The tests that have the word in their names, of which there has to be one.
fn with_word(word: &str) -> Result<Vec<&'static (&'static str, Test)>, String> {
    let named = TESTS.iter().filter(|(name, _)| name.contains(word));
    let tests: Vec<&(&str, Test)> = named.collect();
    match tests.is_empty() {
        true => Err(format!("no test has {word:?} in its name")),
        false => Ok(tests),
    }
}

const USAGE: &str = "usage: command PROGRAM [WORD] [--seed N]";

/// How many runs agree. What README says of them is for all tests, with the seeds that the gate takes.
fn test() -> Result<u64, String> {
    let words: Vec<String> = std::env::args().skip(1).collect();
    let words: Vec<&str> = words.iter().map(String::as_str).collect();
    let (words, seed) = match &words[..] {
        [words @ .., "--seed", seed] => (words, seed.parse().map_err(|_| USAGE)?),
        words => (words, 0),
    };
    let (program, word) = match words {
        [program] => (program, ""),
        [program, word] => (program, *word),
        _ => return Err(USAGE.to_string()),
    };
    add_to_seeds(seed);
    let tests = with_word(word)?;
    let count = run(Path::new(program), &tests).ok_or("not all runs agree")?;
    if tests.len() == TESTS.len() && seed == 0 {
        readme::hold(count, "runs of `floe`")?;
    }
    Ok(count)
}

fn main() -> ExitCode {
    match test() {
        Ok(count) => {
            println!("command: {count} runs agree");
            ExitCode::SUCCESS
        }
        Err(reason) => {
            println!("{reason}\ncommand: FAILED");
            ExitCode::FAILURE
        }
    }
}
