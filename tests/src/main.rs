//! `outside PROGRAM [--seed N] [--cases N]`: runs the built printing program on the examples, on
//! fixed cases, on files that come slowly and on random ones, and compares every byte that it prints
//! with the oracle; then on streams that fail.

use outside::cases::draw;
use outside::cases::{example, fixed, slow};
use outside::oracle::expect::{search, text, BUDGET};
use outside::running::runner::{piped, run, Feed, Printed};
use outside::running::streams;
use outside::running::tally::{Mismatch, Tally};
use std::path::{Path, PathBuf};
use std::process::{Command, ExitCode};
use std::sync::atomic::{AtomicU64, Ordering};
use std::sync::Mutex;
use std::thread;

const USAGE: &str = "usage: outside PROGRAM [--seed N] [--cases N]";
const SEED: u64 = 2002;
const CASES: u64 = 800;
const THREADS: usize = 2;

/// More of them seldom say more.
const MOST_MISMATCHES: usize = 3;

struct Arguments {
    program: PathBuf,
    seed: u64,
    cases: u64,
}

fn arguments() -> Result<Arguments, String> {
    let mut words = std::env::args().skip(1);
    let program = words.next().ok_or(USAGE)?.into();
    let (mut seed, mut cases) = (SEED, CASES);
    while let Some(word) = words.next() {
        let place = match word.as_str() {
            "--seed" => &mut seed,
            "--cases" => &mut cases,
            _ => return Err(USAGE.to_string()),
        };
        let number = words.next().ok_or(USAGE)?;
        *place = number.parse().map_err(|_| USAGE)?;
    }
    Ok(Arguments {
        program,
        seed,
        cases,
    })
}

/// What all threads share.
#[derive(Default)]
struct Findings {
    tally: Tally,
    mismatches: Vec<Mismatch>,
}

/// Takes its first read for the whole file, and is the program otherwise.
fn one_read(program: &Path) -> Command {
    let mut command = piped(&Path::new(env!("CARGO_MANIFEST_DIR")).join("one-read"));
    command.arg(program);
    command
}

fn compare(name: &str, mut command: Command, feed: &Feed, expected: String) -> Option<Mismatch> {
    let got = run(&mut command, feed).and_then(Printed::clean);
    if got
        .as_ref()
        .is_ok_and(|output| output == expected.as_bytes())
    {
        return None;
    }
    Some(Mismatch {
        name: name.to_string(),
        file: feed.file.to_vec(),
        expected,
        got,
    })
}

/// Held to the lines in the example files; the unit tests hold the oracle to the same lines.
fn run_examples(program: &Path, findings: &mut Findings) -> Result<u64, String> {
    let examples = example::all(&example::folder())?;
    for example in &examples {
        let name = format!("example {}", example.name);
        let (feed, expected) = (Feed::whole(&example.file), example.expected.clone());
        let mismatch = compare(&name, piped(program), &feed, expected);
        findings.mismatches.extend(mismatch);
    }
    println!("examples: {}", examples.len());
    Ok(examples.len() as u64)
}

fn run_fixed(program: &Path, findings: &mut Findings) -> u64 {
    let all = fixed::all();
    for fixed in &all {
        let name = format!("fixed case {}", fixed.name);
        let expected = text(&search(&fixed.file, BUDGET));
        let mismatch = compare(&name, piped(program), &Feed::whole(&fixed.file), expected);
        findings.mismatches.extend(mismatch);
    }
    println!("fixed cases: {}", all.len());
    all.len() as u64
}

fn run_slow(program: &Path, findings: &mut Findings) -> u64 {
    let all = slow::all();
    for slow in &all {
        let name = format!("slow case {}", slow.name);
        let mismatch = compare(&name, piped(program), &slow.feed(), slow.expected());
        findings.mismatches.extend(mismatch);
    }
    println!("slow cases: {}", all.len());
    all.len() as u64
}

/// The slow cases are worth something only if they part the program from one that stops at its first
/// read, and is the program otherwise: it agrees on the same files fed whole.
fn refuse_one_read(program: &Path) -> Result<(), String> {
    let mut is_refused = false;
    for slow in &slow::all() {
        let (whole, expected) = (Feed::whole(&slow.file), slow.expected());
        if let Some(mismatch) = compare(slow.name, one_read(program), &whole, expected.clone()) {
            return Err(format!(
                "tests/one-read does not run: {}",
                mismatch.report()
            ));
        }
        let mismatch = compare(slow.name, one_read(program), &slow.feed(), expected);
        is_refused |= mismatch.is_some();
    }
    if !is_refused {
        return Err("a program that stops at its first read passes".to_string());
    }
    println!("a program that stops at its first read is refused");
    Ok(())
}

fn run_streams(program: &Path) -> Result<u64, String> {
    let trials = streams::all(program)?;
    if !trials.failures.is_empty() {
        return Err(trials.failures.concat());
    }
    println!("failing streams: {}", trials.count);
    Ok(trials.count)
}

/// Draws and runs cases until there are no more, or enough of them have failed.
fn work(arguments: &Arguments, next: &AtomicU64, findings: &Mutex<Findings>) {
    loop {
        let number = next.fetch_add(1, Ordering::Relaxed);
        if number >= arguments.cases {
            return;
        }
        let case = draw(arguments.seed, number);
        let outcome = search(&case.file, BUDGET);
        let name = format!(
            "case {number} of seed {} ({})",
            arguments.seed,
            case.kind.name()
        );
        let feed = Feed {
            file: &case.file,
            pieces: case.pieces.clone(),
        };
        let mismatch = compare(&name, piped(&arguments.program), &feed, text(&outcome));
        let mut findings = findings.lock().expect("no thread has failed");
        findings
            .tally
            .add(case.kind, outcome.number, case.pieces.len());
        if let Some((request, schedule)) = &outcome.plan {
            findings.tally.rows.add(request, &schedule.starts);
        }
        findings.mismatches.extend(mismatch);
        if findings.mismatches.len() >= MOST_MISMATCHES {
            return;
        }
    }
}

fn run_random(arguments: &Arguments, findings: Findings) -> Findings {
    let next = AtomicU64::new(0);
    let findings = Mutex::new(findings);
    thread::scope(|scope| {
        for _ in 0..THREADS {
            scope.spawn(|| work(arguments, &next, &findings));
        }
    });
    findings.into_inner().expect("no thread has failed")
}

fn test(arguments: &Arguments) -> Result<u64, String> {
    let mut findings = Findings::default();
    let mut count = run_examples(&arguments.program, &mut findings)?;
    count += run_fixed(&arguments.program, &mut findings);
    count += run_slow(&arguments.program, &mut findings);
    refuse_one_read(&arguments.program)?;
    count += run_streams(&arguments.program)?;
    println!("seed {}, {} random cases", arguments.seed, arguments.cases);
    if findings.mismatches.len() < MOST_MISMATCHES {
        findings = run_random(arguments, findings);
        print!("{}", findings.tally.report());
    }
    if !findings.mismatches.is_empty() {
        let reports = findings.mismatches.iter().map(Mismatch::report);
        return Err(reports.take(MOST_MISMATCHES).collect());
    }
    let missed = findings.tally.never_met();
    if !missed.is_empty() {
        return Err(format!("never met: {missed:?}"));
    }
    Ok(count + arguments.cases)
}

fn main() -> ExitCode {
    match arguments().and_then(|arguments| test(&arguments)) {
        Ok(count) => {
            println!("outside: {count} cases agree");
            ExitCode::SUCCESS
        }
        Err(reason) => {
            println!("{}\noutside: FAILED", reason.trim_end());
            ExitCode::FAILURE
        }
    }
}
