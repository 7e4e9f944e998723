//! plan and check on random files, valid and damaged: the plan to the byte, a refusal with its
//! number and its place. Then plan on requests of a recorder's size.

use crate::floe::{same, Floe, Tried};
use crate::texts::{end_of_fault, is_text, part_before, parts};
use outside::cases::example;
use outside::cases::random::Random;
use outside::cases::recorders::{self, Fitted, List, Round};
use outside::cases::{draw, Kind};
use outside::oracle::expect::{plan_text, search, text, BUDGET};
use outside::oracle::layers::first_of_the_least;
use outside::oracle::request::read;
use outside::running::runner::{run, Feed};

const SEED: u64 = 20;
const CASES: u64 = 1_200;

pub fn test(floe: &Floe) -> Tried {
    let mut met = [0; 27];
    let mut runs = examples(floe)?;
    for number in 0..CASES {
        let case = draw(SEED, number);
        let file = &case.file;
        let named = |words: &str| format!("case {number} ({}), {words}", case.kind.name());
        if is_text(file) {
            let printed = floe.run(&["check", "-"], file)?;
            let is_told = printed
                .errors
                .starts_with(b"floe: standard input: line 1, column ");
            same((printed.status, is_told), (Some(1), true), || {
                named("as text")
            })?;
            runs += 1;
            continue;
        }
        let outcome = search(file, BUDGET);
        met[usize::from(outcome.number)] += 1;
        let budget = BUDGET.to_string();
        let words = ["plan", "-", "--budget", &budget];
        if outcome.number == 0 {
            let plan = text(&outcome).into_bytes();
            let feed = Feed {
                file,
                pieces: case.pieces.clone(),
            };
            let printed = run(&mut floe.command(&words), &feed)?;
            let got = (printed.status, printed.output, printed.errors);
            same(got, (Some(0), plan.clone(), Vec::new()), || named("plan"))?;
            same(floe.output(&["plan", "-"], file)?, uncounted(&plan), || {
                named("plan without a budget")
            })?;
            same(floe.output(&["check", "-"], file)?, checked(file), || {
                named("check")
            })?;
            runs += 3;
            continue;
        }
        let (refused, said) = floe.refused(&words, file)?;
        same(refused, outcome.number, || named(&said))?;
        runs += 1;
        if outcome.number <= 13 || outcome.number == 26 {
            let (refused, said_by_check) = floe.refused(&["check", "-"], file)?;
            same((refused, &said_by_check), (outcome.number, &said), || {
                named("check")
            })?;
            same(place_told(&said), place(file, outcome.number), || {
                named(&format!("refused {refused}: {said}"))
            })?;
            runs += 1;
        } else if case.kind != Kind::OverBudget {
            // Without a budget only 19 is left.
            same(floe.refused(&["plan", "-"], file)?.0, 19, || {
                named("without a budget")
            })?;
            runs += 1;
        }
    }
    let expected = (0..=13).chain([19, 20, 26]);
    let missed: Vec<usize> = expected.filter(|&number| met[number] == 0).collect();
    if !missed.is_empty() {
        return Err(format!("never met: {missed:?}"));
    }
    Ok(runs)
}

/// The lines of a plan without the one of the vertices.
fn uncounted(plan: &[u8]) -> Vec<u8> {
    let lines = plan.split_inclusive(|&byte| byte == b'\n');
    let others = lines.filter(|line| !line.starts_with(b"vertices "));
    others.collect::<Vec<_>>().concat()
}

/// Lists and rounds that are beyond any listing and, all but a few, beyond the counted search too: held
/// to the layers.
pub fn recorders(floe: &Floe) -> Tried {
    const REQUESTS: u64 = 30;
    const MOST_CASES: usize = 300_000;
    let mut runs = 0;
    for number in 0..REQUESTS {
        let mut random = Random::new(SEED, number);
        let fitted = Fitted {
            devices: random.within(2, 4),
            transition: random.pick(&[3, 6]),
        };
        let tables = if number % 3 == 0 {
            let round = Round {
                period: random.u16(10, 40),
                multiples: &[1, 2, 4],
                load: random.within(30, 60),
            };
            recorders::round(&mut random, fitted, round)
        } else {
            let list = List {
                horizon: random.u16(100, 1_000),
                jobs: random.within(10, 16),
                load: random.within(40, 70),
                window: random.within(4, 10),
            };
            recorders::list(&mut random, fitted, list)
        };
        let file = tables.bytes();
        let request = read(&file).map_err(|number| format!("refused {number}"))?;
        let Ok(Some(best)) = first_of_the_least(&request, MOST_CASES) else {
            continue;
        };
        let expected = plan_text(&request, &best, None).into_bytes();
        for words in [&["plan", "-"][..], &["plan", "-", "--memory", "2"]] {
            same(floe.output(words, &file)?, expected.clone(), || {
                format!("recorder {number}")
            })?;
            runs += 1;
        }
    }
    same(runs > REQUESTS, true, || format!("only {runs} runs"))?;
    Ok(runs)
}

/// The examples say what the printing program prints, and it is held to that too.
fn examples(floe: &Floe) -> Tried {
    let mut runs = 0;
    for example in example::all(&example::folder())? {
        let path = example::folder().join(format!("{}.txt", example.name));
        let budget = format!("--budget={BUDGET}");
        let answer = floe.answer(&["plan", &path.to_string_lossy(), &budget], b"")?;
        let printed = match answer {
            Ok(plan) => String::from_utf8_lossy(&plan).into_owned(),
            Err((number, _)) => format!("refused {number}\n"),
        };
        same(printed, example.expected, || example.name.clone())?;
        runs += 1;
    }
    Ok(runs)
}

fn checked(file: &[u8]) -> Vec<u8> {
    let request = read(file).expect("an accepted file");
    let devices = request.devices.len();
    let mut parts = parts(file).into_iter();
    let tasks = parts.find(|(name, _, _)| name == "task count");
    let tasks = tasks.map_or(0, |(_, from, _)| file[from]);
    let (horizon, jobs) = (request.horizon, request.jobs.len());
    format!("horizon {horizon}\ndevices {devices}\ntasks {tasks}\njobs {jobs}\n").into_bytes()
}

/// As `job 4`, 31 and 37 of `job 4 (bytes 31 to 37): ...`.
fn place_told(said: &str) -> Option<(String, usize, usize)> {
    let (name, rest) = said.split_once(" (")?;
    let (bytes, _) = rest.split_once(')')?;
    let (from, to) = match bytes.strip_prefix("bytes ") {
        Some(both) => both.split_once(" to ")?,
        None => (bytes.strip_prefix("byte ")?, bytes.strip_prefix("byte ")?),
    };
    Some((name.to_string(), from.parse().ok()?, to.parse().ok()?))
}

fn place(file: &[u8], number: u8) -> Option<(String, usize, usize)> {
    // An empty one is told as such, without a place.
    if file.is_empty() {
        return None;
    }
    match (number, end_of_fault(file)) {
        (2, Some(end)) => Some(("end".to_string(), end, file.len() - 1)),
        (_, Some(end)) => {
            let (name, from) = part_before(file, end)?;
            Some((name, from, end - 1))
        }
        // Cut short: the part that ends after the file does.
        (_, None) => {
            let mut parts = parts(file).into_iter();
            let cut = parts.find(|(_, _, to)| *to > file.len());
            cut.map(|(name, from, to)| (name, from, to - 1))
        }
    }
}
