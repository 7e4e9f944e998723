//! verdict, rows, mend and possible, held to the oracle's judge, its rows, its listings.

use crate::floe::{same, Floe, Tried};
use crate::texts::is_text;
use outside::cases::random::Random;
use outside::cases::{draw, Case, Kind};
use outside::oracle::expect::{search, BUDGET};
use outside::oracle::first;
use outside::oracle::judge::judge;
use outside::oracle::listing::uses;
use outside::oracle::mend::{self, Answer};
use outside::oracle::possible::{self, Outcome};
use outside::oracle::request::{read, Request};
use outside::oracle::rows::row_given;
use std::cell::RefCell;

const SEED: u64 = 22;
const FILES: u64 = 700;

fn joined(starts: &[u32]) -> String {
    let words: Vec<String> = starts.iter().map(u32::to_string).collect();
    words.join(",")
}

pub fn verdicts(floe: &Floe) -> Tried {
    let (mut runs, mut met) = (0, [0; 27]);
    for number in 0..FILES {
        let case = draw(SEED, number);
        let Ok(request) = read(&case.file) else {
            continue;
        };
        let random = &mut Random::new(SEED, number);
        let starts = starts(random, &case, &request);
        // One word, or as many as there are starts.
        let list = joined(&starts);
        let mut words = vec!["verdict", "-"];
        if random.one_in(2) {
            words.extend(list.split(',').filter(|word| !word.is_empty()));
        } else if !list.is_empty() {
            words.push(&list);
        }
        let verdict = floe.answer(&words, &case.file)?;
        words[0] = "rows";
        let rows = floe.answer(&words, &case.file)?;
        let named = || format!("case {number}, starts {list}");
        runs += 2;
        let refused = |answer: Result<Vec<u8>, (u8, String)>| answer.map_err(|(number, _)| number);
        if starts.len() != request.jobs.len() {
            met[14] += 1;
            same([refused(verdict), refused(rows)], [Err(14), Err(14)], named)?;
            continue;
        }
        match judge(&request, &starts) {
            Err((fault, job)) => {
                met[usize::from(fault)] += 1;
                for answer in [verdict, rows] {
                    let (number, said) = answer.err().unwrap_or_default();
                    let names_job = said.starts_with(&format!("job {job}: "));
                    same((number, names_job), (fault, true), || {
                        format!("{}: {said}", named())
                    })?;
                }
            }
            Ok(energy) => {
                met[0] += 1;
                let mut text = format!("energy {energy}\n");
                for (job, start) in starts.iter().enumerate() {
                    let margin = request.jobs[job].margin(*start);
                    text += &format!("job {job} start {start} margin {margin}\n");
                }
                same(refused(verdict), Ok(text.into_bytes()), named)?;
                let mut text = format!("energy {energy}\n");
                for (number, device) in request.devices.iter().enumerate() {
                    let uses = uses(&request, &starts, number);
                    let row = row_given(request.round, device, &uses, request.horizon);
                    text += &format!("device {number} {row}\n");
                }
                same(refused(rows), Ok(text.into_bytes()), named)?;
            }
        }
    }
    let missed: Vec<usize> = [0, 14, 16, 17, 18]
        .into_iter()
        .filter(|&number| met[number] == 0)
        .collect();
    if !missed.is_empty() {
        return Err(format!("never met: {missed:?}"));
    }
    Ok(runs)
}

/// Those of the plan, or near the windows, or one too many.
fn starts(random: &mut Random, case: &Case, request: &Request) -> Vec<u32> {
    // Too long to list, and without a plan here.
    let budget = match case.kind {
        Kind::OverBudget => 0,
        _ => BUDGET,
    };
    let plan = search(&case.file, budget).plan.filter(|_| random.one_in(2));
    let mut starts: Vec<u32> = match plan {
        Some((_, schedule)) => schedule.starts,
        None => {
            let start = |job: &outside::oracle::request::Job| {
                let (from, to) = (job.release.saturating_sub(1), job.latest() + 1);
                let is_near = random.one_in(8);
                let (from, to) = if is_near {
                    (from, to)
                } else {
                    (job.release, job.latest())
                };
                random.within(from.into(), to.into()) as u32
            };
            request.jobs.iter().map(start).collect()
        }
    };
    if random.one_in(16) {
        starts.push(random.u16(0, 65_535).into());
    }
    starts
}

/// A number after a word of a line, and the words after it.
fn number_after(line: &str, word: &str) -> Option<u32> {
    let mut words = line.split(' ');
    words.find(|found| *found == word)?;
    words.next()?.parse().ok()
}

pub fn mends(floe: &Floe) -> Tried {
    const CALLS: u64 = 600;
    let mut met = mend::Met::default();
    let failed = RefCell::new(None);
    for number in 0..CALLS {
        let mut call = mend::draw(&mut Random::new(SEED, number));
        // The command lends as much as is needed.
        call.starts = vec![7; 17];
        call.moved = vec![7; 51];
        let mended = |file: &[u8], given: &[u16], starts: &mut [u16], moved: &mut [u16]| {
            let answer = mended(floe, file, given, starts, moved);
            answer.unwrap_or_else(|reason| {
                *failed.borrow_mut() = Some(reason);
                Answer::default()
            })
        };
        if is_text(&call.file) {
            continue;
        }
        let held = call.hold(&mended);
        if let Some(reason) = failed.take() {
            return Err(reason);
        }
        met.add(&call.file, held?);
    }
    let is_hardly_met = |number: &usize| met.numbers[*number] < 20;
    if [0, 14, 17].iter().any(is_hardly_met) || met.mended.iter().any(|&mended| mended < 8) {
        return Err(format!("hardly met: {met:?}"));
    }
    Ok(met.numbers.iter().sum())
}

/// What the command prints, as the numbers that the library writes.
fn mended(
    floe: &Floe,
    file: &[u8],
    given: &[u16],
    starts: &mut [u16],
    moved: &mut [u16],
) -> Result<Answer, String> {
    let words: Vec<u32> = given.iter().map(|&start| start.into()).collect();
    let words = joined(&words);
    let mut arguments = vec!["mend", "-"];
    if !words.is_empty() {
        arguments.push(&words);
    }
    let text = match floe.answer(&arguments, file)? {
        Ok(text) => String::from_utf8(text).map_err(|fault| fault.to_string())?,
        Err((number, said)) => {
            let job = number_after(&said.replace(':', ""), "job").filter(|_| number == 17);
            return Ok(Answer {
                number,
                job: job.unwrap_or(0) as u8,
                ..Answer::default()
            });
        }
    };
    let lines: Vec<&str> = text.lines().collect();
    let unread = || format!("mend prints {text:?}");
    let count = number_after(lines.first().ok_or_else(unread)?, "moved").ok_or_else(unread)?;
    let mut at = 0;
    for (job, line) in lines[1..].iter().enumerate() {
        same(number_after(line, "job"), Some(job as u32), unread)?;
        let new = number_after(line, "start").ok_or_else(unread)? as u16;
        starts[job] = new;
        if let Some(was) = number_after(line, "was") {
            moved[at..at + 3].copy_from_slice(&[job as u16, was as u16, new]);
            at += 3;
        }
    }
    same(
        (at as u32, lines.len() - 1),
        (3 * count, given.len()),
        unread,
    )?;
    Ok(Answer {
        horizon: read(file).map_or(0, |request| request.horizon) as u16,
        count,
        ..Answer::default()
    })
}

/// With a budget by the visit that it is for; without one by the answer that needs none, to which
/// large requests are put too.
pub fn possible(floe: &Floe) -> Tried {
    const REQUESTS: u64 = 200;
    const WITHOUT_BUDGET: u64 = 600;
    const LARGE: u64 = 60;
    let failed = RefCell::new(None);
    let ask = |file: &[u8], budget: Option<u32>, lent: &[u16]| {
        let outcome = asked(floe, file, budget, lent);
        outcome.unwrap_or_else(|reason| {
            *failed.borrow_mut() = Some(reason);
            refused_outcome(255, 0, lent)
        })
    };
    let without = |file: &[u8], lent: &[u16]| ask(file, None, lent);
    // Where there is no plan, the search for the cheapest is not begun: some would not end in a day.
    let large = |file: &[u8], lent: &[u16]| {
        let outcome = without(file, lent);
        for word in ["plan", "draw"] {
            if outcome.number == 19 && floe.refused(&[word, "-"], file).map(|told| told.0) != Ok(19)
            {
                *failed.borrow_mut() = Some(format!("{word} finds a plan for {file:?}"));
            }
        }
        outcome
    };
    let by_visit = |file: &[u8], budget: u32, lent: &[u16]| ask(file, Some(budget), lent);
    let mut met = possible::Met::default();
    for number in 0..REQUESTS {
        let mut question = possible::draw(&mut Random::new(SEED, number));
        // The command lends as much as is needed.
        question.lent = vec![7; 17];
        if is_text(&question.file) {
            continue;
        }
        let held = question.hold(&by_visit, &mut met);
        if let Some(reason) = failed.take() {
            return Err(reason);
        }
        held?;
    }
    let is_hardly_met = |number: &usize| met.numbers[*number] < 20;
    if [0, 19, 20].iter().any(is_hardly_met) || met.found.iter().any(|&found| found < 8) {
        return Err(format!("hardly met: {met:?}"));
    }
    for met in [
        first::run(SEED, WITHOUT_BUDGET, without),
        first::run_large(SEED, LARGE, large),
    ] {
        if let Some(reason) = failed.take() {
            return Err(reason);
        }
        let met = met?;
        if [0, 19].iter().any(|&number| met.numbers[number] < 10) {
            return Err(format!("hardly met: {met:?}"));
        }
    }
    // Some outcomes are given without a run: see `asked`.
    Ok(floe.made())
}

fn refused_outcome(number: u8, count: u32, lent: &[u16]) -> Outcome {
    let mut result = [0; 11];
    result[7..].copy_from_slice(&count.to_be_bytes());
    Outcome {
        number,
        result,
        starts: lent.to_vec(),
    }
}

/// What the command prints, as the library's outcome. The command lends what is needed, and may take
/// a damaged file for text: the outcome of such calls is given.
fn asked(floe: &Floe, file: &[u8], budget: Option<u32>, lent: &[u16]) -> Result<Outcome, String> {
    match read(file) {
        Ok(request) if lent.len() < request.jobs.len() => return Ok(refused_outcome(15, 0, lent)),
        Err(number) if is_text(file) => return Ok(refused_outcome(number, 0, lent)),
        _ => {}
    }
    let budget = budget.map(|budget| format!("--budget={budget}"));
    let words = ["possible", "-"].into_iter().chain(budget.as_deref());
    let text = match floe.answer(&words.collect::<Vec<_>>(), file)? {
        Ok(text) => String::from_utf8(text).map_err(|fault| fault.to_string())?,
        Err((number, said)) => {
            let before = said.split_once(" vert").map_or("", |(before, _)| before);
            let word = before.rsplit([' ', '(']).next();
            let count = word.and_then(|word| word.parse().ok());
            let count = count.filter(|_| number == 19 || number == 20);
            return Ok(refused_outcome(number, count.unwrap_or(0), lent));
        }
    };
    let unread = || format!("possible prints {text:?}");
    let mut lines = text.lines();
    same(lines.next(), Some("yes"), unread)?;
    let count = match budget {
        Some(_) => {
            let line = lines.next().unwrap_or_default();
            number_after(line, "vertices").ok_or_else(unread)?
        }
        None => 0,
    };
    let mut outcome = refused_outcome(0, count, lent);
    for (job, line) in lines.enumerate() {
        let start = number_after(line, "start").ok_or_else(unread)?;
        outcome.starts[job] = start as u16;
        let request = read(file).map_err(|number| number.to_string())?;
        let margin = request.jobs[job].margin(start);
        same(
            line,
            &format!("job {job} start {start} margin {margin}"),
            unread,
        )?;
    }
    let horizon = read(file).map_or(0, |request| request.horizon) as u16;
    outcome.result[1..3].copy_from_slice(&horizon.to_be_bytes());
    Ok(outcome)
}
