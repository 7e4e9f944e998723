//! 19: the jobs that are told do not fit by themselves, and no fewer jobs of the request do not, by the
//! oracle's own answer.

use crate::floe::{same, Floe, Tried};
use outside::cases::random::Random;
use outside::oracle::first::has_plan;
use outside::oracle::request::{read, Job, Request};
use std::fmt::Write;

const SEED: u64 = 38;
const REQUESTS: u64 = 250;

pub fn test(floe: &Floe) -> Tried {
    let (mut runs, mut sizes) = (0, [0; 17]);
    for number in 0..REQUESTS {
        let text = drawn(&mut Random::new(SEED, number));
        let file = floe.output(&["write", "-"], text.as_bytes())?;
        runs += 1;
        let request = read(&file).map_err(|number| format!("the oracle says {number}: {text}"))?;
        if has_plan(&request) {
            continue;
        }
        let (number, said) = floe.refused(&["possible", "-"], text.as_bytes())?;
        runs += 1;
        let set = told(&said).ok_or(format!("{said}: {text}"))?;
        same((number, fits(&request, &set)), (19, false), || {
            format!("{said}: {text}")
        })?;
        let fewer = smaller(request.jobs.len(), set.len());
        let other = fewer.into_iter().find(|set| !fits(&request, set));
        same(other, None, || {
            format!("a smaller set than {set:?}: {text}")
        })?;
        same(said.ends_with(&window(&request, &set)), true, || {
            format!("{said}: {text}")
        })?;
        sizes[set.len()] += 1;
    }
    match sizes[2] >= 10 && sizes[3] >= 5 && sizes[4..].iter().sum::<u32>() >= 3 {
        true => Ok(runs + large(floe)?),
        false => Err(format!("hardly met: {sizes:?}")),
    }
}

/// Jobs in a short round, listed or released by tasks.
fn drawn(random: &mut Random) -> String {
    let mut text = String::new();
    if random.one_in(4) {
        for _ in 0..random.within(2, 3) {
            let period = random.pick(&[4, 6, 12]);
            let running = random.within(1, period / 2 + 1);
            let _ = writeln!(text, "task {period} {running} -");
        }
        return text;
    }
    let horizon = random.within(8, 24);
    let _ = writeln!(text, "horizon {horizon}");
    for _ in 0..random.within(2, 9) {
        let running = random.within(1, 4);
        let release = random.within(0, horizon - running);
        let deadline = random.within(release + running, horizon.min(release + running + 7));
        let _ = writeln!(text, "job {release} {deadline} {running} -");
    }
    text
}

/// The jobs of `jobs 2, 5 and 7 alone do not fit`, with or without their tasks.
fn told(said: &str) -> Option<Vec<usize>> {
    let (_, after) = said.split_once(": jobs ")?;
    let (list, _) = after.split_once(" alone do not fit")?;
    let parts = list.split(", ").flat_map(|part| part.split(" and "));
    let number = |part: &str| part.split(' ').next()?.parse().ok();
    parts.map(number).collect()
}

fn fits(request: &Request, set: &[usize]) -> bool {
    let jobs: Vec<Job> = set.iter().map(|&job| request.jobs[job].clone()).collect();
    has_plan(&Request {
        jobs,
        ..request.clone()
    })
}

/// The sets of so many jobs less one: where none of them lacks a plan, no smaller one does.
fn smaller(count: usize, size: usize) -> Vec<Vec<usize>> {
    let all = 0..1_u32 << count;
    let chosen = all.filter(|set| set.count_ones() as usize == size - 1);
    chosen
        .map(|set| (0..count).filter(|job| set >> job & 1 == 1).collect())
        .collect()
}

fn window(request: &Request, set: &[usize]) -> String {
    let jobs = || set.iter().map(|&job| &request.jobs[job]);
    let work: u32 = jobs().map(|job| job.running).sum();
    let from = jobs().map(|job| job.release).min().unwrap_or(0);
    let to = jobs().map(|job| job.deadline).max().unwrap_or(0);
    format!("they run for {work} ticks in all, between the ticks {from} and {to}")
}

/// Sixteen jobs, of which all are needed: the answer comes soon all the same.
fn large(floe: &Floe) -> Tried {
    let text = "horizon 4000\n".to_string() + &"job 0 3199 200 -\n".repeat(16);
    let begun = std::time::Instant::now();
    let (number, said) = floe.refused(&["plan", "-"], text.as_bytes())?;
    let all: Vec<usize> = (0..16).collect();
    same((number, told(&said)), (19, Some(all)), || said.clone())?;
    let seconds = begun.elapsed().as_secs();
    same(seconds < 20, true, || {
        format!("{seconds} s for a word on sixteen jobs")
    })?;
    Ok(1)
}
