//! Where there is no plan: a smallest set of jobs that do not fit by themselves, so that one knows what
//! to loosen. Whether some jobs fit is asked of the library, of a request that has these jobs alone.

use crate::calls::planner;
use crate::jobs::Job;
use crate::names::Names;
use crate::tables::{Tables, MOST_JOBS};
use std::time::{Duration, Instant};

/// For so long it is looked for a smaller set than the one that no job can be taken from. Of one size
/// there are at most 12,870, and most of them take some microseconds.
const PATIENCE: Duration = Duration::from_millis(1_500);

/// As `jobs 2, 5 and 7 alone do not fit: ..`. Nothing, if the library does not say that all of them do
/// not.
pub fn words(horizon: usize, jobs: &[Job], names: &Names) -> Option<String> {
    let fits = |set: &[usize]| fits(horizon, jobs, set);
    let set = smallest(jobs.len(), fits, Instant::now() + PATIENCE)?;
    let named: Vec<String> = set.iter().map(|&job| named(job, jobs, names)).collect();
    let (last, front) = named.split_last()?;
    let chosen = || set.iter().filter_map(|&job| jobs.get(job));
    let work: usize = chosen().map(|job| job.running).sum();
    let from = chosen().map(|job| job.release).min()?;
    let to = chosen().map(|job| job.deadline).max()?;
    Some(format!(
        "jobs {} and {last} alone do not fit: they run for {work} ticks in all, between the ticks {from} and {to}",
        front.join(", ")
    ))
}

/// A job by its number, with its name and its task.
fn named(number: usize, jobs: &[Job], names: &Names) -> String {
    let task = jobs.get(number).and_then(|job| job.task);
    match (task, names.job(number)) {
        (Some(task), Some(name)) => format!("{number} (task {task} {name})"),
        (Some(task), None) => format!("{number} (task {task})"),
        (None, Some(name)) => format!("{number} ({name})"),
        (None, None) => number.to_string(),
    }
}

/// Whether the library has a plan for these jobs alone, in their windows. Devices do not matter: without
/// them every plan is as good.
fn fits(horizon: usize, jobs: &[Job], set: &[usize]) -> bool {
    let mut tables = Tables::empty();
    tables.horizon = horizon as u16;
    for job in set.iter().filter_map(|&job| jobs.get(job)) {
        let numbers = [job.release, job.deadline, job.running];
        let mut record: Vec<u8> = numbers
            .iter()
            .flat_map(|&number| (number as u16).to_be_bytes())
            .collect();
        record.push(0);
        tables.jobs.add(record, MOST_JOBS);
    }
    let answer = planner::write(&tables).and_then(|written| planner::first_plan(&written.file));
    !answer.is_err_and(|refused| refused.number == 19)
}

/// A smallest set that does not fit; after the time is over, one that no job can be taken from. What is
/// part of a set that fits does too, so that no smaller set is left once all of one job less fit.
fn smallest(count: usize, fits: impl Fn(&[usize]) -> bool, until: Instant) -> Option<Vec<usize>> {
    let all: Vec<usize> = (0..count).collect();
    if fits(&all) {
        return None;
    }
    let mut set = shrunk(all, &fits);
    while let Some(smaller) = of_size(count, set.len() - 1, &fits, until) {
        set = shrunk(smaller, &fits);
    }
    Some(set)
}

/// A set that does not fit without the jobs that it does not need for that.
fn shrunk(mut set: Vec<usize>, fits: &impl Fn(&[usize]) -> bool) -> Vec<usize> {
    for job in set.clone() {
        let without: Vec<usize> = set.iter().copied().filter(|&other| other != job).collect();
        if !fits(&without) {
            set = without;
        }
    }
    set
}

/// The first set of this size that does not fit, if there is one and the time is not over.
fn of_size(
    count: usize,
    size: usize,
    fits: &impl Fn(&[usize]) -> bool,
    until: Instant,
) -> Option<Vec<usize>> {
    let mut chosen: Vec<usize> = (0..size).collect();
    loop {
        if Instant::now() > until {
            return None;
        }
        if !fits(&chosen) {
            return Some(chosen);
        }
        if !next(&mut chosen, count) {
            return None;
        }
    }
}

/// The next set of the same size, if there is one.
fn next(chosen: &mut [usize], count: usize) -> bool {
    let size = chosen.len();
    let last = (0..size)
        .rev()
        .find(|&place| chosen[place] + size < count + place);
    let Some(place) = last else {
        return false;
    };
    let from = chosen[place] + 1;
    for (after, job) in chosen[place..].iter_mut().enumerate() {
        *job = from + after;
    }
    true
}

#[cfg(test)]
mod tests {
    use super::*;

    fn far() -> Instant {
        Instant::now() + Duration::from_secs(60)
    }

    #[test]
    fn the_smallest_set_is_found_though_taking_jobs_away_leads_elsewhere() {
        // Taking away from the front leaves 3, 4 and 5; 0 and 1 are fewer.
        let fits = |set: &[usize]| {
            let has = |jobs: &[usize]| jobs.iter().all(|job| set.contains(job));
            !has(&[0, 1]) && !has(&[3, 4, 5])
        };
        assert_eq!(smallest(6, fits, far()), Some(vec![0, 1]));
        let over = Instant::now();
        assert_eq!(smallest(6, fits, over), Some(vec![3, 4, 5]));
        assert_eq!(smallest(6, |_| true, far()), None);
    }

    #[test]
    fn every_set_of_a_size_comes_once() {
        let mut chosen = vec![0, 1, 2];
        let mut seen = vec![chosen.clone()];
        while next(&mut chosen, 5) {
            seen.push(chosen.clone());
        }
        assert_eq!(seen.len(), 10);
        assert_eq!(seen[9], [2, 3, 4]);
        assert!(seen.windows(2).all(|pair| pair[0] < pair[1]));
    }
}
