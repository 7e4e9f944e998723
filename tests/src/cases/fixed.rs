//! Cases that are not left to chance: the files of the figures, and counts that meet the budget exactly or
//! pass it by one.

use crate::cases::figures::{self, Figure, Operation};
use crate::cases::tables::{device_a, job, task, JobRecord, Tables};

pub struct Fixed {
    pub name: &'static str,
    pub file: Vec<u8>,
}

fn listed(horizon: u16, devices: usize, jobs: Vec<JobRecord>) -> Vec<u8> {
    Tables {
        horizon,
        devices: vec![device_a(); devices],
        tasks: Vec::new(),
        jobs,
    }
    .bytes()
}

/// The files of the figures, and marks that are none.
fn figures() -> Vec<(&'static str, Vec<u8>)> {
    let is_file = |figure: &Figure| {
        use Operation::{Check, First, Possible, Print, Rows, Search};
        matches!(
            figure.call.operation,
            Check | First | Possible | Print | Rows | Search
        )
    };
    let files = figures::all().into_iter().filter(is_file);
    let mut all: Vec<_> = files
        .map(|figure| (figure.name, figure.call.given))
        .collect();
    all.extend([
        ("FF 00", vec![255, 0, 0, 0, 0]),
        ("FF 01", vec![255, 1, 0, 0, 0]),
        ("FF 04", vec![255, 4, 0, 0, 0]),
    ]);
    all
}

/// A device that no job uses is worth its sleep in the floor and more in any plan, so no floor ever
/// cuts. Two jobs of one tick with m and n starts, k of them shared, then give 1 vertex for the
/// root, m + n for one job placed, m n - k for both: (m + 1)(n + 1) - k in all.
fn two_jobs(first: u16, second: (u16, u16)) -> Vec<u8> {
    let jobs = vec![job(0, first, 1, 0), job(second.0, second.1, 1, 0)];
    listed(second.1.max(first), 1, jobs)
}

/// Two jobs that want the same tick, so there is no schedule and never a best. Two loose jobs with m
/// and then n starts before it: 1 + m + m n vertices are not cut and have two children each that
/// are, and n vertices have the second loose job first: 3 (1 + m + m n) + n in all. One spare tick
/// at the end keeps the sum of running times from cutting more.
fn no_schedule(first: u16, second: u16) -> Vec<u8> {
    let end = first + second;
    let last = job(end, end + 1, 1, 0);
    let jobs = vec![
        job(0, first, 1, 0),
        job(first, end, 1, 0),
        last.clone(),
        last,
    ];
    listed(end + 2, 0, jobs)
}

fn budget_edges() -> Vec<(&'static str, Vec<u8>)> {
    vec![
        ("1,000,000 vertices and a plan", two_jobs(999, (999, 1998))),
        ("1,000,001 vertices and a plan", two_jobs(999, (0, 1000))),
        ("1,000,000 vertices, no schedule", no_schedule(1312, 253)),
        ("1,000,001 vertices, no schedule", no_schedule(160, 2078)),
    ]
}

/// As many tasks as there may be. A random table of so many that has a plan is too long to list;
/// this one stands at what can be done, with 8^8 start vectors.
fn eight_tasks() -> Vec<u8> {
    Tables {
        devices: vec![device_a(); 2],
        tasks: [1, 0, 2, 0, 3, 0, 2, 1].map(|set| task(8, 1, set)).to_vec(),
        ..Tables::default()
    }
    .bytes()
}

pub fn all() -> Vec<Fixed> {
    let mut all = figures();
    all.extend(budget_edges());
    all.push(("eight tasks", eight_tasks()));
    all.into_iter()
        .map(|(name, file)| Fixed { name, file })
        .collect()
}

#[cfg(test)]
mod tests {
    use super::*;
    use crate::oracle::expect::{search, BUDGET};

    #[test]
    fn the_edges_stand_at_the_budget() {
        let outcomes: Vec<(u8, u64)> = budget_edges()
            .iter()
            .map(|(_, file)| search(file, BUDGET + 1))
            .map(|outcome| (outcome.number, outcome.count))
            .collect();
        let (met, passed) = (1_000_000, 1_000_001);
        assert_eq!(outcomes, [(0, met), (0, passed), (19, met), (19, passed)]);
    }

    #[test]
    fn eight_tasks_have_a_plan() {
        assert_eq!(search(&eight_tasks(), BUDGET).number, 0);
    }

    #[test]
    fn the_budget_decides_before_the_lack_of_a_schedule() {
        let numbers: Vec<u8> = budget_edges()
            .iter()
            .map(|(_, file)| search(file, BUDGET).number)
            .collect();
        assert_eq!(numbers, [0, 20, 19, 20]);
    }
}
