//! The full listing of all feasible schedules: the first of those with least energy, and the first of
//! all.
//!
//! The search is judged against a listing that is defined without the tree (rule 49). So there is no
//! tree here: every vector of start times is written out, job by job independently, and thrown away
//! if two jobs share a tick.

use crate::oracle::request::{Job, Request};
use crate::oracle::rows::{Energies, Use};

#[derive(Clone, Debug, PartialEq, Eq)]
pub struct Schedule {
    /// By job number.
    pub starts: Vec<u32>,
    pub energy: u64,
}

/// How many start vectors the listing writes out.
pub fn size(request: &Request) -> u64 {
    let choices = |job: &Job| u64::from(job.latest() - job.release + 1);
    request
        .jobs
        .iter()
        .fold(1, |size: u64, job| size.saturating_mul(choices(job)))
}

pub fn first_of_the_least(request: &Request) -> Option<Schedule> {
    let mut energies = Energies::of(request);
    let mut best: Option<Schedule> = None;
    let mut starts: Vec<u32> = request.jobs.iter().map(|job| job.release).collect();
    loop {
        if no_shared_tick(&request.jobs, &starts) {
            let energy = energy(request, &starts, &mut energies);
            if best.as_ref().is_none_or(|best| {
                energy < best.energy
                    || energy == best.energy && running_order(&starts) < running_order(&best.starts)
            }) {
                best = Some(Schedule {
                    starts: starts.clone(),
                    energy,
                });
            }
        }
        if !advance(&request.jobs, &mut starts) {
            return best;
        }
    }
}

/// The first of all feasible schedules, by job number, whatever it costs.
pub fn first(request: &Request) -> Option<Vec<u32>> {
    let mut first: Option<Vec<u32>> = None;
    let mut starts: Vec<u32> = request.jobs.iter().map(|job| job.release).collect();
    loop {
        if no_shared_tick(&request.jobs, &starts) {
            let is_earlier = |first: &Vec<u32>| running_order(&starts) < running_order(first);
            if first.as_ref().is_none_or(is_earlier) {
                first = Some(starts.clone());
            }
        }
        if !advance(&request.jobs, &mut starts) {
            return first;
        }
    }
}

/// The next vector, counted like the digits of a number; false when all have been listed.
fn advance(jobs: &[Job], starts: &mut [u32]) -> bool {
    for (job, start) in jobs.iter().zip(starts) {
        if *start < job.latest() {
            *start += 1;
            return true;
        }
        *start = job.release;
    }
    false
}

fn no_shared_tick(jobs: &[Job], starts: &[u32]) -> bool {
    let disjoint = |one: usize, other: usize| {
        starts[one] + jobs[one].running <= starts[other]
            || starts[other] + jobs[other].running <= starts[one]
    };
    (0..jobs.len()).all(|one| (0..one).all(|other| disjoint(one, other)))
}

/// The schedule as rule 47 compares it: (job, start) in running order, so that the order of vectors
/// is the rule's: smaller job first, then earlier start.
pub fn running_order(starts: &[u32]) -> Vec<(usize, u32)> {
    let mut order: Vec<(usize, u32)> = starts.iter().copied().enumerate().collect();
    order.sort_by_key(|&(_, start)| start);
    order
}

/// The ticks in which a device is used, in rising order.
pub fn uses(request: &Request, starts: &[u32], device: usize) -> Vec<Use> {
    let mut uses: Vec<Use> = request
        .jobs
        .iter()
        .zip(starts)
        .filter(|(job, _)| job.uses(device))
        .map(|(job, &start)| (start, start + job.running))
        .collect();
    uses.sort_unstable();
    uses
}

/// The least energy of all devices for given feasible starts.
pub fn energy(request: &Request, starts: &[u32], energies: &mut Energies) -> u64 {
    (0..request.devices.len())
        .map(|device| {
            let mut uses = uses(request, starts, device);
            uses.push((request.horizon, request.horizon));
            energies.least(device, &uses)
        })
        .sum()
}
