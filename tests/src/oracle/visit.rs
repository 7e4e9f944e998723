//! The vertex count by the visiting order (rules 40 to 46 and 89).
//!
//! As plain as the rules have it: a vertex is its sequence of placed jobs with their starts, and
//! everything else about it is worked out from that sequence when it is asked for.

use crate::oracle::request::{Job, Request};
use crate::oracle::rows::{least_energy, Energies, Rule, Use};

/// What a whole visit, or one that was stopped, has found.
pub struct Visit {
    /// Vertices reached; the limit, if the visit was stopped there.
    pub count: u64,
    /// The energy of the best, which means nothing if the visit was stopped.
    pub best: Option<u64>,
    /// How many had been reached when there was a best for the first time.
    pub best_from: Option<u64>,
}

/// Visits from the root on, and stops at once when `limit` vertices have been counted.
pub fn visit(request: &Request, limit: u64) -> Visit {
    visit_by(request, limit, least_energy)
}

/// The same, but that the floor takes another rule's energy for the least one.
pub(crate) fn visit_by(request: &Request, limit: u64, floor: Rule) -> Visit {
    let mut visitor = Visitor {
        request,
        limit,
        energies: Energies::of(request),
        floors: Energies::by(&request.devices, floor),
        placed: Vec::new(),
        found: Visit {
            count: 0,
            best: None,
            best_from: None,
        },
    };
    visitor.vertex();
    visitor.found
}

struct Visitor<'a> {
    request: &'a Request,
    limit: u64,
    energies: Energies<'a>,
    floors: Energies<'a>,
    /// The vertex: (job, start) in running order.
    placed: Vec<(usize, u32)>,
    found: Visit,
}

impl Visitor<'_> {
    fn stopped(&self) -> bool {
        self.found.count >= self.limit
    }

    fn vertex(&mut self) {
        if self.stopped() {
            return;
        }
        self.found.count += 1;
        if self.cut_a() {
            return;
        }
        if self.unplaced().next().is_none() {
            let energy = self.energy();
            if self.found.best.is_none_or(|best| energy < best) {
                self.found.best = Some(energy);
                self.found.best_from.get_or_insert(self.found.count);
            }
            return;
        }
        if self.found.best.is_some_and(|best| self.floor() >= best) {
            return;
        }
        self.children();
    }

    fn children(&mut self) {
        for job in 0..self.request.jobs.len() {
            if self.is_placed(job) {
                continue;
            }
            let earliest = self.time().max(self.job(job).release);
            for start in earliest..=self.job(job).latest() {
                if self.stopped() {
                    return;
                }
                self.placed.push((job, start));
                self.vertex();
                self.placed.pop();
            }
        }
    }

    fn job(&self, job: usize) -> &Job {
        &self.request.jobs[job]
    }

    fn is_placed(&self, job: usize) -> bool {
        self.placed.iter().any(|&(placed, _)| placed == job)
    }

    fn unplaced(&self) -> impl Iterator<Item = &Job> {
        let jobs = self.request.jobs.iter().enumerate();
        jobs.filter(|&(job, _)| !self.is_placed(job))
            .map(|(_, record)| record)
    }

    /// The end of the last placed job, 0 at the root.
    fn time(&self) -> u32 {
        match self.placed.last() {
            Some(&(job, start)) => start + self.job(job).running,
            None => 0,
        }
    }

    fn cut_a(&self) -> bool {
        let time = self.time();
        let late = |job: &Job| time.max(job.release) + job.running > job.deadline;
        let running: u32 = self.unplaced().map(|job| job.running).sum();
        self.unplaced().any(late) || time + running > self.request.horizon
    }

    /// The placed uses of a device, in running order, with room for the closing pair.
    fn uses(&self, device: usize) -> Vec<Use> {
        let mut uses = Vec::with_capacity(self.placed.len() + 1);
        for &(job, start) in &self.placed {
            if self.job(job).uses(device) {
                uses.push((start, start + self.job(job).running));
            }
        }
        uses
    }

    fn energy(&mut self) -> u64 {
        let horizon = self.request.horizon;
        (0..self.request.devices.len())
            .map(|device| {
                let mut uses = self.uses(device);
                uses.push((horizon, horizon));
                self.energies.least(device, &uses)
            })
            .sum()
    }

    fn floor(&mut self) -> u64 {
        (0..self.request.devices.len())
            .map(|device| self.floor_of(device))
            .sum()
    }

    /// The ticks before the first placed use of a round are charged at the power of the deepest level; the
    /// rest up to the end of the last one is a list of its own.
    fn floor_of(&mut self, device: usize) -> u64 {
        let placed = self.uses(device);
        let first = match placed.first() {
            Some(&(start, _)) if self.request.round => start,
            _ => 0,
        };
        let end = placed.last().map_or(0, |&(_, end)| end);
        let mut uses: Vec<Use> = placed
            .iter()
            .map(|&(start, end)| (start - first, end - first))
            .collect();
        uses.push((end - first, end - first));
        let to_come: u32 = self
            .unplaced()
            .filter(|job| job.uses(device))
            .map(|job| job.running)
            .sum();
        let others = self.request.horizon - end - to_come;
        let powers = &self.request.devices[device];
        self.floors.least(device, &uses)
            + u64::from(powers.working) * u64::from(to_come)
            + u64::from(powers.deepest()) * u64::from(first + others)
    }
}
