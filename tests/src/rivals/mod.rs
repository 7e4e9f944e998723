//! The benchmark's plain searches, written as fast Rust without a proof. Four make the same visit as the
//! proved search; the fifth counts nothing, and works out what the proved `least_plan` does.
//!
//! - `anew` adds both sums (rules 43 and 46) anew at every vertex: the running times of all unplaced
//!   jobs, and for each device the ticks that unplaced jobs will use it.
//! - `carried` keeps both sums in one vertex: placing a job and taking it back keep them right.
//! - `shaped` reads the parent, knows cut A by one comparison, and makes the child only where no cut
//!   drops it.
//! - `lean` takes the steps of the proved search: beyond that it carries the floor as one number, makes
//!   no complete vertex, and only counts a job's starts from where on all are cut.
//! - `remembering` takes the steps of the proved `least_plan`, with a memory that is lent.

pub mod anew;
pub mod carried;
pub mod lean;
pub mod remembering;
pub mod shaped;

use crate::oracle::request::{read, MOST_DEVICES, MOST_JOBS, MOST_LEVELS};

const DEVICES: usize = MOST_DEVICES as usize;

/// To a level and back: the ticks of all moves, what they cost, and the power at the level.
#[derive(Clone, Copy, Default)]
struct Trip {
    moves: u32,
    moving: u32,
    power: u32,
}

#[derive(Clone, Copy, Default)]
struct Device {
    working: u32,
    /// The power of the deepest level.
    sleeping: u32,
    levels: usize,
    trips: [Trip; MOST_LEVELS as usize],
}

impl Device {
    fn of(device: &crate::oracle::request::Device) -> Device {
        let mut trips = [Trip::default(); MOST_LEVELS as usize];
        let (shut, wake) = (device.shut, device.wake);
        for (depth, (trip, &power)) in (1..).zip(trips.iter_mut().zip(&device.levels)) {
            *trip = Trip {
                moves: depth * (shut.ticks + wake.ticks),
                moving: depth * (shut.ticks * shut.power + wake.ticks * wake.power),
                power,
            };
        }
        Device {
            working: device.working,
            sleeping: device.deepest(),
            levels: device.levels.len(),
            trips,
        }
    }

    /// The least energy of a stretch without use between two that work.
    fn gap(&self, ticks: u32) -> u32 {
        let mut least = ticks * self.working;
        for trip in &self.trips[..self.levels] {
            if ticks < trip.moves {
                break;
            }
            least = least.min(trip.moving + (ticks - trip.moves) * trip.power);
        }
        least
    }

    /// What is charged before a use at `start`: a gap, or the power of sleep before a round's first.
    fn lead(&self, round: bool, end: u32, start: u32) -> u32 {
        if round && end == 0 {
            self.sleeping * start
        } else {
            self.gap(start - end)
        }
    }

    /// What it costs by the horizon: the gap after the last use goes on to a round's first.
    fn close(&self, round: bool, horizon: u32, first: u32, end: u32, spent: u32) -> u32 {
        if round && end == 0 {
            self.sleeping * horizon
        } else {
            spent - self.sleeping * first + self.gap(first + (horizon - end))
        }
    }
}

#[derive(Clone, Copy, Default)]
struct Job {
    release: u32,
    deadline: u32,
    running: u32,
    devices: u8,
}

impl Job {
    fn uses(&self, device: usize) -> bool {
        self.devices >> device & 1 == 1
    }
}

/// The numbers of the jobs in a set, rising. Bit j stands for job j.
fn members(mut set: u16) -> impl Iterator<Item = usize> {
    std::iter::from_fn(move || {
        let first = set.trailing_zeros() as usize;
        set &= set.wrapping_sub(1);
        (first < MOST_JOBS).then_some(first)
    })
}

/// What is to be planned.
struct Problem {
    horizon: u32,
    round: bool,
    devices: Vec<Device>,
    jobs: [Job; MOST_JOBS],
    job_count: usize,
}

impl Problem {
    fn of(file: &[u8]) -> Result<Problem, u8> {
        let request = read(file)?;
        let mut jobs = [Job::default(); MOST_JOBS];
        for (place, job) in jobs.iter_mut().zip(&request.jobs) {
            *place = Job {
                release: job.release,
                deadline: job.deadline,
                running: job.running,
                devices: job.devices,
            };
        }
        Ok(Problem {
            horizon: request.horizon,
            round: request.round,
            devices: request.devices.iter().map(Device::of).collect(),
            jobs,
            job_count: request.jobs.len(),
        })
    }

    fn all_jobs(&self) -> u16 {
        ((1u32 << self.job_count) - 1) as u16
    }

    /// The running time of the jobs in a set.
    fn load(&self, set: u16) -> u32 {
        members(set).map(|number| self.jobs[number].running).sum()
    }

    /// The ticks for which the jobs in a set use a device.
    fn ahead(&self, set: u16, device: usize) -> u32 {
        members(set)
            .map(|number| &self.jobs[number])
            .filter(|job| job.uses(device))
            .map(|job| job.running)
            .sum()
    }

    fn is_late(&self, number: usize, time: u32) -> bool {
        let job = &self.jobs[number];
        time.max(job.release) + job.running > job.deadline
    }
}

/// The vertices counted, and the best schedule so far.
struct Tally {
    budget: u32,
    count: u32,
    over: bool,
    best: Option<(u32, [u32; MOST_JOBS])>,
}

impl Tally {
    fn new(budget: u32) -> Tally {
        Tally {
            budget,
            count: 0,
            over: false,
            best: None,
        }
    }

    /// One vertex more, or the word that the budget is used up.
    fn counts(&mut self) -> bool {
        self.over = self.count == self.budget;
        self.count += u32::from(!self.over);
        !self.over
    }

    fn offer(&mut self, energy: u32, starts: &[u32; MOST_JOBS]) {
        if self.best.is_none_or(|(best, _)| energy < best) {
            self.best = Some((energy, *starts));
        }
    }

    fn beats(&self, floor: impl FnOnce() -> u32) -> bool {
        self.best.is_some_and(|(best, _)| floor() >= best)
    }
}

/// What a search returns. Starts are those of the best, by job number.
#[derive(Debug, PartialEq, Eq)]
pub struct Found {
    pub number: u8,
    pub energy: u32,
    pub count: u32,
    pub starts: Vec<u32>,
}

/// Reads the file, has `visit` do the work, and says what came of it.
fn found(file: &[u8], budget: u32, visit: impl FnOnce(&Problem, &mut Tally)) -> Found {
    let refused = |number, count| Found {
        number,
        energy: 0,
        count,
        starts: Vec::new(),
    };
    let problem = match Problem::of(file) {
        Ok(problem) => problem,
        Err(number) => return refused(number, 0),
    };
    let mut tally = Tally::new(budget);
    visit(&problem, &mut tally);
    match tally.best {
        _ if tally.over => refused(20, budget),
        None => refused(19, tally.count),
        Some((energy, starts)) => Found {
            number: 0,
            energy,
            count: tally.count,
            starts: starts[..problem.job_count].to_vec(),
        },
    }
}

#[cfg(test)]
mod tests {
    use super::*;
    use crate::cases::draw;
    use crate::oracle::expect;

    fn by_the_oracle(file: &[u8], budget: u32) -> Found {
        let outcome = expect::search(file, budget);
        let plan = outcome.plan.map(|(_, schedule)| schedule);
        Found {
            number: outcome.number,
            energy: plan.as_ref().map_or(0, |plan| plan.energy as u32),
            count: outcome.count as u32,
            starts: plan.map_or(Vec::new(), |plan| plan.starts),
        }
    }

    /// A plain search is only worth racing against if it does the same work.
    #[test]
    fn the_plain_searches_find_what_the_oracle_finds() {
        for number in 0..400 {
            let file = draw(3, number).file;
            for budget in [7, 100_000] {
                let expected = by_the_oracle(&file, budget);
                assert_eq!(anew::search(&file, budget), expected, "case {number}");
                assert_eq!(carried::search(&file, budget), expected, "case {number}");
                assert_eq!(shaped::search(&file, budget), expected, "case {number}");
                assert_eq!(lean::search(&file, budget), expected, "case {number}");
            }
        }
    }

    /// It finds the same and counts nothing, whatever the memory is and holds.
    #[test]
    fn the_remembering_search_finds_what_the_oracle_finds() {
        for number in 0..800 {
            let file = draw(33, number).file;
            let expected = by_the_oracle(&file, 100_000);
            if expected.number == 20 {
                continue;
            }
            let expected = Found {
                count: 0,
                ..expected
            };
            for words in [0, 1, 7, 64, 4_096] {
                let mut memory = vec![u64::MAX / 3; words];
                let (found, _) = remembering::search(&file, u32::MAX, &mut memory);
                assert_eq!(found, expected, "case {number}, {words} words");
            }
        }
    }
}
