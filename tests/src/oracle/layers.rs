//! The first of the least-energy schedules, tick by tick, for requests that are beyond any listing.
//!
//! A layer has all that can be the case at one tick with the processor free: which jobs are unplaced,
//! and how each device stands. From there a tick goes by, or a job starts. Of the ways to the same case
//! the cheapest is kept, and of those the first as schedules compare (rule 47). There is no tree and no
//! bound here; the proved code works back from what is still to pay, and has no layers.
//!
//! What a gap costs comes from the rows (`rows::gap_energies`). Small requests hold this to the listing.

use crate::oracle::listing::Schedule;
use crate::oracle::request::{Job, Request, MOST_DEVICES, MOST_JOBS};
use crate::oracle::rows::gap_energies;
use std::collections::HashMap;

const DEVICES: usize = MOST_DEVICES as usize;

/// What a gap of a device costs above its deepest sleep, by its length.
struct Gaps {
    above: Vec<u64>,
    /// All longer gaps cost as much above it.
    longest: u16,
}

impl Gaps {
    fn of(request: &Request, device: usize) -> Gaps {
        let device = &request.devices[device];
        let energies = gap_energies(device, request.horizon);
        let asleep = |ticks: usize| u64::from(device.deepest()) * ticks as u64;
        let above = energies.iter().enumerate();
        let above: Vec<u64> = above
            .map(|(ticks, energy)| energy - asleep(ticks))
            .collect();
        let last = above.last().copied();
        let changing = above.iter().rposition(|&cost| Some(cost) != last);
        Gaps {
            longest: changing.map_or(0, |ticks| ticks as u16 + 1),
            above,
        }
    }

    fn longer(&self, idle: u16, by: u32) -> u16 {
        self.longest.min(idle.saturating_add(by as u16))
    }

    fn cost(&self, ticks: u16) -> u64 {
        self.above[usize::from(ticks)]
    }
}

/// How a device stands at a tick: in a round not used yet; idle for so long, and first used so late,
/// as far as that matters; or with its last gap paid, since no unplaced job uses it.
#[derive(Clone, Copy, PartialEq, Eq, Hash)]
enum Stand {
    Unused,
    Idle { since: u16, first: u16 },
    Over,
}

#[derive(Clone, Copy, PartialEq, Eq, Hash)]
struct Case {
    unplaced: u16,
    devices: [Stand; DEVICES],
}

/// The way to a case: its cost above the deepest sleep, and each job with its start, in running order.
/// Two ways to one case place equally many jobs, so that the smaller is the one to keep.
#[derive(Clone, Copy, PartialEq, Eq, PartialOrd, Ord)]
struct Way {
    above: u64,
    order: [(u8, u16); MOST_JOBS],
}

type Layer = HashMap<Case, Way>;

fn offer(layer: &mut Layer, case: Case, way: Way) {
    let kept = layer.entry(case).or_insert(way);
    *kept = way.min(*kept);
}

struct Layers<'a> {
    request: &'a Request,
    gaps: Vec<Gaps>,
}

impl Layers<'_> {
    fn jobs(&self, set: u16) -> impl Iterator<Item = (usize, &Job)> {
        let jobs = self.request.jobs.iter().enumerate();
        jobs.filter(move |(number, _)| set >> number & 1 == 1)
    }

    /// Pays the last gaps of the devices that are used no more.
    fn paid(&self, time: u32, mut case: Case, mut way: Way) -> (Case, Way) {
        for (k, gaps) in self.gaps.iter().enumerate() {
            if self.jobs(case.unplaced).any(|(_, job)| job.uses(k)) {
                continue;
            }
            if let Stand::Idle { since, first } = case.devices[k] {
                let rest = self.request.horizon - time + u32::from(first);
                way.above += gaps.cost(gaps.longer(since, rest));
            }
            case.devices[k] = Stand::Over;
        }
        (case, way)
    }

    fn is_late(&self, time: u32, set: u16) -> bool {
        self.jobs(set)
            .any(|(_, job)| time.max(job.release) > job.latest())
    }

    /// So many ticks later, without a use.
    fn waited(&self, mut case: Case, ticks: u32) -> Case {
        for (stand, gaps) in case.devices.iter_mut().zip(&self.gaps) {
            if let Stand::Idle { since, .. } = stand {
                *since = gaps.longer(*since, ticks);
            }
        }
        case
    }

    fn placed(&self, time: u32, case: Case, way: Way, number: usize) -> (Case, Way) {
        let job = &self.request.jobs[number];
        let (mut after, mut way) = (self.waited(case, job.running), way);
        let place = self.request.jobs.len() - case.unplaced.count_ones() as usize;
        way.order[place] = (number as u8, time as u16);
        after.unplaced &= !(1 << number);
        for (k, gaps) in self.gaps.iter().enumerate().filter(|(k, _)| job.uses(*k)) {
            let first = match case.devices[k] {
                Stand::Idle { since, first } => {
                    way.above += gaps.cost(since);
                    first
                }
                _ => gaps.longest.min(time as u16),
            };
            after.devices[k] = Stand::Idle { since: 0, first };
        }
        self.paid(time + job.running, after, way)
    }

    fn root(&self) -> (Case, Way) {
        let stand = if self.request.round {
            Stand::Unused
        } else {
            Stand::Idle { since: 0, first: 0 }
        };
        let all = (1u32 << self.request.jobs.len()) - 1;
        let case = Case {
            unplaced: all as u16,
            devices: [stand; DEVICES],
        };
        let way = Way {
            above: 0,
            order: [(0, 0); MOST_JOBS],
        };
        self.paid(0, case, way)
    }

    /// The best way to all jobs placed; an error where there are more cases than `most`.
    fn best(&self, most: usize) -> Result<Option<Way>, TooMany> {
        let horizon = self.request.horizon as usize;
        let mut layers: Vec<Layer> = vec![Layer::new(); horizon + 1];
        let (root, way) = self.root();
        offer(&mut layers[0], root, way);
        let (mut best, mut cases) = (None, 0);
        for time in 0..=horizon {
            let layer = std::mem::take(&mut layers[time]);
            cases += layer.len();
            if cases > most {
                return Err(TooMany);
            }
            let now = time as u32;
            for (case, way) in layer {
                if case.unplaced == 0 {
                    best = Some(best.map_or(way, |best: Way| best.min(way)));
                    continue;
                }
                for (number, job) in self.jobs(case.unplaced) {
                    let end = now + job.running;
                    let rest = case.unplaced & !(1 << number);
                    if job.release <= now && now <= job.latest() && !self.is_late(end, rest) {
                        let (case, way) = self.placed(now, case, way, number);
                        offer(&mut layers[end as usize], case, way);
                    }
                }
                if !self.is_late(now + 1, case.unplaced) {
                    offer(&mut layers[time + 1], self.waited(case, 1), way);
                }
            }
        }
        Ok(best)
    }

    /// What every schedule costs: work while used, the deepest sleep else.
    fn base(&self) -> u64 {
        let devices = self.request.devices.iter().enumerate();
        let of_device = |(k, device): (usize, &crate::oracle::request::Device)| {
            let jobs = self.request.jobs.iter().filter(|job| job.uses(k));
            let used: u32 = jobs.map(|job| job.running).sum();
            let others = self.request.horizon - used;
            u64::from(device.working) * u64::from(used)
                + u64::from(device.deepest()) * u64::from(others)
        };
        devices.map(of_device).sum()
    }
}

/// There are more cases than was asked for.
#[derive(Clone, Copy, Debug, PartialEq, Eq)]
pub struct TooMany;

/// The first of the least, by no more than `most` cases in all layers.
pub fn first_of_the_least(request: &Request, most: usize) -> Result<Option<Schedule>, TooMany> {
    // More to run than there are ticks: no device can be used for so long.
    let load: u32 = request.jobs.iter().map(|job| job.running).sum();
    if load > request.horizon {
        return Ok(None);
    }
    let layers = Layers {
        request,
        gaps: (0..request.devices.len())
            .map(|device| Gaps::of(request, device))
            .collect(),
    };
    let best = layers.best(most)?;
    Ok(best.map(|way| {
        let mut starts = vec![0; request.jobs.len()];
        for &(number, start) in &way.order[..request.jobs.len()] {
            starts[usize::from(number)] = u32::from(start);
        }
        Schedule {
            starts,
            energy: layers.base() + way.above,
        }
    }))
}

#[cfg(test)]
mod tests {
    use super::*;
    use crate::cases::{draw, Kind};
    use crate::oracle::listing;
    use crate::oracle::request::read;

    /// On every kind of request that can be listed, ties and rounds among them.
    #[test]
    fn the_layers_find_what_the_listing_finds() {
        let mut met = [0; 2];
        for number in 0..1_500 {
            let case = draw(34, number);
            let Ok(request) = read(&case.file) else {
                continue;
            };
            if case.kind != Kind::OverBudget {
                let listed = listing::first_of_the_least(&request);
                met[usize::from(listed.is_some())] += 1;
                let found = first_of_the_least(&request, usize::MAX);
                assert_eq!(found, Ok(listed), "{request:?}");
            }
        }
        assert!(met[0] > 30 && met[1] > 300, "{met:?}");
    }

    /// A layer that forgets how long a device has been idle, which was the old program's rule, is wrong.
    #[test]
    fn cases_that_forget_the_idle_times_are_told() {
        let forgets = |request: &Request| {
            let mut layers = Layers {
                request,
                gaps: (0..request.devices.len())
                    .map(|device| Gaps::of(request, device))
                    .collect(),
            };
            for gaps in &mut layers.gaps {
                gaps.longest = gaps.longest.min(1);
            }
            let best = layers.best(usize::MAX).expect("no bound");
            best.map(|way| layers.base() + way.above)
        };
        let differs = |number: &u64| {
            let case = draw(34, *number);
            read(&case.file).is_ok_and(|request| {
                case.kind == Kind::Jobs
                    && forgets(&request)
                        != listing::first_of_the_least(&request).map(|best| best.energy)
            })
        };
        assert!((0..500).filter(differs).count() > 3);
    }
}
