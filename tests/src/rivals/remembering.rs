//! The steps of the proved `least_plan`: it works out a number, the least extras to come of a vertex,
//! and remembers it by all that it depends on; the plan is read off afterwards.
//!
//! The extra of a gap is what it costs above the deepest sleep. A vertex is looked at with a slack: the
//! answer is never above its least, and below the slack it is the least itself.

use super::{members, Device, Found, Problem, DEVICES};
use crate::oracle::request::MOST_JOBS;

/// More than any extras.
const NEVER: u32 = i32::MAX as u32;

/// By how many of the steepest rises more than asked is looked for.
const LIFT: u32 = 8;

/// With all devices asleep a vertex waits by so many ticks.
const STEP: u32 = 32;

/// The words of an entry, and the entries of a row.
const ENTRY: usize = 5;
const WAYS: usize = 4;

/// The bits of a set and a time, and of the effort after them.
const HEAD: u32 = 29;
const KNOWN: u32 = 32;

/// What the gaps of a device cost above its deepest sleep.
struct Extras {
    of_gap: Vec<u32>,
    /// From this length on it stays the same.
    cap: u32,
    /// The most by which it rises and falls in one tick.
    rise: u32,
    fall: u32,
}

impl Extras {
    fn of(device: &Device, horizon: u32) -> Extras {
        let extra = |ticks| device.gap(ticks) - device.sleeping * ticks;
        let of_gap: Vec<u32> = (0..=horizon).map(extra).collect();
        let changes = of_gap.windows(2).map(|pair| (pair[0], pair[1]));
        let last = changes.clone().rposition(|(one, next)| one != next);
        Extras {
            cap: last.map_or(0, |place| place as u32 + 1),
            rise: changes
                .clone()
                .map(|(one, next)| next.saturating_sub(one))
                .max()
                .unwrap_or(0),
            fall: changes
                .map(|(one, next)| one.saturating_sub(next))
                .max()
                .unwrap_or(0),
            of_gap,
        }
    }
}

/// What a device has: the end of its last placed use, in a round the start of its first, and the ticks
/// for which unplaced jobs will use it.
#[derive(Clone, Copy, Default)]
struct State {
    end: u32,
    first: u32,
    ahead: u32,
}

type States = [State; DEVICES];

/// All that a vertex's least depends on, as it stands in an entry.
#[derive(Clone, Copy, PartialEq, Eq)]
struct Key {
    head: u64,
    devices: [u64; ENTRY - 1],
}

impl Key {
    fn row(&self, rows: usize) -> usize {
        let mix =
            |hash: u64, word: u64| (hash.rotate_left(5) ^ word).wrapping_mul(0x9E37_79B9_7F4A_7C15);
        let hash = self.devices.iter().copied().fold(mix(0, self.head), mix);
        ((hash >> 32) as usize * rows) >> 32
    }
}

/// Where a key stands or may be put, and what is known of it: twice a bound of the least, and one more
/// where it is the least itself.
struct Spot {
    place: usize,
    known: u32,
}

/// The budget is used up.
struct Stop;

type Least = Result<u32, Stop>;

struct Search<'a> {
    problem: &'a Problem,
    devices: Vec<Extras>,
    /// For each set of jobs one more than the latest time from which it can still be run; 0 for never.
    latest: Vec<u32>,
    memory: &'a mut [u64],
    rows: usize,
    lift: u32,
    budget: u32,
    entered: u32,
}

impl Search<'_> {
    fn is_unused(&self, state: &State) -> bool {
        self.problem.round && state.end == 0
    }

    fn users(&self, number: usize) -> impl Iterator<Item = usize> {
        members(self.problem.jobs[number].devices.into())
    }

    /// The extras before a job that starts at `start`.
    fn lead(&self, states: &States, number: usize, start: u32) -> u32 {
        let extra = |k: usize| match &states[k] {
            state if self.is_unused(state) => 0,
            state => self.devices[k].of_gap[(start - state.end) as usize],
        };
        self.users(number).map(extra).sum()
    }

    fn closing(&self, state: &State) -> u32 {
        state.first + (self.problem.horizon - state.end)
    }

    fn close(&self, states: &States) -> u32 {
        let devices = self.devices.iter().zip(states);
        devices
            .filter(|(_, state)| !self.is_unused(state))
            .map(|(extras, state)| extras.of_gap[self.closing(state) as usize])
            .sum()
    }

    /// By how much the extras to come can fall where a job starts one tick later.
    fn drop(&self, states: &States, number: usize) -> u32 {
        let drop = |k: usize| match &self.devices[k] {
            extras if self.is_unused(&states[k]) => extras.rise + extras.fall,
            extras => extras.rise,
        };
        self.users(number).map(drop).sum()
    }

    /// Up to which time a vertex looks at starts itself: until one more device has reached its cap.
    fn until(&self, states: &States, time: u32) -> u32 {
        let devices = self.devices.iter().zip(states);
        let full = devices
            .filter(|(_, state)| state.ahead > 0 && !self.is_unused(state))
            .map(|(extras, state)| state.end + extras.cap)
            .filter(|&full| full > time)
            .min();
        full.unwrap_or((time / STEP + 1) * STEP)
            .min(self.problem.horizon)
    }

    fn place(&self, states: &mut States, number: usize, start: u32) {
        let running = self.problem.jobs[number].running;
        for k in self.users(number) {
            let state = &mut states[k];
            if self.problem.round && state.end == 0 {
                state.first = start;
            }
            state.end = start + running;
            state.ahead -= running;
        }
    }

    fn key(&self, states: &States, set: u16, time: u32) -> Key {
        let mut devices = [0; ENTRY - 1];
        for (k, (extras, state)) in self.devices.iter().zip(states).enumerate() {
            let (idle, first) = match state {
                state if state.ahead == 0 => (self.closing(state), 0),
                state if self.is_unused(state) => (0, 0),
                state => (time - state.end, state.first),
            };
            let shift = 16 * (k % 4);
            devices[k / 4] |= u64::from(idle.min(extras.cap)) << shift;
            devices[2 + k / 4] |= u64::from(first.min(extras.cap)) << shift;
        }
        let head = u64::from(set) | u64::from(time) << 16;
        Key { head, devices }
    }

    /// Looks in the entries of the key's row. Where it is in none, its place is that of the entry that
    /// took the least effort.
    fn look(&self, key: &Key) -> Spot {
        let nowhere = Spot {
            place: self.memory.len(),
            known: 0,
        };
        if self.rows == 0 {
            return nowhere;
        }
        let from = WAYS * ENTRY * key.row(self.rows);
        let mut best = (nowhere, u64::MAX);
        for way in 0..WAYS {
            let place = from + ENTRY * way;
            let entry = &self.memory[place..place + ENTRY];
            let head = entry[0] & ((1 << HEAD) - 1);
            if head == key.head && entry[1..] == key.devices {
                let known = (entry[0] >> KNOWN) as u32;
                return Spot { place, known };
            }
            let effort = entry[0] >> HEAD & 7;
            if effort < best.1 {
                best = (Spot { place, known: 0 }, effort);
            }
        }
        best.0
    }

    fn remember(&mut self, place: usize, key: &Key, entered: u32, known: u32) {
        if let Some(entry) = self.memory.get_mut(place..place + ENTRY) {
            let effort = u64::from(entered.max(1).ilog2() / 2).min(7);
            entry[0] = key.head | effort << HEAD | u64::from(known) << KNOWN;
            entry[1..].copy_from_slice(&key.devices);
        }
    }

    /// The least extras to come, as far as they are below the slack.
    fn least(&mut self, states: &States, set: u16, time: u32, slack: u32) -> Least {
        if set == 0 {
            return Ok(self.close(states));
        }
        let key = self.key(states, set, time);
        let Spot { place, known } = self.look(&key);
        if known % 2 == 1 || slack <= known / 2 {
            return Ok(known / 2);
        }
        if self.entered == self.budget {
            return Err(Stop);
        }
        let before = self.entered;
        self.entered += 1;
        let limit = NEVER.min(slack.saturating_add(self.lift));
        let found = self.examine(states, set, time, limit)?;
        let best = found.max(known / 2);
        let known = 2 * best + u32::from(best < limit);
        self.remember(place, &key, self.entered - before, known);
        Ok(best)
    }

    /// The starts before the vertex waits, and the vertex that has waited.
    fn examine(&mut self, states: &States, set: u16, time: u32, limit: u32) -> Least {
        let until = self.until(states, time);
        let mut best = NEVER;
        for number in members(set) {
            best = self.tries(states, set, number, time, until, limit, best)?;
        }
        if self.latest[usize::from(set)] > until {
            let slack = best.min(limit);
            best = best.min(self.least(states, set, until, slack)?);
        }
        Ok(best)
    }

    /// One more than the last start of a job after which the others can still be run.
    fn last(&self, rest: u16, number: usize) -> u32 {
        last_start(self.problem, number, self.latest[usize::from(rest)])
    }

    /// The starts of a job before `until`. `ahead` bounds what is to come below the next of them.
    #[allow(clippy::too_many_arguments)]
    fn tries(
        &mut self,
        states: &States,
        set: u16,
        number: usize,
        time: u32,
        until: u32,
        limit: u32,
        mut best: u32,
    ) -> Least {
        let to = until.min(self.last(set & !(1 << number), number));
        let drop = self.drop(states, number);
        let mut ahead = 0;
        for start in time.max(self.problem.jobs[number].release)..to {
            let lead = self.lead(states, number, start);
            let most = limit.min(best);
            if lead + ahead < most {
                let below = self.enter(states, set, number, start, most - lead)?;
                ahead = below.max(ahead);
            }
            best = best.min(lead + ahead);
            ahead = ahead.saturating_sub(drop);
        }
        Ok(best)
    }

    fn enter(&mut self, states: &States, set: u16, number: usize, start: u32, slack: u32) -> Least {
        let mut child = *states;
        self.place(&mut child, number, start);
        let end = start + self.problem.jobs[number].running;
        self.least(&child, set & !(1 << number), end, slack)
    }

    /// The first job and start with which the extras to come are `goal`.
    fn first_child(
        &mut self,
        states: &States,
        set: u16,
        time: u32,
        goal: u32,
    ) -> Result<(usize, u32), Stop> {
        for number in members(set) {
            let to = self.last(set & !(1 << number), number);
            for start in time.max(self.problem.jobs[number].release)..to {
                let lead = self.lead(states, number, start);
                if lead <= goal {
                    let slack = goal - lead + 1;
                    if lead + self.enter(states, set, number, start, slack)? == goal {
                        return Ok((number, start));
                    }
                }
            }
        }
        unreachable!("some child has what its parent has")
    }

    /// The least extras of the root, and the starts of the first schedule that has them.
    fn first_of_the_least(&mut self) -> Result<(u32, [u32; MOST_JOBS]), Stop> {
        let mut set = self.problem.all_jobs();
        let mut states = States::default();
        for (k, state) in states.iter_mut().enumerate() {
            state.ahead = self.problem.ahead(set, k);
        }
        let total = self.least(&states, set, 0, NEVER)?;
        let (mut time, mut goal, mut starts) = (0, total, [0; MOST_JOBS]);
        while set != 0 {
            let (number, start) = self.first_child(&states, set, time, goal)?;
            goal -= self.lead(&states, number, start);
            self.place(&mut states, number, start);
            starts[number] = start;
            time = start + self.problem.jobs[number].running;
            set &= !(1 << number);
        }
        Ok((total, starts))
    }
}

/// One more than the last start of a job that is over before `after`; 0 where there is none.
fn last_start(problem: &Problem, number: usize, after: u32) -> u32 {
    let job = &problem.jobs[number];
    let end = job.deadline.min(after.saturating_sub(1));
    match after {
        0 => 0,
        _ if end < job.release + job.running => 0,
        _ => end - job.running + 1,
    }
}

fn latest(problem: &Problem) -> Vec<u32> {
    let mut latest = vec![problem.horizon + 1];
    for set in 1..=problem.all_jobs() {
        let last = |number: usize| {
            let rest = set & !(1 << number);
            last_start(problem, number, latest[usize::from(rest)])
        };
        let most = members(set).map(last).max().unwrap_or(0);
        latest.push(most);
    }
    latest
}

/// What all schedules cost without extras.
fn base(problem: &Problem) -> u32 {
    let all = problem.all_jobs();
    let of_device = |(k, device): (usize, &Device)| {
        let used = problem.ahead(all, k);
        device.working * used + device.sleeping * (problem.horizon - used)
    };
    problem.devices.iter().enumerate().map(of_device).sum()
}

/// What is found, without a count but for 20; and the vertices entered for it.
pub fn search(file: &[u8], budget: u32, memory: &mut [u64]) -> (Found, u32) {
    let refused = |number, count| Found {
        number,
        energy: 0,
        count,
        starts: Vec::new(),
    };
    let problem = match Problem::of(file) {
        Ok(problem) => problem,
        Err(number) => return (refused(number, 0), 0),
    };
    let latest = latest(&problem);
    if latest.last() == Some(&0) {
        return (refused(19, 0), 0);
    }
    let extras = |device| Extras::of(device, problem.horizon);
    let devices: Vec<Extras> = problem.devices.iter().map(extras).collect();
    memory.fill(0);
    let rise = devices.iter().map(|extras| extras.rise).max();
    let mut search = Search {
        problem: &problem,
        devices,
        latest,
        rows: memory.len() / (WAYS * ENTRY),
        memory,
        lift: LIFT * rise.unwrap_or(0),
        budget,
        entered: 0,
    };
    let found = match search.first_of_the_least() {
        Err(Stop) => refused(20, budget),
        Ok((extras, starts)) => Found {
            number: 0,
            energy: base(&problem) + extras,
            count: 0,
            starts: starts[..problem.job_count].to_vec(),
        },
    };
    (found, search.entered)
}
