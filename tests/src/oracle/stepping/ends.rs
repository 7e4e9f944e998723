//! Stepping at its ends: jobs as many, devices as slow and dear, and a round as long as there may be, or one
//! below.

use super::{longest, pause, shift, shuffle, Call, Stepping};
use crate::cases::random::Random;
use crate::cases::tables::{job, task, DeviceRecord, Tables};
use crate::cases::valid;
use crate::oracle::request::{read, Device, Request, LONGEST_HORIZON, MOST_JOBS};
use std::collections::BTreeMap;

const MOST_TICKS: u16 = LONGEST_HORIZON as u16;

/// Of the rounds that were stepped, how many have as many jobs as there may be, the slowest device, the
/// longest horizon and the dearest work, and how many all four.
#[derive(Clone, Debug, Default, PartialEq, Eq)]
pub struct Ends {
    pub jobs: u64,
    pub slow: u64,
    pub long: u64,
    pub dear: u64,
    pub all: u64,
}

impl Ends {
    fn add(&mut self, request: &Request) {
        let some = |is_at_end: fn(&Device) -> bool| request.devices.iter().any(is_at_end);
        let jobs = request.jobs.len() == MOST_JOBS;
        let slow = some(|device| device.shut.ticks == u8::MAX.into());
        let long = request.horizon == MOST_TICKS.into();
        let dear = some(|device| device.working == u16::MAX.into());
        self.jobs += u64::from(jobs);
        self.slow += u64::from(slow);
        self.long += u64::from(long);
        self.dear += u64::from(dear);
        self.all += u64::from(jobs && slow && long && dear);
    }

    pub fn least(&self) -> u64 {
        let all = [self.jobs, self.slow, self.long, self.dear, self.all];
        all.into_iter().min().unwrap_or(0)
    }
}

/// Draws such calls and holds each outcome to the rules; the first that differs ends it.
pub fn run(
    seed: u64,
    calls: u64,
    step: impl Stepping,
) -> Result<(BTreeMap<u8, u64>, Ends), String> {
    let (mut met, mut ends) = (BTreeMap::new(), Ends::default());
    for number in 0..calls {
        let call = draw(&mut Random::new(seed, number));
        let number = call.hold(&step)?;
        *met.entry(number).or_default() += 1;
        if let (0, Ok(request)) = (number, read(&call.file)) {
            ends.add(&request);
        }
    }
    Ok((met, ends))
}

/// As many jobs as there may be, each as long as the slowest device's move, fill the longest round but for 16
/// ticks.
fn draw(random: &mut Random) -> Call {
    let (tables, mut starts) = match random.within(1, 8) {
        1 | 2 => full_round(random),
        // As much energy as there can be.
        3 => (valid::most_energy(random), vec![0]),
        _ => full_list(random),
    };
    shift(random, &mut starts);
    let places = tables.devices.len() + random.index(3);
    let lent = (0..places).map(|_| u32::from(random.u16(0, u16::MAX)) << 16 | 1);
    Call {
        file: tables.bytes(),
        starts,
        lent: lent.collect(),
    }
}

fn device(random: &mut Random, slowest: u8) -> DeviceRecord {
    let sleeping = random.pick(&[0, 0, 1, 30_000, u16::MAX - 2]);
    let most = u16::MAX - 1;
    DeviceRecord {
        transition: random.pick(&[slowest, slowest, slowest - 1, slowest / 2, 1]),
        working: u16::MAX,
        sleeping,
        moving: random.pick(&[most, sleeping + 1]),
    }
}

fn devices(random: &mut Random) -> Vec<DeviceRecord> {
    let slowest = random.pick(&[255, 255, 255, 255, 254, 127]);
    let count = random.pick(&[1, 2, 3, 8]);
    (0..count).map(|_| device(random, slowest)).collect()
}

/// Jobs in running order with pauses as far as there is room; their numbers are in any order.
fn full_list(random: &mut Random) -> (Tables, Vec<u16>) {
    let mut tables = Tables {
        horizon: random.pick(&[MOST_TICKS, MOST_TICKS, MOST_TICKS, MOST_TICKS - 1]),
        devices: devices(random),
        ..Tables::default()
    };
    let least = longest(&tables.devices);
    let jobs = random.pick(&[16, 16, 16, 16, 15, 11]);
    let mut room = tables.horizon - jobs * least;
    let mut placed = Vec::new();
    let mut at = 0;
    for _ in 0..jobs {
        let before = pause(random, &tables.devices).min(room);
        let longer = random.pick(&[0, 0, 0, 1, 200]).min(room - before);
        room -= before + longer;
        placed.push((at + before, least + longer));
        at += before + least + longer;
    }
    shuffle(random, &mut placed);
    let all = tables.all_devices();
    for &(_, running) in &placed {
        let set = random.u8(0, 255) & all;
        let record = job(0, tables.horizon, running, set);
        tables.jobs.push(record);
    }
    (tables, placed.iter().map(|&(start, _)| start).collect())
}

/// A task with as many jobs as there may be in the longest round.
fn full_round(random: &mut Random) -> (Tables, Vec<u16>) {
    let mut tables = Tables {
        devices: devices(random),
        ..Tables::default()
    };
    let period = MOST_TICKS / MOST_JOBS as u16;
    let running = random.u16(longest(&tables.devices), period);
    let set = random.u8(0, 255) & tables.all_devices();
    tables.tasks.push(task(period, running, set));
    let start = |number: u16| number * period + random.u16(0, period - running);
    (tables, (0..MOST_JOBS as u16).map(start).collect())
}

#[cfg(test)]
mod tests {
    use super::*;
    use crate::oracle::stepping::{self, outcome, stepped, Rules, RULES};

    const SEED: u64 = 9;
    const CALLS: u64 = 60;

    /// Such as only the ends tell: a time of seven bits, an energy of 27, fifteen jobs at most.
    #[test]
    fn a_stepping_that_is_wrong_at_the_ends_is_found() {
        let (met, ends) = run(SEED, CALLS, stepped).unwrap();
        assert!(met[&0] > CALLS / 2 && ends.least() > 5, "{met:?} {ends:?}");
        let short_times = |file: &[u8], starts: &[u16], lent: &[u32]| {
            let mut file = file.to_vec();
            if stepped(&file, starts, lent).number == 0 {
                for device in 0..usize::from(file[2]) {
                    file[3 + 7 * device] = (file[3 + 7 * device] & 127).max(1);
                }
            }
            let rules = Rules {
                watched: false,
                ..RULES
            };
            outcome(&file, starts, lent, &rules)
        };
        assert!(run(SEED, CALLS, short_times).is_err());
        let small_sums = |file: &[u8], starts: &[u16], lent: &[u32]| {
            let mut outcome = stepped(file, starts, lent);
            outcome.energy %= 1 << 27;
            outcome
        };
        assert!(stepping::run(SEED, CALLS, small_sums).is_ok());
        assert!(run(SEED, CALLS, small_sums).is_err());
        let few_jobs = |file: &[u8], starts: &[u16], lent: &[u32]| {
            let mut outcome = stepped(file, starts, lent);
            outcome.energy -= u32::from(outcome.number == 0 && starts.len() == MOST_JOBS);
            outcome
        };
        assert!(stepping::run(SEED, CALLS, few_jobs).is_ok());
        assert!(run(SEED, CALLS, few_jobs).is_err());
    }
}
