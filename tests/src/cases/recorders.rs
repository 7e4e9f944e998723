//! Requests of a recorder's size, drawn: job lists that have a plan, and rounds of tasks.

use crate::cases::random::Random;
use crate::cases::tables::{job, task, DeviceRecord, Tables};
use crate::cases::valid::shuffle;
use crate::oracle::first::has_plan;
use crate::oracle::request::read;

/// What the devices of a recorder are drawn by: how many, and the longest transition.
#[derive(Clone, Copy, Debug)]
pub struct Fitted {
    pub devices: u64,
    pub transition: u8,
}

/// A job list: how long, how many jobs, in how much of the round they run, and how far their windows are
/// opened on either side at most, both in percent of the horizon.
#[derive(Clone, Copy, Debug)]
pub struct List {
    pub horizon: u16,
    pub jobs: u64,
    pub load: u64,
    pub window: u64,
}

/// Tasks whose periods are multiples of one, in how much of the round they run, in percent.
#[derive(Clone, Copy, Debug)]
pub struct Round {
    pub period: u16,
    pub multiples: &'static [u16],
    pub load: u64,
}

/// Powers as a sensor, a flash or a radio may have them: moving costs more than sleep and less than work.
fn device(random: &mut Random, longest: u8) -> DeviceRecord {
    let transition = random.u8(1, longest);
    let (sleeping, working) = (random.u16(0, 5), random.u16(20, 400));
    DeviceRecord {
        transition,
        working,
        sleeping,
        moving: random.u16(sleeping + 1, working - 1),
    }
}

pub fn devices(random: &mut Random, fitted: Fitted) -> Vec<DeviceRecord> {
    (0..fitted.devices)
        .map(|_| device(random, fitted.transition))
        .collect()
}

/// From one tick to twice the share that each of so many has of the load.
fn running(random: &mut Random, ticks: u16, load: u64, many: u64) -> u16 {
    let most = 2 * load * u64::from(ticks) / (100 * many);
    random.within(1, most.max(1)) as u16
}

/// A schedule is drawn, then a window is opened around each job.
pub fn list(random: &mut Random, fitted: Fitted, list: List) -> Tables {
    let List {
        horizon,
        jobs,
        load,
        window,
    } = list;
    let mut tables = Tables {
        horizon,
        devices: devices(random, fitted),
        ..Tables::default()
    };
    let mut runs: Vec<u16> = (0..jobs)
        .map(|_| running(random, horizon, load, jobs))
        .collect();
    while runs.iter().map(|&run| u64::from(run)).sum::<u64>() > horizon.into() {
        runs.iter_mut().for_each(|run| *run = (*run / 2).max(1));
    }
    let free = horizon - runs.iter().sum::<u16>();
    let mut pauses: Vec<u16> = runs.iter().map(|_| random.u16(0, free)).collect();
    pauses.sort_unstable();
    let opened = (window * u64::from(horizon) / 100) as u16;
    let mut before = 0;
    for (run, pause) in runs.into_iter().zip(pauses) {
        let start = before + pause;
        before += run;
        let release = start.saturating_sub(random.u16(0, opened));
        let deadline = (start + run + random.u16(0, opened)).min(horizon);
        // Each device with three in ten jobs.
        let uses = |random: &mut Random| u8::from(random.within(1, 10) <= 3);
        let set = (0..fitted.devices).fold(0, |set, device| set | uses(random) << device);
        tables.jobs.push(job(release, deadline, run, set));
    }
    shuffle(random, &mut tables.jobs);
    tables
}

/// Tasks with one or two devices each; drawn anew until they have a plan.
pub fn round(random: &mut Random, fitted: Fitted, round: Round) -> Tables {
    loop {
        let mut tables = Tables {
            devices: devices(random, fitted),
            ..Tables::default()
        };
        for multiple in round.multiples {
            let period = round.period * multiple;
            let many = round.multiples.len() as u64;
            let run = running(random, period, round.load, many).min(period);
            let one = 1 << random.index(fitted.devices as usize);
            let other = 1 << random.index(fitted.devices as usize);
            tables.tasks.push(task(period, run, one | other));
        }
        if read(&tables.bytes()).is_ok_and(|request| has_plan(&request)) {
            return tables;
        }
    }
}

#[cfg(test)]
mod tests {
    use super::*;

    const FITTED: Fitted = Fitted {
        devices: 4,
        transition: 20,
    };

    #[test]
    fn what_is_drawn_is_accepted_and_has_a_plan() {
        for number in 0..60 {
            let mut random = Random::new(35, number);
            let size = List {
                horizon: 500,
                jobs: 12,
                load: 50,
                window: 20,
            };
            let request = read(&list(&mut random, FITTED, size).bytes()).unwrap();
            assert_eq!((request.horizon, request.jobs.len()), (500, 12));
            assert!(has_plan(&request), "{request:?}");
            let size = Round {
                period: 50,
                multiples: &[1, 2, 4],
                load: 60,
            };
            let request = read(&round(&mut random, FITTED, size).bytes()).unwrap();
            assert_eq!((request.horizon, request.jobs.len()), (200, 7));
        }
    }
}
