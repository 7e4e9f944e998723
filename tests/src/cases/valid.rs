//! Random requests whose tables keep all the rules of the file.

use crate::cases::random::Random;
use crate::cases::tables::{job, task, DeviceRecord, JobRecord, Tables};

/// Small powers make equal energies likely, so that "the first of the least" decides often. Large
/// ones reach the ends of the 16 bits. Moving costs less than work, as much, or more.
pub fn device(random: &mut Random) -> DeviceRecord {
    let transition = transition(random);
    let small = random.u16(0, 3);
    let (sleeping, moving, working) = match random.within(1, 12) {
        1 => (random.u16(0, 60_000), random.u16(60_001, 65_534), 65_535),
        2 => (random.pick(&[0, 65_533]), 65_534, 65_535),
        3 => (random.u16(0, 60_000), 65_535, random.u16(60_001, 65_535)),
        4..=7 => {
            let moving = small + random.u16(1, 4);
            (small, moving, moving + random.u16(1, 5))
        }
        8 | 9 => dear(random, small),
        _ => tied(random, transition, small),
    };
    DeviceRecord {
        transition,
        working,
        sleeping,
        moving,
    }
}

/// Moving costs as much as work, or more.
fn dear(random: &mut Random, sleeping: u16) -> (u16, u16, u16) {
    let working = sleeping + random.u16(1, 8);
    (sleeping, working + random.u16(0, 9), working)
}

/// The powers of a device for which some gap costs the same slept and worked through: over the power of
/// sleep, moving in two transitions comes to as much as work in the whole gap.
fn tied(random: &mut Random, transition: u8, sleeping: u16) -> (u16, u16, u16) {
    let moves = 2 * u16::from(transition);
    let gap = moves + random.u16(0, 4);
    let common = (1..=moves)
        .filter(|n| moves % n == 0 && gap % n == 0)
        .max()
        .unwrap_or(1);
    let times = random.u16(1, 3);
    (
        sleeping,
        sleeping + times * (gap / common),
        sleeping + times * (moves / common),
    )
}

/// Mostly short against the gaps, sometimes longer than any gap can be.
fn transition(random: &mut Random) -> u8 {
    match random.within(1, 8) {
        1..=4 => 1,
        5 | 6 => random.u8(2, 3),
        7 => random.u8(4, 12),
        _ => random.pick(&[13, 40, 255]),
    }
}

fn devices(random: &mut Random) -> Vec<DeviceRecord> {
    let count = if random.one_in(10) {
        random.within(4, 8)
    } else {
        random.within(0, 3)
    };
    (0..count).map(|_| device(random)).collect()
}

/// A device set that names only devices the file has.
fn device_set(random: &mut Random, tables: &Tables) -> u8 {
    random.u8(0, 255) & tables.all_devices()
}

/// A job with a window anywhere in the horizon, one in three as wide as can be.
fn any_job(random: &mut Random, tables: &Tables, longest: u16) -> JobRecord {
    let horizon = tables.horizon;
    let running = random.u16(1, longest.min(horizon));
    let (release, deadline) = if random.one_in(3) {
        (0, horizon)
    } else {
        let release = random.u16(0, horizon - running);
        (release, random.u16(release + running, horizon))
    };
    job(release, deadline, running, device_set(random, tables))
}

/// A job list that a listing can write out.
pub fn job_list(random: &mut Random) -> Tables {
    let mut tables = Tables {
        horizon: random.u16(1, 14),
        devices: devices(random),
        ..Tables::default()
    };
    let longest = random.pick(&[1, 2, 4]);
    for _ in 0..random.within(0, 5) {
        let job = any_job(random, &tables, longest);
        tables.jobs.push(job);
    }
    tables
}

/// A job list that no listing can write out, with some room in most windows.
pub fn wide_list(random: &mut Random) -> Tables {
    let mut tables = Tables {
        horizon: random.u16(12, 30),
        devices: devices(random),
        ..Tables::default()
    };
    for _ in 0..random.within(5, 8) {
        let job = any_job(random, &tables, 4);
        tables.jobs.push(job);
    }
    tables
}

/// A job list with devices that are dear to move, so that a gap that has room may be worked through. Most
/// of them have a gap that costs the same either way.
pub fn dear_list(random: &mut Random) -> Tables {
    let mut tables = Tables {
        horizon: random.u16(4, 14),
        devices: (0..random.within(1, 3))
            .map(|_| dear_device(random))
            .collect(),
        ..Tables::default()
    };
    for _ in 0..random.within(0, 4) {
        let job = any_job(random, &tables, 2);
        tables.jobs.push(job);
    }
    tables
}

/// Its moves are short, so that gaps have room for them.
fn dear_device(random: &mut Random) -> DeviceRecord {
    let transition = random.pick(&[1, 1, 1, 2, 2, 3]);
    let sleeping = random.u16(0, 3);
    let (sleeping, moving, working) = if random.one_in(4) {
        dear(random, sleeping)
    } else {
        tied(random, transition, sleeping)
    };
    DeviceRecord {
        transition,
        working,
        sleeping,
        moving,
    }
}

/// Periodic tasks. The short periods divide each other often enough to stay under 17 jobs.
pub fn task_list(random: &mut Random) -> Tables {
    let mut tables = Tables {
        devices: devices(random),
        ..Tables::default()
    };
    for _ in 0..random.within(1, 4) {
        let period = random.pick(&[1, 2, 3, 4, 4, 5, 6, 6, 8, 9, 10, 12, 15]);
        let running = random.u16(1, (period / 2).max(1));
        let set = device_set(random, &tables);
        tables.tasks.push(task(period, running, set));
    }
    tables
}

/// A round of tasks whose devices are like those of `dear_list`; in one of three a device is in no set.
pub fn dear_round(random: &mut Random) -> Tables {
    let mut tables = Tables {
        devices: (0..random.within(1, 3))
            .map(|_| dear_device(random))
            .collect(),
        ..Tables::default()
    };
    let used = if random.one_in(3) { 0xFE } else { 0xFF };
    for _ in 0..random.within(1, 3) {
        let period = random.pick(&[4, 5, 6, 6, 8, 10, 12]);
        let running = random.u16(1, (period / 3).max(1));
        let set = device_set(random, &tables) & used;
        tables.tasks.push(task(period, running, set));
    }
    tables
}

/// Windows with hardly any room, many of them in each other's way.
pub fn tight_list(random: &mut Random) -> Tables {
    let mut tables = Tables {
        horizon: random.u16(6, 14),
        devices: devices(random),
        ..Tables::default()
    };
    for _ in 0..random.within(2, 5) {
        let running = random.u16(1, 3);
        let release = random.u16(0, tables.horizon - running);
        let deadline = (release + running + random.u16(0, 2)).min(tables.horizon);
        let set = device_set(random, &tables);
        tables.jobs.push(job(release, deadline, running, set));
    }
    tables
}

/// Loose jobs, and at the end of the horizon two that want the same tick. Cut A looks at one job at
/// a time, so no vertex near the root shows that there is no schedule.
pub fn hopeless_list(random: &mut Random, loose: u64, room: u16) -> Tables {
    let mut tables = Tables {
        horizon: room + 1,
        devices: devices(random),
        ..Tables::default()
    };
    for _ in 0..loose {
        let set = device_set(random, &tables);
        tables.jobs.push(job(0, room, 1, set));
    }
    for _ in 0..2 {
        let place = random.index(tables.jobs.len() + 1);
        let set = device_set(random, &tables);
        tables.jobs.insert(place, job(room, room + 1, 1, set));
    }
    tables
}

/// More orders than the budget has vertices: ten loose jobs placed without gaps stand in 10! orders.
/// No floor cuts any of them, since each leaves one gap after the last job, long enough to sleep.
pub fn loose_list(random: &mut Random) -> Tables {
    let count = random.u16(10, 16);
    let mut tables = Tables {
        horizon: count + random.u16(2, 8),
        devices: vec![device(random)],
        ..Tables::default()
    };
    tables.devices[0].transition = 1;
    if random.one_in(2) {
        tables.devices.push(device(random));
    }
    for _ in 0..count {
        let set = random.u8(0, 255) & tables.all_devices() | 1;
        tables.jobs.push(job(0, tables.horizon, 1, set));
    }
    tables
}

/// The longest horizon, one or two jobs with narrow windows.
pub fn long_list(random: &mut Random) -> Tables {
    let mut tables = Tables {
        horizon: random.pick(&[4095, 4096, 4096]),
        devices: (0..random.within(0, 2)).map(|_| device(random)).collect(),
        ..Tables::default()
    };
    for _ in 0..random.within(1, 2) {
        let longest = random.pick(&[3, 600, 4090]);
        let running = random.u16(1, longest);
        let latest = tables.horizon - running;
        let release = latest - random.within(0, latest.into()) as u16;
        let deadline = (release + running + random.u16(0, 3)).min(tables.horizon);
        let set = device_set(random, &tables);
        tables.jobs.push(job(release, deadline, running, set));
    }
    tables
}

/// As many jobs as there may be, one slot after another, a few of them with room in it.
pub fn crowded_list(random: &mut Random) -> Tables {
    let mut tables = Tables {
        devices: (0..random.pick(&[0, 1, 2, 8]))
            .map(|_| device(random))
            .collect(),
        ..Tables::default()
    };
    let (mut time, mut room) = (0, 7);
    for _ in 0..random.pick(&[15, 16, 16, 16]) {
        let running = random.u16(1, 3);
        let release = time + random.u16(0, 3);
        let slack = random.u16(0, 2).min(room);
        room -= slack;
        let deadline = release + running + slack;
        let set = device_set(random, &tables);
        tables.jobs.push(job(release, deadline, running, set));
        time = if random.one_in(4) {
            release + running
        } else {
            deadline
        };
    }
    shuffle(random, &mut tables.jobs);
    let last = tables.jobs.iter().map(|job| job.deadline).max();
    tables.horizon = last.unwrap_or(0) + random.u16(0, 9);
    tables
}

/// Job numbers must not say anything about the running order.
pub fn shuffle(random: &mut Random, jobs: &mut [JobRecord]) {
    for place in (1..jobs.len()).rev() {
        jobs.swap(place, random.index(place + 1));
    }
}

/// All eight devices, each used or not.
pub fn many_devices(random: &mut Random) -> Tables {
    let mut tables = Tables {
        horizon: random.u16(4, 12),
        devices: (0..8).map(|_| device(random)).collect(),
        ..Tables::default()
    };
    for _ in 0..random.within(1, 3) {
        let job = any_job(random, &tables, 3);
        tables.jobs.push(job);
    }
    tables
}

/// The most energy that a plan can have: everything works throughout.
pub fn most_energy(random: &mut Random) -> Tables {
    let mut greedy = device(random);
    (greedy.working, greedy.moving) = (65_535, random.pick(&[65_534, 65_535]));
    greedy.sleeping = random.u16(0, 65_533);
    Tables {
        horizon: 4096,
        devices: vec![greedy; 8],
        tasks: Vec::new(),
        jobs: vec![job(0, 4096, 4096, 0xFF)],
    }
}

/// Tasks at the limits: the longest horizon, and as many jobs as there may be.
pub fn long_tasks(random: &mut Random) -> Tables {
    let tasks = match random.within(1, 4) {
        1 => vec![task(4096, 4096 - random.u16(0, 9), 1)],
        2 => vec![task(4096, 1, 0), task(512, 512, 1)],
        3 => vec![task(1, 1, 1), task(15, 1, 0)],
        _ => vec![task(2, 1, 1), task(random.pick(&[12, 24]), 1, 0)],
    };
    Tables {
        devices: vec![device(random)],
        tasks,
        ..Tables::default()
    }
}
