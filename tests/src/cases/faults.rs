//! Faults put into a table on purpose, one for each refusal number, at the ends of what is allowed.
//!
//! Bytes changed by chance rarely hit a number like 8 or 13, and hardly ever hit it by one.

use crate::cases::damage;
use crate::cases::random::Random;
use crate::cases::tables::{job, task, DeviceRecord, JobRecord, Tables, TaskRecord};
use crate::cases::valid;

/// The numbers that a table can be given. 1 and 2 are about the file's length.
pub const NUMBERS: [u8; 11] = [3, 4, 5, 6, 7, 8, 9, 10, 11, 12, 13];

/// Puts a fault into the tables. They may have another already, which then may decide.
pub fn put(random: &mut Random, tables: &mut Tables, number: u8) {
    match number {
        3 => {
            while tables.devices.len() < 9 + usize::from(random.one_in(9)) {
                tables.devices.push(valid::device(random));
            }
        }
        4 => a_device(random, tables).transition = 0,
        5 => bad_powers(random, tables),
        6 => {
            while tables.tasks.len() < 9 {
                tables.tasks.push(task(1, 1, 0));
            }
        }
        7 => a_task(random, tables).period = random.pick(&[0, 4097, 8192, 65_535]),
        8 => bad_running_time(random, tables),
        9 => bad_device_set(random, tables),
        10 => bad_horizon(random, tables),
        11 => tasks_and_more(random, tables),
        12 => too_many_jobs(random, tables),
        13 => bad_job(random, tables),
        _ => unreachable!("no fault of a table has number {number}"),
    }
}

/// The file of the tables, with a fault that is put there or damaged without knowing how.
pub fn damaged(random: &mut Random, mut tables: Tables) -> Vec<u8> {
    match random.within(1, 6) {
        1 => damage::change(random, tables.bytes()),
        2 => damage::cut_short(random, tables.bytes()),
        3 => damage::add(random, tables.bytes()),
        _ => {
            let number = random.pick(&NUMBERS);
            put(random, &mut tables, number);
            tables.bytes()
        }
    }
}

/// One of the devices; a table without any is given one.
fn a_device<'a>(random: &mut Random, tables: &'a mut Tables) -> &'a mut DeviceRecord {
    if tables.devices.is_empty() {
        tables.devices.push(valid::device(random));
    }
    let place = random.index(tables.devices.len());
    &mut tables.devices[place]
}

fn a_task<'a>(random: &mut Random, tables: &'a mut Tables) -> &'a mut TaskRecord {
    if tables.tasks.is_empty() {
        tables.tasks.push(task(6, 2, 0));
    }
    let place = random.index(tables.tasks.len());
    &mut tables.tasks[place]
}

fn a_job<'a>(random: &mut Random, tables: &'a mut Tables) -> &'a mut JobRecord {
    if tables.jobs.is_empty() {
        tables.jobs.push(job(0, 1, 1, 0));
    }
    let place = random.index(tables.jobs.len());
    &mut tables.jobs[place]
}

/// Moving or working at the power of sleep is the nearest fault; below it, the farthest.
fn bad_powers(random: &mut Random, tables: &mut Tables) {
    let choice = random.within(1, 4);
    let device = a_device(random, tables);
    match choice {
        1 => device.moving = device.sleeping,
        2 => device.working = device.sleeping,
        3 => std::mem::swap(&mut device.moving, &mut device.sleeping),
        _ => std::mem::swap(&mut device.working, &mut device.sleeping),
    }
}

fn bad_running_time(random: &mut Random, tables: &mut Tables) {
    let choice = random.within(1, 3);
    let task = a_task(random, tables);
    task.running = match choice {
        1 => 0,
        2 => task.period.saturating_add(1),
        _ => 65_535,
    };
}

/// The set may name the first device that is missing, or the last one there can be.
fn bad_device_set(random: &mut Random, tables: &mut Tables) {
    tables.devices.truncate(7);
    let first = tables.devices.len() as u8;
    let extra = 1 << random.pick(&[first, 7]);
    if tables.jobs.is_empty() && !tables.tasks.is_empty() {
        a_task(random, tables).devices |= extra;
    } else {
        a_job(random, tables).devices |= extra;
    }
}

/// The common multiples pass 16 bits, some of them so that 16 bits would wrap into the limits.
fn bad_horizon(random: &mut Random, tables: &mut Tables) {
    if tables.tasks.is_empty() {
        tables.horizon = random.pick(&[0, 4097, 4352, 32_768, 65_535]);
        return;
    }
    let periods: &[u16] = match random.within(1, 4) {
        1 => &[4095, 4096],
        2 => &[2640, 2000],
        3 => &[4096, 17],
        _ => &[4093, 4091, 4079, 4073, 4057, 4051, 4049, 4027],
    };
    tables.tasks = periods.iter().map(|&period| task(period, 1, 0)).collect();
}

/// The job records may be there or not: 11 is decided by the count alone.
fn tasks_and_more(random: &mut Random, tables: &mut Tables) {
    a_task(random, tables);
    if random.one_in(2) {
        tables.horizon = tables.horizon.max(random.pick(&[1, 12, 256, 65_535]));
    } else {
        a_job(random, tables);
    }
}

fn too_many_jobs(random: &mut Random, tables: &mut Tables) {
    if tables.tasks.is_empty() {
        let count = random.pick(&[17, 17, 18, 255]);
        while tables.jobs.len() < count {
            tables.jobs.push(job(0, 1, 1, 0));
        }
    } else {
        let short = random.pick(&[1, 2, 7]);
        tables.tasks = vec![task(short, 1, 0), task(16 * short, 1, 0)];
    }
}

/// The last two have a + c past 16 bits, where a sum that wraps would let them through.
fn bad_job(random: &mut Random, tables: &mut Tables) {
    let horizon = tables.horizon;
    let choice = random.within(1, 6);
    let job = a_job(random, tables);
    match choice {
        1 => job.running = 0,
        2 => job.deadline = horizon.saturating_add(1),
        3 => job.running = job.deadline.saturating_sub(job.release).saturating_add(1),
        4 => job.release = job.deadline,
        5 => (job.release, job.running) = (65_535, 2),
        _ => (job.release, job.running) = (32_768, 32_769),
    }
}

#[cfg(test)]
mod tests {
    use super::*;
    use crate::cases::tables::device_a;
    use crate::oracle::request::read;

    fn refusals(tables: &Tables, number: u8) -> Vec<Result<(), u8>> {
        let refusal = |stream: u64| {
            let mut spoilt = tables.clone();
            put(&mut Random::new(1, stream), &mut spoilt, number);
            read(&spoilt.bytes()).map(|_| ())
        };
        (0..60).map(refusal).collect()
    }

    /// A fault alone in a table is refused by its own number: the reader and the faults were written
    /// apart, so this holds each to the other.
    #[test]
    fn each_fault_alone_is_refused_by_its_number() {
        let listed = Tables {
            horizon: 9,
            devices: vec![device_a(); 2],
            tasks: Vec::new(),
            jobs: vec![job(0, 5, 2, 1), job(3, 9, 1, 2)],
        };
        let periodic = Tables {
            devices: vec![device_a(); 2],
            tasks: vec![task(4, 1, 1), task(6, 2, 3)],
            ..Tables::default()
        };
        assert!(read(&listed.bytes()).is_ok() && read(&periodic.bytes()).is_ok());
        for number in [3, 4, 5, 9, 10, 12, 13] {
            assert_eq!(refusals(&listed, number), [Err(number); 60]);
        }
        for number in [3, 4, 5, 6, 7, 8, 9, 10, 11, 12] {
            assert_eq!(refusals(&periodic, number), [Err(number); 60]);
        }
    }
}
