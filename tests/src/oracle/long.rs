//! Requests that are too long to list, of every kind, and what is known of their searches.
//!
//! A plain search without proof (`rivals::anew`), which the small cases hold to the listing and to the visit,
//! says what a search comes to that ends within a limit. Of one that does not it is known that every budget
//! up to the limit runs out.

use crate::cases::random::Random;
use crate::cases::recorders::{self, Fitted};
use crate::cases::second::apart;
use crate::cases::tables::{job, task, DeviceRecord, Tables};
use crate::cases::third::deepened;
use crate::cases::valid;
use crate::oracle::listing;
use crate::oracle::request::{read, Request};
use crate::rivals::anew;

pub use crate::rivals::Found;

/// The most vertices that are counted of most requests, and of those that are wide.
pub const LIMIT: u32 = 200_000;
pub const WIDE_LIMIT: u32 = 3_000_000;

pub fn found(file: &[u8], limit: u32) -> Found {
    anew::search(file, limit)
}

/// A request that no listing writes out, whose search takes some thousand vertices and ends within the
/// limit.
pub fn draw(random: &mut Random) -> Vec<u8> {
    draw_by(random, LIMIT, |random| {
        let tables = tables(random);
        match random.within(1, 4) {
            1 => apart(random, tables).bytes(),
            2 => deepened(random, tables).bytes(),
            _ => tables.bytes(),
        }
    })
}

/// The same of a long horizon, with wide windows and long moves.
pub fn draw_wide(random: &mut Random) -> Vec<u8> {
    draw_by(random, WIDE_LIMIT, |random| {
        let mut tables = wide(random);
        match random.within(1, 3) {
            1 => {
                let mut second = apart(random, tables);
                lengthen(random, &mut second.tables.devices);
                for shut in &mut second.shuts {
                    let long = random.u8(30, 255);
                    shut.0 = random.pick(&[shut.0, long]);
                }
                second.bytes()
            }
            2 => {
                let mut third = deepened(random, tables);
                lengthen(random, &mut third.tables.devices);
                third.bytes()
            }
            _ => {
                lengthen(random, &mut tables.devices);
                tables.bytes()
            }
        }
    })
}

fn draw_by(random: &mut Random, limit: u32, drawn: fn(&mut Random) -> Vec<u8>) -> Vec<u8> {
    const LEAST: u32 = 2_000;
    loop {
        let file = drawn(random);
        if read(&file).is_ok_and(|request| is_long(&request)) {
            let found = found(&file, limit);
            if found.number != 20 && found.count >= LEAST {
                return file;
            }
        }
    }
}

/// Moves of up to 255 ticks, for half of the devices.
fn lengthen(random: &mut Random, devices: &mut [DeviceRecord]) {
    for device in devices {
        if random.one_in(2) {
            device.transition = random.u8(30, 255);
        }
    }
}

/// More than the cases that are listed have.
fn is_long(request: &Request) -> bool {
    listing::size(request) > 100_000
}

/// Most rounds of tasks that are drawn have too many jobs, or few enough starts to be listed.
fn round(random: &mut Random) -> Tables {
    loop {
        let tables = valid::task_list(random);
        if read(&tables.bytes()).is_ok_and(|request| is_long(&request)) {
            return tables;
        }
    }
}

fn tables(random: &mut Random) -> Tables {
    match random.within(1, 6) {
        1 | 2 => round(random),
        3 => {
            let (loose, room) = (random.within(4, 6), random.u16(8, 12));
            valid::hopeless_list(random, loose, room)
        }
        _ => valid::wide_list(random),
    }
}

fn wide(random: &mut Random) -> Tables {
    let fitted = Fitted {
        devices: random.within(1, 4),
        transition: 40,
    };
    let devices = recorders::devices(random, fitted);
    let tables = Tables {
        devices,
        ..Tables::default()
    };
    match random.one_in(3) {
        true => wide_round(random, tables),
        false => wide_list(random, tables),
    }
}

/// One or two windows of up to thousands of ticks, and with them some that are narrow, or no search would end.
fn wide_list(random: &mut Random, mut tables: Tables) -> Tables {
    let mut left = 600_000;
    tables.horizon = match random.one_in(4) {
        true => 4_096,
        false => random.u16(1_000, 4_096),
    };
    for _ in 0..random.within(2, 6) {
        let running = random.u16(1, tables.horizon / 8);
        let most = u64::from(tables.horizon - running).min(left);
        let slack = random.within(1, most.min(2_500));
        left = (left / slack).max(1);
        let window = running + slack as u16;
        let release = random.u16(0, tables.horizon - window);
        let devices = random.u8(0, 255) & tables.all_devices();
        tables
            .jobs
            .push(job(release, release + window, running, devices));
    }
    tables
}

/// Every window is a whole period, and the jobs fill all of the round but for some free ticks: the more jobs, the
/// fewer of these.
fn wide_round(random: &mut Random, mut tables: Tables) -> Tables {
    let (period, others, free) = match random.within(1, 3) {
        1 => (random.u16(2_000, 4_096), 1, random.u16(200, 700)),
        2 => (random.u16(2_000, 4_096), 2, random.u16(40, 110)),
        _ => (random.u16(1_000, 2_048), 0, random.u16(40, 110)),
    };
    let share = (period - free) / (others + 1);
    for _ in 0..others {
        let running = random.u16(share / 2, share);
        let devices = random.u8(0, 255) & tables.all_devices();
        tables.tasks.push(task(period, running, devices));
    }
    // With no other it stands beside one of twice its period.
    let taken: u16 = tables.tasks.iter().map(|task| task.running).sum();
    let devices = tables.all_devices();
    if others == 0 {
        tables.tasks.push(task(period, period / 2, devices));
        tables.tasks.push(task(2 * period, period - free, 1));
    } else {
        tables
            .tasks
            .push(task(period, period - free - taken, devices));
    }
    tables
}

#[cfg(test)]
mod tests {
    use super::*;
    use crate::oracle::request::{unmarked, FileKind};
    use crate::oracle::visit::visit;

    /// Of every kind, lists and rounds, with a plan and without; and the visit counts the same.
    #[test]
    fn long_requests_are_of_every_kind() {
        let (mut kinds, mut rounds, mut none) = ([0; 3], 0, 0);
        for number in 0..60 {
            let file = draw(&mut Random::new(6, number));
            let (request, found) = (read(&file).unwrap(), found(&file, LIMIT));
            let is_second_or_third = unmarked(&file).0 != FileKind::First;
            if is_second_or_third || number % 8 == 0 {
                assert_eq!(visit(&request, u64::MAX).count, u64::from(found.count));
            }
            kinds[unmarked(&file).0 as usize] += 1;
            rounds += u32::from(request.round);
            none += u32::from(found.number == 19);
        }
        let least = kinds.into_iter().chain([rounds, none]).min();
        assert!(least > Some(3), "{kinds:?} {rounds} {none}");
    }

    /// Of every kind, lists and rounds; to the longest horizon and the longest moves, with windows of thousands
    /// of ticks.
    #[test]
    fn wide_requests_are_wide() {
        let (mut kinds, mut rounds) = ([0; 3], 0);
        let mut most = [0; 4];
        for number in 0..60 {
            let file = draw_wide(&mut Random::new(6, number));
            let (request, found) = (read(&file).unwrap(), found(&file, WIDE_LIMIT));
            kinds[unmarked(&file).0 as usize] += 1;
            rounds += u32::from(request.round);
            let window = request.jobs.iter().map(|job| job.deadline - job.release);
            let moves = request.devices.iter().map(|device| device.shut.ticks);
            let sizes = [Some(request.horizon), moves.max(), window.max()];
            let sizes = sizes.map(|size| size.unwrap_or(0));
            for (most, size) in most.iter_mut().zip(sizes.into_iter().chain([found.count])) {
                *most = size.max(*most);
            }
        }
        let least = kinds.into_iter().chain([rounds]).min();
        assert!(least > Some(3), "{kinds:?} {rounds}");
        let asked = [4_096, 255, 2_000, 1_000_000];
        let is_asked = most.iter().zip(asked).all(|(&most, asked)| most >= asked);
        assert!(is_asked, "{most:?}");
    }
}
