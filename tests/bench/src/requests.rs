//! The requests that are raced: each some million vertices, each heavy in another place.

use outside::cases::tables::{device_a, job, task, DeviceRecord, JobRecord, Tables};

pub struct Named {
    pub name: &'static str,
    pub file: Vec<u8>,
}

fn device(transition: u8, working: u16, sleeping: u16, moving: u16) -> DeviceRecord {
    DeviceRecord {
        transition,
        working,
        sleeping,
        moving,
    }
}

/// Hardly any sums: the loop over starts.
fn many_starts() -> Tables {
    Tables {
        horizon: 600,
        devices: vec![device(3, 9, 1, 6), device(5, 7, 2, 4)],
        tasks: Vec::new(),
        jobs: (0..3)
            .map(|n| job(0, 600, 2 + 3 * n, 1 << (n % 2)))
            .collect(),
    }
}

/// In the manner of the pruning paper's Table 6 (docs/RULES.md names it): two tasks with a device
/// each.
fn two_tasks(second: u16, running: u16) -> Tables {
    Tables {
        devices: vec![device_a(); 2],
        tasks: vec![task(5, 1, 0b01), task(second, running, 0b10)],
        ..Tables::default()
    }
}

/// The longest sums over unplaced jobs, in windows that slide along.
fn sixteen_jobs() -> Tables {
    let sliding = |n: u16| -> JobRecord {
        let window = 4 - n % 2;
        let set = [0b01, 0b10, 0b11, 0b00][usize::from(n % 4)];
        job(3 * n, 3 * n + window, 1 + n % 2, set)
    };
    let jobs: Vec<JobRecord> = (0..16).map(sliding).collect();
    Tables {
        horizon: 48,
        devices: vec![device_a(), device(2, 9, 1, 4)],
        tasks: Vec::new(),
        jobs,
    }
}

/// The most sums over devices.
fn eight_devices(horizon: u16) -> Tables {
    let sets = [0x81, 0x42, 0x24, 0x18, 0x11, 0x88];
    Tables {
        horizon,
        devices: (0..8u8)
            .map(|k| device(1 + k % 2, 9 + u16::from(k), 1, 4))
            .collect(),
        tasks: Vec::new(),
        jobs: sets.map(|set| job(0, horizon, 1, set)).to_vec(),
    }
}

/// Ten jobs in any order: floors that hardly ever cut.
fn many_orders() -> Tables {
    Tables {
        horizon: 12,
        devices: vec![device_a(); 2],
        tasks: Vec::new(),
        jobs: (0..10).map(|n| job(0, 12, 1, 1 + n % 2)).collect(),
    }
}

/// On which the search for the cheapest takes seconds.
pub fn long() -> Named {
    Named {
        name: "6 jobs, 8 devices, 26 ticks",
        file: eight_devices(26).bytes(),
    }
}

/// Two jobs that want the same ticks at the end: there is no plan, which only a visit of every order
/// and start of the other four shows.
pub fn none() -> Named {
    let mut jobs = vec![job(0, 40, 1, 0b01); 4];
    jobs.extend(vec![job(42, 44, 2, 0b10); 2]);
    let tables = Tables {
        horizon: 44,
        devices: vec![device_a(); 2],
        tasks: Vec::new(),
        jobs,
    };
    Named {
        name: "6 jobs, no plan",
        file: tables.bytes(),
    }
}

/// Jobs in windows that slide along; without a plan the last two want the same ticks, which a visit
/// finds out behind every order and start of the others.
pub fn sliding(count: u16, has_plan: bool) -> Vec<u8> {
    let horizon = 2 * count + 4;
    let wanted = if has_plan { 6 } else { 5 };
    let mut jobs: Vec<JobRecord> = (0..count - 2)
        .map(|n| job(2 * n, 2 * n + 4, 1, 0b01))
        .collect();
    jobs.extend(vec![job(horizon - wanted, horizon, 3, 0b10); 2]);
    Tables {
        horizon,
        devices: vec![device_a(); 2],
        tasks: Vec::new(),
        jobs,
    }
    .bytes()
}

pub fn all() -> Vec<Named> {
    let named = |name, tables: Tables| Named {
        name,
        file: tables.bytes(),
    };
    vec![
        named("3 jobs, 2 devices, 600 ticks", many_starts()),
        named("12 jobs of tasks 5 and 7", two_tasks(7, 2)),
        named("13 jobs of tasks 5 and 8", two_tasks(8, 3)),
        named("16 jobs, 2 devices", sixteen_jobs()),
        named("6 jobs, 8 devices", eight_devices(16)),
        named("10 jobs, 2 devices, any order", many_orders()),
    ]
}

/// Of few vertices, so that a search's time is mostly what it takes to begin: the least of figures
/// (P3), eight devices over the longest round, and two requests of some hundred vertices.
pub fn small() -> Vec<Named> {
    let named = |name, tables: Tables| Named {
        name,
        file: tables.bytes(),
    };
    let few = |horizon, count| Tables {
        horizon,
        devices: vec![device_a(), device(2, 9, 1, 4), device(3, 12, 2, 5)],
        tasks: Vec::new(),
        jobs: (0..count)
            .map(|n| job(6 * n, 6 * n + 9, 2, 1 << (n % 3)))
            .collect(),
    };
    let mut wide = eight_devices(4096);
    wide.jobs = vec![job(0, 3, 1, 0x81), job(4000, 4003, 1, 0x42)];
    vec![
        named(
            "P3",
            Tables {
                horizon: 5,
                devices: vec![device_a()],
                tasks: Vec::new(),
                jobs: vec![job(0, 5, 2, 1)],
            },
        ),
        named("3 jobs, 3 devices, 24 ticks", few(24, 3)),
        named("5 jobs, 3 devices, 40 ticks", few(40, 5)),
        named("2 jobs, 8 devices, 4,096 ticks", wide),
    ]
}

#[cfg(test)]
mod tests {
    use super::*;
    use outside::oracle::request::read;
    use outside::oracle::visit::visit;
    use outside::rivals::{anew, carried, lean, shaped};

    /// The race is about these vertices: the plain searches must count and find what the oracle's
    /// visit does, on the very requests that are raced.
    #[test]
    fn the_plain_searches_agree_with_the_visit_on_every_request() {
        for request in all() {
            let found = anew::search(&request.file, u32::MAX);
            assert_eq!(carried::search(&request.file, u32::MAX), found);
            assert_eq!(shaped::search(&request.file, u32::MAX), found);
            assert_eq!(lean::search(&request.file, u32::MAX), found);
            let visited = visit(&read(&request.file).unwrap(), u64::MAX);
            assert_eq!(u64::from(found.count), visited.count, "{}", request.name);
            assert_eq!(Some(found.energy.into()), visited.best, "{}", request.name);
            assert!(
                (2_000_000..=20_000_000).contains(&found.count),
                "{}",
                request.name
            );
        }
    }
}
