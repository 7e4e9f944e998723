//! The oracle itself, held to the figures (tests/figures.txt), and to a few that are no outcome of an
//! operation.

use crate::cases::figures::{all, Answer, Call, Figure, Operation};
use crate::cases::tables::{device_a, job, task, DeviceRecord, Tables};
use crate::oracle::expect::{search, text};
use crate::oracle::judge::judge;
use crate::oracle::listing::uses;
use crate::oracle::request::{read, Device, Request};
use crate::oracle::rows::{row_given, Use};
use crate::oracle::sheets::{self, Made};
use crate::oracle::visit::visit_by;
use crate::oracle::writing::{written, Given, Written};
use crate::oracle::{catalogue, first, mend, possible, stepping};

/// The answer, what is written to the output, and of mending what is written to the list of moves.
type Outcome = (Answer, Vec<u8>, Vec<u8>);

/// As many start times as any request takes, and what a place holds that is not written to.
const PLACES: [u16; 16] = [0xAAAA; 16];

fn refused(number: u8, job: usize) -> Outcome {
    ((number, job as u8, 0, 0, 0), Vec::new(), Vec::new())
}

fn numbers(starts: &[u8]) -> Vec<u16> {
    let pairs = starts.chunks_exact(2);
    pairs
        .map(|two| u16::from_be_bytes([two[0], two[1]]))
        .collect()
}

fn pairs(numbers: &[u16]) -> Vec<u8> {
    numbers
        .iter()
        .flat_map(|number| number.to_be_bytes())
        .collect()
}

/// The number and the eleven bytes, and the start times of as many jobs as the file has.
fn planned(file: &[u8], number: u8, result: [u8; 11], starts: &[u16]) -> Outcome {
    let answer = mend::Answer::of_result(number, &result);
    let jobs = read(file).map_or(0, |request| request.jobs.len());
    let written = if number == 0 {
        pairs(&starts[..jobs])
    } else {
        Vec::new()
    };
    (told(answer), written, Vec::new())
}

fn told(answer: mend::Answer) -> Answer {
    (
        answer.number,
        answer.job,
        answer.horizon,
        answer.energy,
        answer.count,
    )
}

/// Of start times that are one for each job: what they give, or 14.
fn with_starts(call: &Call, give: impl Fn(&Request, &[u32]) -> Outcome) -> Outcome {
    let request = match read(&call.given) {
        Ok(request) => request,
        Err(number) => return refused(number, 0),
    };
    if call.starts.len() != 2 * request.jobs.len() {
        return refused(14, 0);
    }
    let starts: Vec<u32> = numbers(&call.starts).into_iter().map(u32::from).collect();
    give(&request, &starts)
}

/// The same where they have to be feasible.
fn with_plan(call: &Call, give: impl Fn(&Request, &[u32], u64) -> Outcome) -> Outcome {
    with_starts(call, |request, starts| match judge(request, starts) {
        Ok(energy) => give(request, starts, energy),
        Err((number, job)) => refused(number, job),
    })
}

fn rows(request: &Request, starts: &[u32], energy: u64) -> Outcome {
    let row = |(number, device)| {
        let uses = uses(request, starts, number);
        row_given(request.round, device, &uses, request.horizon)
    };
    let rows: String = request.devices.iter().enumerate().map(row).collect();
    let answer = (0, 0, request.horizon as u16, energy as u32, 0);
    (answer, rows.into_bytes(), Vec::new())
}

fn file(written: Written, room: Option<usize>) -> Outcome {
    match written {
        Ok((_, file)) if room.is_some_and(|room| room < file.len()) => refused(15, 0),
        Ok((horizon, file)) => ((0, 0, horizon, 0, file.len() as u32), file, Vec::new()),
        Err(number) => refused(number, 0),
    }
}

fn sheet(made: Made) -> Outcome {
    match made {
        Ok((count, bytes)) => ((0, 0, 0, 0, count as u32), bytes, Vec::new()),
        Err(number) => refused(number, 0),
    }
}

fn searched(call: &Call) -> Outcome {
    let outcome = search(&call.given, call.budget);
    match outcome.plan {
        Some(_) if call.result < 11 => refused(15, 0),
        Some((request, schedule)) => {
            let starts: Vec<u16> = schedule.starts.iter().map(|&start| start as u16).collect();
            let count = outcome.count as u32;
            let answer = (0, 0, request.horizon as u16, schedule.energy as u32, count);
            (answer, pairs(&starts), Vec::new())
        }
        None => (
            (outcome.number, 0, 0, 0, outcome.count as u32),
            Vec::new(),
            Vec::new(),
        ),
    }
}

fn mended(call: &Call) -> Outcome {
    let given = numbers(&call.starts);
    let lent = [0xAAAA; 48];
    let (answer, starts, moved) = mend::outcome(&call.given, &given, &PLACES, &lent, mend::listed);
    if answer.number != 0 {
        return (told(answer), Vec::new(), Vec::new());
    }
    let moves = 3 * answer.count as usize;
    (
        told(answer),
        pairs(&starts[..given.len()]),
        pairs(&moved[..moves]),
    )
}

fn stepped(call: &Call) -> Outcome {
    let outcome = stepping::stepped(&call.given, &numbers(&call.starts), &[7; 8]);
    let answer = (
        outcome.number,
        outcome.job,
        outcome.horizon,
        outcome.energy,
        0,
    );
    let devices = read(&call.given).map_or(0, |request| request.devices.len());
    let spent = match outcome.number {
        0 => outcome.energies[..devices]
            .iter()
            .flat_map(|energy| energy.to_be_bytes())
            .collect(),
        _ => Vec::new(),
    };
    (answer, spent, Vec::new())
}

/// What a call has to give, by the oracle.
fn outcome(call: &Call) -> Outcome {
    let given = &call.given;
    match call.operation {
        Operation::Check => match read(given) {
            Ok(request) => ((0, 0, request.horizon as u16, 0, 0), Vec::new(), Vec::new()),
            Err(number) => refused(number, 0),
        },
        Operation::Search => searched(call),
        Operation::First => {
            let found = first::outcome(given, &PLACES, first::expected);
            planned(given, found.number, found.result, &found.starts)
        }
        Operation::Possible => {
            let found = possible::asked(given, call.budget, &PLACES);
            planned(given, found.number, found.result, &found.starts)
        }
        Operation::Rows => with_plan(call, rows),
        Operation::Margins => with_starts(call, |request, starts| {
            let margin = |(job, start): (&crate::oracle::request::Job, &u32)| job.margin(*start);
            let margins = request.jobs.iter().zip(starts).map(margin);
            let bytes = margins
                .flat_map(|margin| (margin as i32).to_be_bytes())
                .collect();
            ((0, 0, request.horizon as u16, 0, 0), bytes, Vec::new())
        }),
        Operation::Mend => mended(call),
        Operation::Step => stepped(call),
        Operation::Write => file(written(&Given::of_bytes(given)), call.room),
        Operation::Build => {
            let built = catalogue::built(&catalogue::Call {
                catalogue: call.catalogue.clone(),
                wanted: call.wanted.clone(),
                others: Given::of_bytes(given),
            });
            file(built, call.room)
        }
        Operation::ImportDevices => sheet(sheets::import_devices(given)),
        Operation::ImportJobs => sheet(sheets::import_jobs(given)),
        Operation::ExportDevices => sheet(sheets::export_devices(given)),
        Operation::ExportJobs => sheet(sheets::export_jobs(given)),
        Operation::ExportPlan => with_plan(call, |request, starts, _| {
            let line =
                |(job, &start): (&crate::oracle::request::Job, &u32)| (start, job.margin(start));
            let lines: Vec<(u32, i64)> = request.jobs.iter().zip(starts).map(line).collect();
            let text = sheets::plan_text(&lines);
            (
                (0, 0, request.horizon as u16, 0, text.len() as u32),
                text,
                Vec::new(),
            )
        }),
        Operation::Print => {
            let budget = crate::oracle::expect::BUDGET;
            let printed = text(&search(given, budget)).into_bytes();
            ((0, 0, 0, 0, 0), printed, Vec::new())
        }
    }
}

#[test]
fn figures_come_out() {
    let figures = all();
    assert!(figures.len() > 120, "{} figures", figures.len());
    let is_wrong = |figure: &&Figure| {
        outcome(&figure.call) != (figure.answer, figure.written.clone(), figure.moved.clone())
    };
    let wrong: Vec<(&str, Outcome)> = figures
        .iter()
        .filter(is_wrong)
        .map(|figure| (figure.name, outcome(&figure.call)))
        .collect();
    assert!(wrong.is_empty(), "{wrong:?}");
}

#[test]
fn p10_unfolding() {
    let request = read(
        &Tables {
            tasks: vec![task(4, 1, 0), task(6, 2, 0)],
            ..Tables::default()
        }
        .bytes(),
    )
    .unwrap();
    let column = |of: fn(&crate::oracle::request::Job) -> u32| -> Vec<u32> {
        request.jobs.iter().map(of).collect()
    };
    assert_eq!(request.horizon, 12);
    assert_eq!(column(|job| job.release), [0, 0, 4, 6, 8]);
    assert_eq!(column(|job| job.deadline), [4, 6, 8, 12, 12]);
    assert_eq!(column(|job| job.running), [1, 2, 1, 2, 1]);
}

/// Each gap of at least 2T ticks slept, whatever that costs: the least energy only while moving costs
/// less than work.
fn slept_from_2t(device: &Device, uses: &[Use], length: u32) -> u64 {
    let (shut, wake) = (device.shut, device.wake);
    let moves = shut.ticks + wake.ticks;
    let gap = |ticks: u32| match ticks.checked_sub(moves) {
        None => ticks * device.working,
        Some(asleep) => {
            shut.ticks * shut.power + wake.ticks * wake.power + asleep * device.levels[0]
        }
    };
    let (mut energy, mut at) = (0, 0);
    for &(from, to) in uses.iter().chain(&[(length, length)]) {
        energy += gap(from - at) + (to - from) * device.working;
        at = to;
    }
    energy.into()
}

/// Two devices, one of which is dear to move. With start 1 everything works, at 60. With start 2 device A
/// sleeps before it, at 56; but a floor that charges the other for sleeping too comes to 64.
#[test]
fn e6_a_floor_that_sleeps_from_2t_loses_the_best() {
    let dear = DeviceRecord {
        moving: 9,
        ..device_a()
    };
    let file = Tables {
        horizon: 6,
        devices: vec![dear, device_a()],
        tasks: Vec::new(),
        jobs: vec![job(1, 5, 2, 0b11), job(4, 6, 2, 0b11)],
    }
    .bytes();
    assert_eq!(search(&file, u32::MAX).count, 7);
    let wrong = visit_by(&read(&file).unwrap(), u64::MAX, slept_from_2t);
    assert_eq!((wrong.best, wrong.count), (Some(60), 6));
}
