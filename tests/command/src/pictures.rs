//! draw: every run of every row, every job with its window, and every energy stands in the picture
//! as the oracle has it; and the picture is a well-formed SVG whose shapes lie on its page.

use crate::floe::{same, Floe, Tried};
use crate::svg::shapes;
use outside::cases::{draw, Kind};
use outside::oracle::expect::{search, BUDGET};
use outside::oracle::listing::{uses, Schedule};
use outside::oracle::request::{unmarked, Device, FileKind, Request};
use outside::oracle::rows::row_given;
use std::collections::BTreeSet;
use std::fs;
use std::path::Path;

const SEED: u64 = 24;
const FILES: u64 = 500;

pub fn test(floe: &Floe) -> Tried {
    let mut runs = shown(floe)?;
    for number in 0..FILES {
        let case = draw(SEED, number);
        if case.kind == Kind::OverBudget {
            continue;
        }
        let Some((request, schedule)) = search(&case.file, BUDGET).plan else {
            continue;
        };
        let drawn = of_case(floe, &case.file, &request, &schedule);
        runs += drawn.map_err(|fault| format!("case {number}: {fault}"))?;
    }
    Ok(runs)
}

/// The picture of a plan: its shapes, its figures and its energies are the oracle's.
fn of_case(floe: &Floe, file: &[u8], request: &Request, schedule: &Schedule) -> Tried {
    let picture = floe.output(&["draw", "-"], file)?;
    let picture = String::from_utf8(picture).map_err(|fault| fault.to_string())?;
    let shapes = shapes(&picture)?;
    shapes.apart()?;
    let mut titles = titles_of_jobs(request, &schedule.starts);
    let mut texts = vec![grouped(schedule.energy)];
    for (device, figures) in request.devices.iter().enumerate() {
        let uses = uses(request, &schedule.starts, device);
        let row = row_given(request.round, figures, &uses, request.horizon);
        titles.extend(titles_of_row(device, &row));
        let jobs = request.jobs.iter().zip(&schedule.starts).enumerate();
        for (job, (record, &start)) in jobs.filter(|(_, (job, _))| job.uses(device)) {
            let ticks = ticks(start, start + record.running);
            titles.insert(format!("device {device}: working for job {job}, {ticks}"));
        }
        texts.push(label(file, figures));
        texts.push(grouped(energy(figures, &row)));
    }
    same(&shapes.titles, &titles, || "the shapes".to_string())?;
    let untold: Vec<String> = texts
        .into_iter()
        .filter(|text| !shapes.texts.contains(text))
        .collect();
    same(untold, Vec::new(), || {
        "texts that are not there".to_string()
    })?;
    // The same picture, but for its second line, for the same starts given.
    let starts: Vec<String> = schedule.starts.iter().map(u32::to_string).collect();
    let given = floe.output(&["draw", "-", "--starts", &starts.join(",")], file)?;
    let without = |text: &str| -> Vec<String> {
        let lines = text
            .lines()
            .filter(|line| !line.contains("on one processor"));
        lines.map(str::to_string).collect()
    };
    let given = String::from_utf8_lossy(&given);
    same(without(&given), without(&picture), || {
        "--starts".to_string()
    })?;
    Ok(2)
}

/// Every job in its window.
fn titles_of_jobs(request: &Request, starts: &[u32]) -> BTreeSet<String> {
    let jobs = request.jobs.iter().zip(starts).enumerate();
    let titles = jobs.flat_map(|(job, (record, &start))| {
        let (release, deadline) = (record.release, record.deadline);
        let ticks = ticks(start, start + record.running);
        [
            format!("job {job}: released at {release}, due at {deadline}"),
            format!("job {job} runs in {ticks}"),
        ]
    });
    titles.collect()
}

/// Every run of a row.
fn titles_of_row(device: usize, row: &str) -> Vec<String> {
    let mut from = 0;
    let runs = row.as_bytes().chunk_by(|one, next| one == next);
    let title = |run: &[u8]| {
        let state = match run[0] {
            b'W' => "working",
            b'D' => "going down",
            b'U' => "coming up",
            b'S' => "asleep",
            b'1' => "asleep at level 1",
            b'2' => "asleep at level 2",
            b'3' => "asleep at level 3",
            _ => "asleep at level 4",
        };
        let to = from + run.len() as u32;
        let title = format!("device {device}: {state}, {}", ticks(from, to));
        from = to;
        title
    };
    runs.map(title).collect()
}

fn energy(device: &Device, row: &str) -> u64 {
    let power = |letter: u8| match letter {
        b'W' => device.working,
        b'D' => device.shut.power,
        b'U' => device.wake.power,
        b'S' => device.power_at(1),
        level => device.power_at(usize::from(level - b'0')),
    };
    row.bytes().map(|letter| u64::from(power(letter))).sum()
}

/// What stands below the name of a device: the numbers of its line.
fn label(file: &[u8], device: &Device) -> String {
    let Device {
        working,
        levels,
        shut,
        wake,
        ..
    } = device;
    let powers = format!("Pw {working}, Ps {}", levels[0]);
    match unmarked(file).0 {
        FileKind::First => format!("T {}, {powers}, P0 {}", wake.ticks, wake.power),
        FileKind::Second => format!(
            "wake {}, shut {}, {powers}, Pwake {}, Pshut {}",
            wake.ticks, shut.ticks, wake.power, shut.power
        ),
        FileKind::Third => {
            let level = |(number, power): (usize, &u32)| format!(", P{number} {power}");
            let powers: String = (1..).zip(levels).map(level).collect();
            format!(
                "T {}, Pw {working}, P0 {}, levels {}{powers}",
                wake.ticks,
                wake.power,
                levels.len()
            )
        }
    }
}

/// The picture in README is what is drawn today.
fn shown(floe: &Floe) -> Tried {
    let house = Path::new(env!("CARGO_MANIFEST_DIR")).join("../..");
    let example = |name: &str| {
        let path = house.join("examples").join(name);
        path.to_string_lossy().into_owned()
    };
    let kept = fs::read(house.join("docs/plan.svg")).map_err(|fault| fault.to_string())?;
    let drawn = floe.output(&["draw", &example("table2.txt")], b"")?;
    same(drawn == kept, true, || {
        "docs/plan.svg is not what ./floe draw examples/table2.txt gives".to_string()
    })?;
    Ok(1)
}

fn ticks(from: u32, to: u32) -> String {
    if to == from + 1 {
        format!("tick {from}")
    } else {
        format!("ticks {from} to {}", to - 1)
    }
}

/// With a comma before every three digits that follow others.
fn grouped(number: u64) -> String {
    if number < 1000 {
        return number.to_string();
    }
    format!("{},{:03}", grouped(number / 1000), number % 1000)
}
