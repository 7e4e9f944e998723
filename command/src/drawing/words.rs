//! The words of the picture.

use super::svg::grouped;
use super::{DeviceLine, Round, Stretch};
use crate::names::called;
use crate::plan::Origin;
use crate::refusal::plural;

/// A job by its number and its name.
pub fn job_called(round: &Round, number: usize) -> String {
    called("job", number, round.names.job(number))
}

/// The same, and else the task that releases it.
pub fn job_name(round: &Round, number: usize) -> String {
    let task = round.jobs.get(number).and_then(|line| line.job.task);
    match (round.names.job(number), task) {
        (None, Some(task)) => format!("job {number}, task {task}"),
        (name, _) => called("job", number, name),
    }
}

pub fn device_name(round: &Round, number: usize) -> String {
    called("device", number, round.names.device(number))
}

/// The figures of a device, with the unit of its powers.
pub fn figures(round: &Round, device: &DeviceLine) -> String {
    let figures = device.figures.iter();
    let texts: Vec<String> = figures
        .map(|(name, value)| format!("{name} {value}"))
        .collect();
    let unit = round.names.units.power.as_deref();
    let unit = unit.map_or(String::new(), |unit| format!(" {unit}"));
    texts.join(", ") + &unit
}

/// As `ticks 3 to 8`; the last tick is one that belongs to it.
pub fn ticks((from, to): Stretch) -> String {
    if to == from + 1 {
        format!("tick {from}")
    } else {
        format!("ticks {from} to {}", to - 1)
    }
}

pub fn state(letter: u8) -> String {
    match letter {
        b'W' => "working".to_string(),
        b'D' => "going down".to_string(),
        b'U' => "coming up".to_string(),
        b'1'..=b'4' => format!("asleep at level {}", letter as char),
        _ => "asleep".to_string(),
    }
}

/// The first line: how long the round is, and what it costs.
pub fn title(round: &Round) -> String {
    let units = &round.names.units;
    let beside = |figure: String, number: u64| match figure.split_once(' ') {
        Some((_, unit)) => format!("{} {unit}", grouped(number)),
        None => grouped(number),
    };
    let horizon = round.horizon as u64;
    let time = units.time(round.horizon as i64);
    let time = time.map_or(String::new(), |time| format!(" ({time})"));
    let energy = beside(units.energy(round.energy), round.energy);
    let noun = plural(round.horizon, "tick");
    format!(
        "One round of {} {noun}{time}: energy {energy}",
        grouped(horizon)
    )
}

/// The second line: what is in it, and how the plan came to be.
pub fn subtitle(round: &Round) -> String {
    let (jobs, devices) = (round.jobs.len(), round.devices.len());
    let how = match round.origin {
        Origin::Least => "the least energy of all plans".to_string(),
        Origin::Counted(count) => format!(
            "the least energy of all plans, found with {} {}",
            grouped(u64::from(count)),
            if count == 1 { "vertex" } else { "vertices" }
        ),
        Origin::Given => "for given start times".to_string(),
    };
    format!(
        "{jobs} {} on one processor, {devices} {}; {how}",
        plural(jobs, "job"),
        plural(devices, "device")
    )
}
