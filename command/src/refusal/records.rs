//! What is wrong with a record of a file.

use super::plural;
use crate::kinds::{members, value, Kind, JOB, TASK};
use crate::place::{File, Part, Place};

/// What is wrong with the record at a place, by its own numbers.
pub fn fault(number: u8, file: &File, place: &Place) -> Option<String> {
    let record = file.record(place)?;
    let (horizon, device_count) = (file.horizon(), file.device_count());
    let has_tasks = file.task_count() > 0;
    let task = |field| value(&TASK, record, field);
    let job = |field| value(&JOB, record, field);
    let count = record.first().copied().unwrap_or(0);
    Some(match (number, place.part) {
        (1, _) => {
            let (there, all) = (record.len(), place.to - place.from);
            format!(
                "the file ends here, with {there} of {all} {}",
                plural(all, "byte")
            )
        }
        (2, Part::Tail) => {
            let more = record.len();
            format!("{more} {} after the last section", plural(more, "byte"))
        }
        (3, Part::DeviceCount) => format!("{} devices, at most 8", counted(count)),
        (4, Part::Device(_)) => no_time(file.kind, record)?,
        (5, Part::Device(_)) => powers(file.kind, record)?,
        (26, Part::Device(_)) => level_count(file.kind, record)?,
        (6, Part::TaskCount) => format!("{} tasks, at most 8", counted(count)),
        (7, Part::Task(_)) => format!("period {} is outside 1 to 4096", task(0)),
        (8, Part::Task(_)) if task(1) == 0 => "running time 0".to_string(),
        (8, Part::Task(_)) => format!("running time {} > period {}", task(1), task(0)),
        (9, Part::Task(_)) => missing_device(task(2), device_count)?,
        (9, Part::Job(_)) => missing_device(job(3), device_count)?,
        (10, Part::JobCount) if horizon > 0 => format!("horizon {horizon} is outside 1 to 4096"),
        (10, Part::JobCount) if has_tasks => {
            "the periods have no common multiple up to 4096".to_string()
        }
        (10, Part::JobCount) => "no horizon and no tasks".to_string(),
        (11, Part::JobCount) if horizon > 0 => format!("tasks and a horizon, {horizon}"),
        (11, Part::JobCount) => format!("tasks and {count} {}", plural(usize::from(count), "job")),
        (12, Part::JobCount) if count > 0 => format!("{} jobs, at most 16", counted(count)),
        (12, Part::JobCount) => "the tasks release more than 16 jobs".to_string(),
        (13, Part::Job(_)) if job(2) == 0 => "running time 0".to_string(),
        (13, Part::Job(_)) if job(0) + job(2) > job(1) => {
            let (release, deadline, running) = (job(0), job(1), job(2));
            format!("release {release} + running time {running} > deadline {deadline}")
        }
        (13, Part::Job(_)) => format!("deadline {} > horizon {horizon}", job(1)),
        _ => return None,
    })
}

/// A count of a file; that of a text may be larger than the byte that it is looked at with.
fn counted(count: u8) -> String {
    match count {
        u8::MAX => "255 or more".to_string(),
        count => count.to_string(),
    }
}

/// The first time that is 0.
fn no_time(kind: &Kind, record: &[u8]) -> Option<String> {
    let mut times = kind.times(record).into_iter();
    let (name, _) = times.find(|(_, ticks)| *ticks == 0)?;
    Some(format!("a {name} of 0"))
}

fn level_count(kind: &Kind, record: &[u8]) -> Option<String> {
    let figures = kind.figures(record);
    let (_, count) = figures.into_iter().find(|(name, _)| *name == "levels")?;
    Some(match count {
        0 => "0 levels, at least 1".to_string(),
        count => format!("{count} levels, at most 4"),
    })
}

/// The first power that is not above that of the sleep below it, by the letters whose powers they are:
/// moving and work stand above the first level, and each level above the next.
fn powers(kind: &Kind, record: &[u8]) -> Option<String> {
    let levels = kind.levels(record);
    let first = *levels.first()?;
    let moves = b"UDW".iter().map(|&letter| (letter, first));
    let falls = levels.windows(2).map(|pair| (pair[0], pair[1]));
    moves.chain(falls).find_map(|(above, below)| {
        let (name, power) = kind.named_power(record, above)?;
        let (asleep, least) = kind.named_power(record, below)?;
        (power <= least).then(|| format!("{asleep} {least} is not below {name} {power}"))
    })
}

fn missing_device(set: u32, devices: u32) -> Option<String> {
    let missing = members(set).find(|&device| device as u32 >= devices)?;
    let noun = plural(devices as usize, "device");
    Some(format!(
        "names device {missing}, and the request has {devices} {noun}"
    ))
}
