//! What is wrong with start times, and with a request that is stepped through.

use super::{failure, meaning, plain, plural, words};
use crate::calls::planner::Refused;
use crate::failure::Failure;
use crate::jobs::Job;
use crate::names::{called, Names};
use crate::tables::Tables;

/// A refusal of start times for an accepted request.
pub fn of_starts(refused: Refused, jobs: &[Job], starts: &[u16], names: &Names) -> Failure {
    let Refused { number, job, .. } = refused;
    if number == 14 {
        let (given, wanted) = (starts.len(), jobs.len());
        let words = format!(
            "{given} start {} for {wanted} {}",
            plural(given, "time"),
            plural(wanted, "job")
        );
        return failure(number, None, words);
    }
    let words = starts_fault(number, job, jobs, starts, names);
    failure(
        number,
        Some(called("job", job, names.job(job))),
        words.unwrap_or_else(|| meaning(number).to_string()),
    )
}

fn starts_fault(
    number: u8,
    at: usize,
    jobs: &[Job],
    starts: &[u16],
    names: &Names,
) -> Option<String> {
    let (job, start) = (jobs.get(at)?, usize::from(*starts.get(at)?));
    let Job {
        release,
        deadline,
        running,
        ..
    } = job;
    match number {
        16 => Some(format!("start {start} < release {release}")),
        17 if start + running > *deadline => Some(format!(
            "start {start} + running time {running} > deadline {deadline}"
        )),
        17 => Some(format!(
            "in the order of the given starts it cannot end by its deadline {deadline}"
        )),
        18 => {
            let runs = |number: usize| -> Option<(usize, usize)> {
                let start = usize::from(*starts.get(number)?);
                Some((start, start + jobs.get(number)?.running))
            };
            let (from, to) = runs(at)?;
            let meets = |other: &usize| {
                *other != at && runs(*other).is_some_and(|(start, end)| start < to && from < end)
            };
            let other = (0..jobs.len()).find(meets)?;
            let (other_from, other_to) = runs(other)?;
            let other = called("job", other, names.job(other));
            Some(format!(
                "runs from {from} to {to} and overlaps {other}, from {other_from} to {other_to}"
            ))
        }
        _ => None,
    }
}

/// 24 or 25: a request that is not stepped through.
pub fn of_steps(number: u8, tables: &Tables, jobs: &[Job], names: &Names) -> Failure {
    let found = match number {
        24 => too_short(tables, jobs, names),
        _ => not_stepped(tables, names),
    };
    found.map_or_else(|| plain(number), |said| words(number, said))
}

/// The first job that is over before some device has moved.
fn too_short(tables: &Tables, jobs: &[Job], names: &Names) -> Option<String> {
    let times = |record: &Vec<u8>| {
        tables
            .kind
            .times(record)
            .into_iter()
            .map(|(_, ticks)| ticks)
    };
    let slow = |job: &Job| {
        let mut devices = tables.devices.records.iter().enumerate();
        let is_slow = |ticks: &u32| *ticks as usize > job.running;
        devices.find_map(|(device, record)| Some((device, times(record).find(is_slow)?)))
    };
    let mut jobs = jobs.iter().enumerate();
    let (number, job, (device, ticks)) =
        jobs.find_map(|(number, job)| Some((number, job, slow(job)?)))?;
    let job_name = called("job", number, names.job(number));
    let device_name = called("device", device, names.device(device));
    Some(format!(
        "{}: {job_name} runs for {}, and {device_name} takes {ticks}",
        meaning(24),
        job.running
    ))
}

/// What keeps the devices from being stepped.
fn not_stepped(tables: &Tables, names: &Names) -> Option<String> {
    let kind = tables.kind;
    if kind.number != 1 {
        let number = kind.number;
        return Some(format!(
            "stepping is for devices of kind 1, and the request is of kind {number}"
        ));
    }
    let mut devices = tables.devices.records.iter().enumerate();
    devices.find_map(|(device, record)| {
        let (at_work, working) = kind.named_power(record, b'W')?;
        let (on_the_way, moving) = kind.named_power(record, b'U')?;
        let name = called("device", device, names.device(device));
        (moving >= working).then(|| {
            format!(
                "{name}: stepping is for devices that cost less to move than at work: \
                 {on_the_way} {moving} is not below {at_work} {working}"
            )
        })
    })
}
