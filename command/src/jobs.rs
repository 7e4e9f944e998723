//! The jobs of a request, for messages and for the picture: those that are listed, or those that its
//! tasks release. What the library plans does not depend on it; the picture is held to the library's
//! margins before it is drawn.

use crate::kinds::{members, value, JOB, TASK};
use crate::tables::Tables;

#[derive(Clone, Debug, PartialEq, Eq)]
pub struct Job {
    /// The task that releases it, if one does.
    pub task: Option<usize>,
    pub release: usize,
    pub deadline: usize,
    pub running: usize,
    pub devices: Vec<usize>,
}

/// The jobs of an accepted request whose round has so many ticks, by job number.
pub fn jobs(tables: &Tables, horizon: usize) -> Vec<Job> {
    if tables.tasks.count == 0 {
        return tables.jobs.records.iter().map(|job| listed(job)).collect();
    }
    let tasks = tables.tasks.records.iter().enumerate();
    let mut jobs: Vec<Job> = tasks
        .flat_map(|(number, task)| released(number, task, horizon))
        .collect();
    // The sort is stable: of equal releases the lower task number stays in front.
    jobs.sort_by_key(|job| job.release);
    jobs
}

fn listed(record: &[u8]) -> Job {
    let number = |place| value(&JOB, record, place) as usize;
    Job {
        task: None,
        release: number(0),
        deadline: number(1),
        running: number(2),
        devices: members(value(&JOB, record, 3)).collect(),
    }
}

/// One job at each multiple of the period, due when the next is released.
fn released(task: usize, record: &[u8], horizon: usize) -> Vec<Job> {
    let number = |place| value(&TASK, record, place) as usize;
    let period = number(0).max(1);
    (0..horizon)
        .step_by(period)
        .map(|release| Job {
            task: Some(task),
            release,
            deadline: release + period,
            running: number(1),
            devices: members(value(&TASK, record, 2)).collect(),
        })
        .collect()
}
