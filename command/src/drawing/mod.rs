//! The picture of a round, as one SVG.

mod chart;
mod devices;
mod heights;
mod labels;
mod legend;
mod scale;
mod style;
mod svg;
mod words;

use crate::energies::{disagreement, energy};
use crate::failure::Failure;
use crate::jobs::{jobs, Job};
use crate::kinds::Kind;
use crate::names::Names;
use crate::plan::{Origin, Plan};
use crate::tables::Tables;

pub use chart::picture;
pub use style::Theme;

/// A stretch of ticks, from the first up to, not including, the second.
type Stretch = (usize, usize);

/// What is drawn of a job.
pub struct JobLine {
    pub job: Job,
    pub start: usize,
    pub margin: i32,
}

impl JobLine {
    fn runs(&self) -> Stretch {
        (self.start, self.start + self.job.running)
    }
}

/// A run of one letter in a device's row, and how high the device stands before and after it: 1 is at
/// work, and 0 at its deepest level.
#[derive(Clone, Copy, Debug, PartialEq)]
pub struct Run {
    pub letter: u8,
    pub ticks: Stretch,
    pub from: f64,
    pub to: f64,
}

/// What is drawn of a device.
pub struct DeviceLine {
    /// Its figures, as name and value.
    pub figures: Vec<(&'static str, u32)>,
    pub runs: Vec<Run>,
    pub energy: u64,
}

pub struct Round {
    pub horizon: usize,
    pub jobs: Vec<JobLine>,
    pub devices: Vec<DeviceLine>,
    pub energy: u64,
    pub origin: Origin,
    /// What the letters of sleep are.
    pub asleep: &'static str,
    pub names: Names,
}

impl Round {
    /// The round of a plan. Windows and energies are worked out from the tables, and held to the
    /// library's margins and to its energy.
    pub fn new(
        horizon: usize,
        tables: &Tables,
        plan: Plan,
        names: Names,
    ) -> Result<Round, Failure> {
        let lines = jobs(tables, horizon).into_iter();
        let lines: Vec<JobLine> = lines
            .zip(plan.starts.iter().zip(&plan.margins))
            .map(|(job, (&start, &margin))| JobLine {
                job,
                start: usize::from(start),
                margin,
            })
            .collect();
        let fits = |line: &JobLine| {
            let end = (line.runs().1 as i64) + i64::from(line.margin);
            line.job.release <= line.start && end == line.job.deadline as i64
        };
        if lines.len() != plan.starts.len() || !lines.iter().all(fits) {
            return Err(disagreement("the windows of the jobs"));
        }
        let records = tables.devices.records.iter();
        let devices: Option<Vec<DeviceLine>> = records
            .zip(&plan.rows)
            .map(|(record, row)| device_line(tables.kind, record, row))
            .collect();
        let energy = u64::from(plan.energy);
        match devices {
            Some(devices) if devices.iter().map(|device| device.energy).sum::<u64>() == energy => {
                Ok(Round {
                    horizon,
                    jobs: lines,
                    devices,
                    energy,
                    origin: plan.origin,
                    asleep: tables.kind.asleep,
                    names,
                })
            }
            _ => Err(disagreement("the energies of the devices")),
        }
    }
}

/// Nothing, if a letter of the row has no power.
fn device_line(kind: &Kind, record: &[u8], row: &[u8]) -> Option<DeviceLine> {
    Some(DeviceLine {
        figures: kind.figures(record),
        runs: heights::runs(kind, record, row)?,
        energy: energy(kind, record, row)?,
    })
}
