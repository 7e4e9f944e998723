//! A plan: everything that the library says of start times.

use crate::calls::planner::{self, Refused, Rows};
use crate::names::{column, Names};
use std::fmt::Write;

/// How start times came to be.
#[derive(Clone, Copy, Debug, PartialEq, Eq)]
pub enum Origin {
    /// Whoever asks has given them.
    Given,
    /// They are those of least energy.
    Least,
    /// They are too, and so many vertices were counted till that was certain.
    Counted(u32),
}

pub struct Plan {
    pub energy: u32,
    pub origin: Origin,
    pub starts: Vec<u16>,
    pub margins: Vec<i32>,
    pub rows: Vec<Vec<u8>>,
}

impl Plan {
    /// The plan of feasible start times.
    pub fn of_starts(file: &[u8], starts: &[u16], origin: Origin) -> Result<Plan, Refused> {
        let Rows { energy, rows } = planner::rows(file, starts)?;
        Ok(Plan {
            energy,
            origin,
            starts: starts.to_vec(),
            margins: planner::margins(file, starts)?,
            rows,
        })
    }

    /// One that was counted, without names and units, as the printing program prints it, to the byte.
    pub fn text(&self, names: &Names, as_runs: bool) -> String {
        let mut text = energy_line(self.energy, names);
        if let Origin::Counted(count) = self.origin {
            let _ = writeln!(text, "vertices {count}");
        }
        let jobs = job_lines(&self.starts, &self.margins, names);
        text + &jobs + &row_lines(&self.rows, names, as_runs)
    }
}

pub fn energy_line(energy: u32, names: &Names) -> String {
    format!("energy {}\n", names.units.energy(energy.into()))
}

pub fn job_lines(starts: &[u16], margins: &[i32], names: &Names) -> String {
    let called = column(&names.jobs, starts.len());
    let mut text = String::new();
    for (job, (start, margin)) in starts.iter().zip(margins).enumerate() {
        let start = names.units.ticks((*start).into());
        let margin = names.units.ticks((*margin).into());
        let _ = writeln!(
            text,
            "job {job}{} start {start} margin {margin}",
            called[job]
        );
    }
    text
}

/// A line for each device: its letters, or its runs of the same letter.
pub fn row_lines(rows: &[Vec<u8>], names: &Names, as_runs: bool) -> String {
    let called = column(&names.devices, rows.len());
    let mut text = String::new();
    for (device, row) in rows.iter().enumerate() {
        let row = match as_runs {
            true => runs(row),
            false => String::from_utf8_lossy(row).into_owned(),
        };
        let _ = writeln!(text, "device {device}{} {row}", called[device]);
    }
    text
}

/// As `W×12 D×3 S×40`.
fn runs(row: &[u8]) -> String {
    let runs = row.chunk_by(|one, next| one == next);
    let runs: Vec<String> = runs
        .map(|run| format!("{}×{}", run[0] as char, run.len()))
        .collect();
    runs.join(" ")
}

#[cfg(test)]
mod tests {
    use super::*;

    #[test]
    fn runs_are_letters_and_how_many() {
        assert_eq!(runs(b"WWWDSSU"), "W×3 D×1 S×2 U×1");
        assert_eq!(runs(b"1"), "1×1");
    }
}
