//! check, verdict, rows, step and mend.

use crate::arguments::Arguments;
use crate::calls::planner::{self, Rows, Sizes};
use crate::energies::energies;
use crate::failure::Failure;
use crate::names::column;
use crate::options::RUNS;
use crate::plan::{energy_line, job_lines, row_lines};
use crate::request::Request;
use crate::source::Source;
use std::fmt::Write;

pub fn check(mut arguments: Arguments) -> Result<Vec<u8>, Failure> {
    let request = Source::alone(&mut arguments)?.open()?;
    let Sizes {
        horizon,
        devices,
        tasks,
        jobs,
    } = request.sizes()?;
    let horizon = request.written_names().units.ticks(horizon as i64);
    Ok(format!("horizon {horizon}\ndevices {devices}\ntasks {tasks}\njobs {jobs}\n").into_bytes())
}

/// The request and the start times of a command's words.
fn given(arguments: &mut Arguments) -> Result<(Request, Vec<u16>), Failure> {
    let source = Source::given(arguments)?;
    let starts = arguments.starts()?;
    source.apart_from(&starts)?;
    Ok((source.open()?, starts.read()?))
}

pub fn verdict(mut arguments: Arguments) -> Result<Vec<u8>, Failure> {
    let (request, starts) = given(&mut arguments)?;
    let answer = planner::verdict(&request.file, &starts)
        .and_then(|energy| Ok((energy, planner::margins(&request.file, &starts)?)));
    let (energy, margins) = answer.map_err(|refused| request.not_judged(refused, &starts))?;
    let names = request.names();
    let jobs = job_lines(&starts, &margins, &names);
    Ok((energy_line(energy, &names) + &jobs).into_bytes())
}

pub fn rows(mut arguments: Arguments) -> Result<Vec<u8>, Failure> {
    let (request, starts) = given(&mut arguments)?;
    let rows = planner::rows(&request.file, &starts);
    let Rows { energy, rows } = rows.map_err(|refused| request.not_judged(refused, &starts))?;
    let names = request.names();
    let lines = row_lines(&rows, &names, arguments.has(&RUNS));
    Ok((energy_line(energy, &names) + &lines).into_bytes())
}

/// What each device spends if the recorder steps it, beside its row of least energy.
pub fn step(mut arguments: Arguments) -> Result<Vec<u8>, Failure> {
    let (request, starts) = given(&mut arguments)?;
    let answer = planner::step(&request.file, &starts)
        .and_then(|spent| Ok((spent, planner::rows(&request.file, &starts)?)));
    let (spent, rows) = answer.map_err(|refused| request.not_judged(refused, &starts))?;
    let (_, tables) = request.tables()?;
    let least = energies(&tables, &rows)?;
    let names = request.names();
    let told = |energy| names.units.energy(energy);
    let all: u64 = spent.iter().map(|&spent| u64::from(spent)).sum();
    let mut text = format!(
        "stepped {}\nleast {}\n",
        told(all),
        told(rows.energy.into())
    );
    let called = column(&names.devices, spent.len());
    for (device, (&spent, &least)) in spent.iter().zip(&least).enumerate() {
        let (spent, least) = (told(spent.into()), told(least));
        let _ = writeln!(
            text,
            "device {device}{} stepped {spent} least {least}",
            called[device]
        );
    }
    Ok(text.into_bytes())
}

pub fn mend(mut arguments: Arguments) -> Result<Vec<u8>, Failure> {
    let (request, given) = given(&mut arguments)?;
    let mended = planner::mend(&request.file, &given);
    let (starts, moves) = mended.map_err(|refused| request.not_judged(refused, &given))?;
    let names = request.names();
    let called = column(&names.jobs, starts.len());
    let mut text = format!("moved {}\n", moves.len());
    for (job, start) in starts.iter().enumerate() {
        let told = |start: u16| names.units.ticks(start.into());
        let was = moves.iter().find(|moved| moved.job == job);
        let was = was.map_or(String::new(), |moved| format!(" was {}", told(moved.given)));
        let _ = writeln!(text, "job {job}{} start {}{was}", called[job], told(*start));
    }
    Ok(text.into_bytes())
}
