//! The operations of the proved library, with Rust's types.
//!
//! Every buffer that is lent here has room for the largest answer, so that 15 does not occur. How many
//! numbers an operation has written is seen by what stands behind them, which is as it was lent: no file
//! is read for it.

use crate::place::{Part, Place};
use crate::tables::Tables;
use linked::{COUNTED, PLACE, RESULT};

/// The most jobs, devices and ticks that a request has, and more bytes than any file or table.
const JOBS: usize = 16;
const DEVICES: usize = 8;
const TICKS: usize = 4096;
const BYTES: usize = 1024;

/// More bytes than the longest sheet, that of a catalogue.
const SHEET: usize = 4096;

/// The number of a refusal, with the job that it names and its count; what does not apply is 0.
#[derive(Clone, Copy, Debug, PartialEq, Eq)]
pub struct Refused {
    pub number: u8,
    pub job: usize,
    pub count: u32,
}

type Answered<T> = Result<T, Refused>;

/// What an operation gives besides its number.
struct Success {
    horizon: usize,
    energy: u32,
    count: u32,
}

fn answer(number: u8, result: &[u8; RESULT]) -> Answered<Success> {
    let [job, h1, h0, e3, e2, e1, e0, c3, c2, c1, c0] = *result;
    let count = u32::from_be_bytes([c3, c2, c1, c0]);
    if number != 0 {
        return Err(Refused {
            number,
            job: usize::from(job),
            count,
        });
    }
    Ok(Success {
        horizon: usize::from(u16::from_be_bytes([h1, h0])),
        energy: u32::from_be_bytes([e3, e2, e1, e0]),
        count,
    })
}

fn pairs(starts: &[u16]) -> Vec<u8> {
    starts
        .iter()
        .flat_map(|start| start.to_be_bytes())
        .collect()
}

fn numbers(bytes: &[u8]) -> impl Iterator<Item = u16> + '_ {
    bytes
        .chunks_exact(2)
        .map(|pair| u16::from_be_bytes([pair[0], pair[1]]))
}

/// How many devices, tasks and jobs a request has, and its horizon. The jobs are those that are planned,
/// which tasks release too.
#[derive(Clone, Copy, Debug, PartialEq, Eq)]
pub struct Sizes {
    pub horizon: usize,
    pub devices: usize,
    pub tasks: usize,
    pub jobs: usize,
}

pub fn sizes(file: &[u8]) -> Answered<Sizes> {
    let mut sizes = [0; 3];
    let mut result = [0; RESULT];
    let number = linked::sizes(file, &mut sizes, &mut result);
    let horizon = answer(number, &result)?.horizon;
    let [devices, tasks, jobs] = sizes.map(usize::from);
    Ok(Sizes {
        horizon,
        devices,
        tasks,
        jobs,
    })
}

/// The number of a file that is refused, and its first place at fault.
pub fn fault(file: &[u8]) -> Option<(u8, Place)> {
    let mut result = [0; PLACE];
    let number = linked::fault(file, &mut result);
    Some((number, place(&result)?))
}

/// The same of the file that tables make.
pub fn fault_in_tables(tables: &Tables) -> Option<(u8, Place)> {
    let mut result = [0; PLACE];
    let number = linked::fault_in_tables(&tables.bytes(), &mut result);
    Some((number, place(&result)?))
}

fn place(told: &[u8; PLACE]) -> Option<Place> {
    let number = usize::from(told[1]);
    let part = match told[0] {
        1 => Part::Horizon,
        2 => Part::DeviceCount,
        3 => Part::Device(number),
        4 => Part::TaskCount,
        5 => Part::Task(number),
        6 => Part::JobCount,
        7 => Part::Job(number),
        8 => Part::Tail,
        _ => return None,
    };
    let byte = |bytes: &[u8]| {
        bytes
            .iter()
            .fold(0, |at, &byte| at << 8 | usize::from(byte))
    };
    Some(Place {
        part,
        from: byte(&told[2..10]),
        to: byte(&told[10..]),
    })
}

/// Start times by job number, and how many vertices were counted till they were certain.
#[derive(Clone, Debug)]
pub struct Found {
    pub starts: Vec<u16>,
    pub count: u32,
}

/// The plan of least energy.
pub fn search(file: &[u8], budget: u32) -> Answered<Found> {
    found(|starts, result| linked::search(file, budget, starts, result))
}

/// The plan of least energy, with a memory that is lent and a budget of vertices: its start
/// times. Nothing is counted.
pub fn least_plan(file: &[u8], budget: u32, memory: &mut [u64]) -> Answered<Vec<u16>> {
    let found = found(|starts, result| linked::least(file, budget, memory, starts, result));
    found.map(|found| found.starts)
}

/// The first of all plans, whatever it costs, in some milliseconds: its start times.
pub fn first_plan(file: &[u8]) -> Answered<Vec<u16>> {
    let found = found(|starts, result| linked::first(file, starts, result));
    found.map(|found| found.starts)
}

/// The same by a visit that counts, if the budget covers its vertices.
pub fn any_plan(file: &[u8], budget: u32) -> Answered<Found> {
    found(|starts, result| linked::possible(file, budget, starts, result))
}

/// No start is as large as what is lent, since a job starts within the horizon.
fn found(call: impl FnOnce(&mut [u8], &mut [u8]) -> u8) -> Answered<Found> {
    let mut starts = [0xFF; 2 * JOBS];
    let mut result = [0; RESULT];
    let number = call(&mut starts, &mut result);
    let count = answer(number, &result)?.count;
    let starts = numbers(&starts).take_while(|&start| start != u16::MAX);
    Ok(Found {
        starts: starts.collect(),
        count,
    })
}

/// The energy of start times that are feasible.
pub fn verdict(file: &[u8], starts: &[u16]) -> Answered<u32> {
    let starts = pairs(starts);
    let mut result = [0; RESULT];
    let number = linked::verdict(file, &starts, &mut result);
    Ok(answer(number, &result)?.energy)
}

/// The margin of each job, for any start times.
pub fn margins(file: &[u8], starts: &[u16]) -> Answered<Vec<i32>> {
    let bytes = pairs(starts);
    let mut out = [0; 4 * JOBS];
    let mut result = [0; RESULT];
    let number = linked::margins(file, &bytes, &mut out, &mut result);
    answer(number, &result)?;
    let margin = |four: &[u8]| i32::from_be_bytes([four[0], four[1], four[2], four[3]]);
    Ok(out.chunks_exact(4).map(margin).take(starts.len()).collect())
}

/// The row of every device for feasible start times, one letter a tick, and what they cost.
#[derive(Clone, Debug)]
pub struct Rows {
    pub energy: u32,
    pub rows: Vec<Vec<u8>>,
}

pub fn rows(file: &[u8], starts: &[u16]) -> Answered<Rows> {
    let starts = pairs(starts);
    let mut out = vec![0; DEVICES * TICKS];
    let mut result = [0; RESULT];
    let number = linked::rows(file, &starts, &mut out, &mut result);
    let success = answer(number, &result)?;
    // An accepted request has a horizon of at least 1. What is written are letters, and beyond the last
    // row the zeros still stand.
    let rows = out.chunks(success.horizon.max(1));
    let rows = rows.take_while(|row| row[0] != 0);
    Ok(Rows {
        energy: success.energy,
        rows: rows.map(<[u8]>::to_vec).collect(),
    })
}

/// A job that was moved, with its given start and its new one.
#[derive(Clone, Copy, Debug, PartialEq, Eq)]
pub struct Move {
    pub job: usize,
    pub given: u16,
    pub new: u16,
}

/// The start times mended, and which of them moved.
pub fn mend(file: &[u8], starts: &[u16]) -> Answered<(Vec<u16>, Vec<Move>)> {
    let given = pairs(starts);
    let mut out = [0; 2 * JOBS];
    let mut moved = [0; 6 * JOBS];
    let mut result = [0; RESULT];
    let number = linked::mend(file, &given, &mut out, &mut moved, &mut result);
    let success = answer(number, &result)?;
    let listed: Vec<u16> = numbers(&moved).collect();
    let moves = listed.chunks_exact(3).map(|three| Move {
        job: usize::from(three[0]),
        given: three[1],
        new: three[2],
    });
    Ok((
        numbers(&out).take(starts.len()).collect(),
        moves.take(success.count as usize).collect(),
    ))
}

/// A file that the library has written, which it accepts, and the horizon of its round.
pub struct Written {
    pub horizon: usize,
    pub file: Vec<u8>,
}

fn written(call: impl FnOnce(&mut [u8], &mut [u8]) -> u8) -> Answered<Written> {
    let mut out = [0; BYTES];
    let mut result = [0; RESULT];
    let number = call(&mut out, &mut result);
    let success = answer(number, &result)?;
    let file = out.iter().copied().take(success.count as usize);
    Ok(Written {
        horizon: success.horizon,
        file: file.collect(),
    })
}

/// The file that tables make.
pub fn write(tables: &Tables) -> Answered<Written> {
    let tables = tables.bytes();
    written(|out, result| linked::write(&tables, out, result))
}

/// The file of the wanted parts, with the other sections as the tables have them.
pub fn build(catalogue: &[u8], wanted: &[u8], tables: &Tables) -> Answered<Written> {
    let tables = tables.bytes();
    written(|out, result| linked::build(catalogue, wanted, &tables, out, result))
}

/// The horizon and the tables of a file.
pub fn tables(file: &[u8]) -> Answered<(usize, Tables)> {
    let mut out = [0; BYTES];
    let mut result = [0; RESULT];
    let number = linked::tables(file, &mut out, &mut result);
    let success = answer(number, &result)?;
    let bytes = out.get(..success.count as usize).unwrap_or(&out);
    Ok((success.horizon, Tables::of_bytes(bytes)))
}

/// A number, and the place that is counted from 0, of what is refused.
fn counted(call: impl FnOnce(&mut [u8]) -> u8) -> Option<(u8, usize)> {
    let mut result = [0; COUNTED];
    let number = call(&mut result);
    let place = usize::try_from(u64::from_be_bytes(result));
    (number != 0).then(|| (number, place.unwrap_or(usize::MAX)))
}

/// The part of a catalogue, or of 23 the wanted one, for which an order is refused.
pub fn order_fault(catalogue: &[u8], wanted: &[u8]) -> Option<(u8, usize)> {
    counted(|result| linked::order_fault(catalogue, wanted, result))
}

/// The line for which a sheet of devices is refused.
pub fn devices_fault(sheet: &[u8]) -> Option<(u8, usize)> {
    counted(|result| linked::devices_fault(sheet, result))
}

/// The same of a sheet of jobs.
pub fn jobs_fault(sheet: &[u8]) -> Option<(u8, usize)> {
    counted(|result| linked::jobs_fault(sheet, result))
}

/// Takes a sheet, an output and a result buffer.
type Import = fn(&[u8], &mut [u8], &mut [u8]) -> u8;

/// The records of a sheet, a line each.
fn imported(import: Import, sheet: &[u8], size: usize) -> Answered<Vec<Vec<u8>>> {
    let mut out = [0; BYTES];
    let mut result = [0; RESULT];
    let number = import(sheet, &mut out, &mut result);
    let lines = answer(number, &result)?.count as usize;
    let records = out.chunks_exact(size).take(lines);
    Ok(records.map(<[u8]>::to_vec).collect())
}

/// The parts of a sheet of devices, as a catalogue has them.
pub fn import_devices(sheet: &[u8]) -> Answered<Vec<Vec<u8>>> {
    imported(linked::import_devices, sheet, 15)
}

/// The job records of a sheet of jobs.
pub fn import_jobs(sheet: &[u8]) -> Answered<Vec<Vec<u8>>> {
    imported(linked::import_jobs, sheet, 7)
}

/// The sheet of a plan.
pub fn export_plan(file: &[u8], starts: &[u16]) -> Answered<Vec<u8>> {
    let starts = pairs(starts);
    let mut out = [0; BYTES];
    let mut result = [0; RESULT];
    let number = linked::export_plan(file, &starts, &mut out, &mut result);
    let written = answer(number, &result)?.count as usize;
    Ok(out.iter().copied().take(written).collect())
}

/// What each device spends if it is stepped through the round at these start times. In a round of 4,096
/// ticks none spends as much as what is lent.
pub fn step(file: &[u8], starts: &[u16]) -> Answered<Vec<u32>> {
    let starts = pairs(starts);
    let mut out = [0xFF; 4 * DEVICES];
    let mut result = [0; RESULT];
    let number = linked::step(file, &starts, &mut out, &mut result);
    answer(number, &result)?;
    let spent = |four: &[u8]| u32::from_be_bytes([four[0], four[1], four[2], four[3]]);
    let spent = out.chunks_exact(4).map(spent);
    Ok(spent.take_while(|&spent| spent != u32::MAX).collect())
}

/// Takes records, an output and a result buffer.
type Export = fn(&[u8], &mut [u8], &mut [u8]) -> u8;

/// The sheet of records, a line each.
fn exported(export: Export, records: &[u8]) -> Answered<Vec<u8>> {
    let mut out = [0; SHEET];
    let mut result = [0; RESULT];
    let number = export(records, &mut out, &mut result);
    let written = answer(number, &result)?.count as usize;
    Ok(out.iter().copied().take(written).collect())
}

/// The sheet of a catalogue.
pub fn export_devices(catalogue: &[u8]) -> Answered<Vec<u8>> {
    exported(linked::export_devices, catalogue)
}

/// The sheet of job records.
pub fn export_jobs(records: &[u8]) -> Answered<Vec<u8>> {
    exported(linked::export_jobs, records)
}
