//! The figures (tests/figures.txt) by the library's functions for C: the number, the eleven bytes, and
//! every byte of the buffers. Every buffer is full of AA before the call.

use crate::library;
use outside::cases::figures::{all, eleven, Figure, Operation};

/// More than any figure writes, and more than any has to move.
const ROOM: usize = 256;
const MOVES: usize = 96;

fn full(length: usize) -> Vec<u8> {
    vec![0xAA; length]
}

/// Full of AA but for what is written to its front.
fn after(written: &[u8], length: usize) -> Vec<u8> {
    let mut after = full(length);
    after[..written.len()].copy_from_slice(written);
    after
}

/// Whether a figure does not come out. What is printed is no function's.
fn fails(figure: &Figure) -> bool {
    let call = &figure.call;
    let (given, starts, budget) = (&call.given[..], &call.starts[..], call.budget);
    let mut out = full(call.room.unwrap_or(ROOM));
    let mut moved = full(MOVES);
    let mut result = full(call.result);
    let number = match call.operation {
        Operation::Check => library::check(given, &mut result),
        Operation::Search => library::search(given, budget, &mut out, &mut result),
        Operation::First => library::first(given, &mut out, &mut result),
        Operation::Possible => library::possible(given, budget, &mut out, &mut result),
        Operation::Rows => library::rows(given, starts, &mut out, &mut result),
        Operation::Margins => library::margins(given, starts, &mut out, &mut result),
        Operation::Mend => library::mend(given, starts, &mut out, &mut moved, &mut result),
        Operation::Step => library::step(given, starts, &mut out, &mut result),
        Operation::Write => library::write(given, &mut out, &mut result),
        Operation::Build => {
            library::build(&call.catalogue, &call.wanted, given, &mut out, &mut result)
        }
        Operation::ImportDevices => library::import_devices(given, &mut out, &mut result),
        Operation::ImportJobs => library::import_jobs(given, &mut out, &mut result),
        Operation::ExportDevices => library::export_devices(given, &mut out, &mut result),
        Operation::ExportJobs => library::export_jobs(given, &mut out, &mut result),
        Operation::ExportPlan => library::export_plan(given, starts, &mut out, &mut result),
        Operation::Print => return false,
    };
    let told = match call.result < 11 {
        true => full(call.result),
        false => eleven(figure.answer),
    };
    let expected = after(&figure.written, out.len());
    (number, result, out) != (figure.answer.0, told, expected)
        || moved != after(&figure.moved, MOVES)
}

/// The names of those that do not come out.
pub fn failures() -> Vec<&'static str> {
    let failing = all().into_iter().filter(fails);
    failing.map(|figure| figure.name).collect()
}
