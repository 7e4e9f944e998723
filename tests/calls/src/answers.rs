//! What each function of the library can answer by the rules, and how many calls of it there are at least:
//! each function has to give all of its numbers, and no others.

use crate::expected::SHUT;
use std::collections::{BTreeMap, BTreeSet};

/// 0, and what a file can be refused with (rules 15 and 83).
const FILE: [u8; 15] = [0, 1, 2, 3, 4, 5, 6, 7, 8, 9, 10, 11, 12, 13, 26];

/// 0, and what tables can be refused with: what they make is neither cut short nor goes on (rule 52).
const TABLES: [u8; 13] = [0, 3, 4, 5, 6, 7, 8, 9, 10, 11, 12, 13, 26];

/// 0, and what a catalogue and the first kind's file of its parts can be refused with (rule 57).
const PARTS: [u8; 15] = [0, 3, 4, 5, 6, 7, 8, 9, 10, 11, 12, 13, 21, 22, 23];

/// A function, the numbers that it can give, those of what it reads and others, and the calls of it.
type Answers = (&'static str, &'static [u8], &'static [u8], u64);

// A line each.
#[rustfmt::skip]
const ANSWERS: [Answers; 28] = [
    ("floe_check", &FILE, &[15], 12_100),
    ("floe_sizes", &FILE, &[15], 12_100),
    ("floe_fault", &FILE, &[15], 15_900),
    ("floe_search", &FILE, &[15, 19, 20], 100_300),
    ("floe_search_in", &FILE, &[15, 19, 20], 100_300),
    ("floe_first", &FILE, &[15, 19], 15_400),
    ("floe_least", &FILE, &[15, 19, 20], 55_000),
    ("floe_rows", &FILE, &[14, 15, 16, 17, 18], 36_400),
    ("door_verdict", &FILE, &[14, 16, 17, 18, SHUT], 36_400),
    ("door_margins", &FILE, &[14, 15, SHUT], 36_400),
    ("door_export_plan", &FILE, &[14, 15, 16, 17, 18, SHUT], 36_400),
    ("door_possible", &FILE, &[15, 19, 20, SHUT], 12_500),
    ("door_mend", &FILE, &[14, 15, 17, SHUT], 21_000),
    ("door_step", &FILE, &[14, 15, 16, 17, 18, 24, 25, SHUT], 21_500),
    ("floe_step_start", &[0], &[4, 25, SHUT], 20_000),
    ("floe_step_end", &[0], &[4, 25, SHUT], 20_000),
    ("floe_step_pass", &[0], &[4, 15, 25, SHUT], 20_000),
    ("door_tables", &FILE, &[15, SHUT], 8_800),
    ("door_write", &TABLES, &[15, SHUT], 23_000),
    ("door_fault", &TABLES, &[SHUT], 12_000),
    ("door_build", &PARTS, &[15, SHUT], 16_800),
    ("door_order_fault", &[0], &[21, 22, 23, SHUT], 15_000),
    ("door_devices_fault", &[0], &[21, 22, 27, 28, 29, SHUT], 12_000),
    ("door_jobs_fault", &[0], &[12, 27, 28, 29, SHUT], 12_000),
    ("door_import_devices", &[0], &[15, 21, 22, 27, 28, 29, SHUT], 12_000),
    ("door_import_jobs", &[0], &[12, 15, 27, 28, 29, SHUT], 12_000),
    ("door_export_devices", &[0], &[15, 21, 22, SHUT], 12_000),
    ("door_export_jobs", &[0], &[1, 12, 15, SHUT], 12_000),
];

/// The functions that the header declares.
fn declared() -> BTreeSet<&'static str> {
    let lines = include_str!("../../../include/floebucket.h").lines();
    let functions = lines.filter_map(|line| line.strip_prefix("uint8_t "));
    functions
        .filter_map(|line| line.split('(').next())
        .collect()
}

/// Every declared function has given its numbers and no others, in as many calls as are asked for.
pub fn hold(met: &BTreeMap<(&'static str, u8), u64>) -> Result<(), String> {
    let known: BTreeSet<&str> = ANSWERS.iter().map(|answers| answers.0).collect();
    let called: BTreeSet<&str> = met.keys().map(|&(name, _)| name).collect();
    if known != declared() || known != called {
        return Err(format!(
            "functions declared {:?}\n  called {called:?}\n  known {known:?}",
            declared()
        ));
    }
    ANSWERS.iter().try_for_each(|answers| of_one(answers, met))
}

fn of_one(answers: &Answers, met: &BTreeMap<(&'static str, u8), u64>) -> Result<(), String> {
    let &(name, read, others, least) = answers;
    let of_name = || met.iter().filter(|((met, _), _)| *met == name);
    let given: BTreeSet<u8> = of_name().map(|(&(_, number), _)| number).collect();
    let numbers: BTreeSet<u8> = read.iter().chain(others).copied().collect();
    if given != numbers {
        return Err(format!("{name} answered {given:?} and not {numbers:?}"));
    }
    let calls: u64 = of_name().map(|(_, count)| count).sum();
    if calls < least {
        return Err(format!("{name} is called {calls} times and not {least}"));
    }
    Ok(())
}
