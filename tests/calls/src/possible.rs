//! Whether there is a plan, through its door, held to the full listing (`outside::oracle::possible`).

use crate::expected::{RESULT, SHUT};
use crate::library;
use crate::tails::{self, hand_back, is_blank, longer, BLANK};
use outside::cases;
use outside::oracle::possible::{by_bytes, run};
use std::collections::BTreeMap;

const SEED: u64 = 17;
const REQUESTS: u64 = 2_000;
const SHUT_CALLS: u64 = 500;

/// The numbers met and how often, 255 among them; or the first call that is not as it must be.
pub fn test() -> Result<BTreeMap<u8, u64>, String> {
    let found = run(SEED, REQUESTS, by_bytes(with_tails))?;
    if !found.found.iter().all(|&plans| plans > 100) {
        return Err(format!("too few plans of some kind are found: {found:?}"));
    }
    for number in 0..SHUT_CALLS {
        shut(&cases::draw(SEED, number).file, number as usize % RESULT)?;
    }
    for (name, wrong) in WRONG {
        if run(SEED, REQUESTS, by_bytes(wrong)).is_ok() {
            return Err(format!("not found: a search for any plan with {name}"));
        }
    }
    Ok(tails::met(found.numbers, SHUT_CALLS))
}

/// The door on buffers that are longer by some bytes, which stay, and on a result buffer that is
/// full before the call, so that each of the eleven bytes has to be written.
fn with_tails(file: &[u8], budget: u32, starts: &mut [u8], result: &mut [u8]) -> u8 {
    let tail = file.iter().fold(0, |sum, &byte| sum + usize::from(byte));
    let mut long_starts = longer(starts, tail % 2);
    let mut long_result = vec![BLANK; RESULT + tail / 2 % 3];
    let number = library::possible(file, budget, &mut long_starts, &mut long_result);
    hand_back(starts, &long_starts);
    hand_back(result, &long_result);
    number
}

/// A short result buffer: 255, and nothing is written.
fn shut(file: &[u8], room: usize) -> Result<(), String> {
    let (mut starts, mut result) = (vec![BLANK; 40], vec![BLANK; room]);
    let number = library::possible(file, 1_000, &mut starts, &mut result);
    if number == SHUT && is_blank(&starts) && is_blank(&result) {
        return Ok(());
    }
    Err(format!(
        "door_possible on file {file:02X?} is not shut: {number}"
    ))
}

type Door = fn(&[u8], u32, &mut [u8], &mut [u8]) -> u8;

/// Doors that go wrong about the right call. The comparison must find each.
const WRONG: [(&str, Door); 4] = [
    ("the plan of least energy", library::search),
    (
        "a budget of one vertex more",
        |file, budget, starts, result| {
            library::possible(file, budget.saturating_add(1), starts, result)
        },
    ),
    (
        "a start written past the last job",
        |file, budget, starts, result| {
            let number = library::possible(file, budget, starts, result);
            if let (0, Some(last)) = (number, starts.last_mut()) {
                *last ^= 1;
            }
            number
        },
    ),
    (
        "starts written where the budget ran out",
        |file, budget, starts, result| {
            let number = library::possible(file, budget, starts, result);
            if let (20, Some(first)) = (number, starts.first_mut()) {
                *first ^= 1;
            }
            number
        },
    ),
];
