//! The steps of one device, held to the rules (`outside::oracle::steps`): each alone, and whole rounds
//! of them to what stepping through a round says.

use crate::library;
use outside::cases::random::Random;
use outside::oracle::stepping::draw;
use outside::oracle::steps::{round, run, Event};
use std::collections::BTreeMap;

const SEED: u64 = 131;
const CALLS: u64 = 20_000;
const ROUNDS: u64 = 3_000;

fn step(device: &[u8], record: &mut [u8], event: Event) -> u8 {
    match event {
        Event::Start(uses, next, pause) => library::step_start(device, uses, next, pause, record),
        Event::End(uses, next, pause) => library::step_end(device, uses, next, pause, record),
        Event::Pass(ticks) => library::step_pass(device, ticks, record),
    }
}

/// The numbers met of starts, of completions or of ticks, and how often; or the first call that is not
/// as it must be.
pub fn test(which: u64) -> Result<BTreeMap<u8, u64>, String> {
    let met = run(SEED, CALLS, which, step)?;
    let wrong = |device: &[u8], record: &mut [u8], event: Event| {
        let number = step(device, record, event);
        if number == 0 {
            record[5] ^= 1;
        }
        number
    };
    if run(SEED, CALLS, which, wrong).is_ok() {
        return Err("not found: a step that spends a unit more or less".to_string());
    }
    Ok(met)
}

/// How many whole rounds come out.
pub fn test_rounds() -> Result<u64, String> {
    let mut stepped = 0;
    for number in 0..ROUNDS {
        let drawn = draw(&mut Random::new(SEED, number));
        stepped += u64::from(round(&drawn, &step)?);
    }
    if stepped < ROUNDS / 3 {
        return Err(format!("too few rounds are stepped: {stepped}"));
    }
    Ok(stepped)
}
