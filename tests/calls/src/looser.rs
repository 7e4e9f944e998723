//! Looser windows never cost more: pairs of job lists through `floe_search`, and through the door that
//! says whether there is any plan at all.

use crate::expected::RESULT;
use crate::library;
use outside::oracle::looser::{run, Found};

const SEED: u64 = 31;
const PAIRS: u64 = 6_000;
const BUDGET: u32 = 1_000_000;
const STARTS: usize = 2 * 16;

type Search = fn(&[u8], u32, &mut [u8], &mut [u8]) -> u8;

/// What was seen, in words.
pub fn test() -> Result<String, String> {
    let met = run(SEED, PAIRS, |file| found(library::search, file))?;
    let missed = met.missed();
    if !missed.is_empty() {
        return Err(format!("pairs of windows never met: {missed:?}"));
    }
    // It counts no more vertices than the search, and so comes to its end wherever that does.
    let possible = run(SEED, PAIRS, |file| found(library::possible, file))?;
    if possible.helped < met.helped || possible.neither < met.neither {
        return Err(format!("any plan at all: {possible:?}, searched {met:?}"));
    }
    Ok(format!("{met:?}"))
}

fn found(search: Search, file: &[u8]) -> Found {
    let (mut starts, mut result) = ([0; STARTS], [0; RESULT]);
    let number = search(file, BUDGET, &mut starts, &mut result);
    let four = |place: usize| {
        let bytes = result[place..place + 4].try_into().expect("four bytes");
        u64::from(u32::from_be_bytes(bytes))
    };
    Found {
        number,
        energy: four(3),
        count: four(7),
    }
}
