//! The proved searches, and the proved word whether there is any plan, by a visit and by sets of jobs.

use crate::Outcome;
use linked::RESULT;

/// One start time, of two bytes, for each of at most 16 jobs.
const STARTS: usize = 32;

pub fn search(file: &[u8], budget: u32) -> Outcome {
    outcome(|starts, result| linked::search(file, budget, starts, result))
}

/// The search of an earlier commit.
#[cfg(feature = "before")]
pub fn before(file: &[u8], budget: u32) -> Outcome {
    outcome(|starts, result| linked::before_search(file, budget, starts, result))
}

/// Its word whether there is any plan.
#[cfg(feature = "before_any")]
pub fn before_any(file: &[u8], budget: u32) -> Outcome {
    outcome(|starts, result| linked::before_any(file, budget, starts, result))
}

pub fn possible(file: &[u8], budget: u32) -> Outcome {
    outcome(|starts, result| linked::possible(file, budget, starts, result))
}

/// It has no budget, which is passed over here.
pub fn first(file: &[u8], _budget: u32) -> Outcome {
    outcome(|starts, result| linked::first(file, starts, result))
}

/// With a memory that is lent.
pub fn least(file: &[u8], budget: u32, memory: &mut [u64]) -> Outcome {
    outcome(|starts, result| linked::least(file, budget, memory, starts, result))
}

fn outcome(call: impl FnOnce(&mut [u8], &mut [u8]) -> u8) -> Outcome {
    let (mut starts, mut result) = ([0; STARTS], [0; RESULT]);
    let number = call(&mut starts, &mut result);
    let [_, _, _, a, b, c, d, e, f, g, h] = result;
    Outcome {
        number,
        energy: u32::from_be_bytes([a, b, c, d]),
        count: u32::from_be_bytes([e, f, g, h]),
    }
}
