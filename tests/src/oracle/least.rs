//! The least plan, from outside: random requests, budgets, memories and lent lists, and for each call the
//! whole outcome that its rules ask for.
//!
//! Small requests of every kind are held to the full listing. Large ones are beyond it, and are held to
//! the layers (`layers`), as far as those have room. What a memory holds before the call must not
//! matter: it is noise, or what an earlier call on another request has left in it.

use crate::cases::random::Random;
use crate::cases::recorders::{self, Fitted, List, Round};
use crate::cases::{draw, Kind};
use crate::cases::{second, third};
use crate::oracle::layers;
use crate::oracle::listing::{self, Schedule};
use crate::oracle::possible::{self, Outcome};
use crate::oracle::request::{read, Request};
use crate::oracle::visit::visit;

/// Takes the file, the budget, the lent memory and the lent list.
pub trait Asking: Fn(&[u8], u32, &mut [u64], &[u16]) -> Outcome {}
impl<F: Fn(&[u8], u32, &mut [u64], &[u16]) -> Outcome> Asking for F {}

/// The same through a function that is called with bytes, two for each start, and writes its result
/// into eleven.
pub fn by_bytes(call: impl Fn(&[u8], u32, &mut [u64], &mut [u8], &mut [u8]) -> u8) -> impl Asking {
    move |file: &[u8], budget: u32, memory: &mut [u64], lent: &[u16]| {
        let mut starts: Vec<u8> = lent.iter().flat_map(|start| start.to_be_bytes()).collect();
        let mut result = [0; 11];
        let number = call(file, budget, memory, &mut starts, &mut result);
        let pairs = starts.chunks_exact(2);
        Outcome {
            number,
            result,
            starts: pairs
                .map(|pair| u16::from_be_bytes([pair[0], pair[1]]))
                .collect(),
        }
    }
}

/// What was met: each number how often, and how many large requests the layers had no room for.
#[derive(Clone, Debug, Default, PartialEq, Eq)]
pub struct Met {
    pub numbers: [u64; 27],
    pub beyond: u64,
    pub rounds: u64,
}

/// From this budget on it is not given up: what the visiting order counts, and without jobs none. A count
/// that is not known to be under the limit is above every budget.
fn vertices(request: &Request, limit: u64) -> u64 {
    match visit(request, limit).count {
        _ if request.jobs.is_empty() => 0,
        count if count < limit => count,
        _ => u64::MAX,
    }
}

/// The whole outcome with enough of a budget, where `best` is the first of the least.
fn outcome(file: &[u8], lent: &[u16], best: impl Fn(&Request) -> Option<Schedule>) -> Outcome {
    let refused = |number| Outcome::new(number, 0, 0, lent.to_vec());
    let request = match read(file) {
        Ok(request) => request,
        Err(number) => return refused(number),
    };
    if lent.len() < request.jobs.len() {
        return refused(15);
    }
    let Some(best) = best(&request) else {
        return refused(19);
    };
    let mut after = lent.to_vec();
    for (place, start) in after.iter_mut().zip(best.starts) {
        *place = start as u16;
    }
    let mut outcome = Outcome::new(0, request.horizon, 0, after);
    outcome.result[3..7].copy_from_slice(&(best.energy as u32).to_be_bytes());
    outcome
}

/// Whether an outcome may come: the one with enough of a budget; or, where there is a plan and the
/// budget is below what the visiting order counts, the word that it was given up.
fn may_come(got: &Outcome, full: &Outcome, budget: u32, most: u64, lent: &[u16]) -> bool {
    let given_up = || Outcome::new(20, 0, budget, lent.to_vec());
    let is_small = u64::from(budget) < most && budget < u32::MAX;
    got == full || full.number == 0 && is_small && *got == given_up()
}

/// One file with every memory and budget.
struct Trial<'a> {
    file: &'a [u8],
    lent: &'a [u16],
    full: Outcome,
    most: u64,
}

impl Trial<'_> {
    fn call(&self, ask: &impl Asking, budget: u32, memory: &mut [u64]) -> Result<Outcome, String> {
        let before = memory.to_vec();
        let got = ask(self.file, budget, memory, self.lent);
        let is_kept = matches!(got.number, 0 | 20) || *memory == before;
        if may_come(&got, &self.full, budget, self.most, self.lent) && is_kept {
            return Ok(got);
        }
        Err(format!(
            "file {:?}, budget {budget}, {} words of memory, kept: {is_kept}, lent {:?}\nexpected {:?}\ngot      {got:?}",
            self.file,
            memory.len(),
            self.lent,
            self.full
        ))
    }
}

/// The words of the memories that are lent, from none to many.
const WORDS: [usize; 6] = [0, 1, 7, 64, 500, 20_000];

/// Noise in a new memory; what an earlier call left in one that is lent again.
struct Memories {
    kept: Vec<Vec<u64>>,
}

impl Memories {
    fn new(random: &mut Random) -> Memories {
        let mut noise = |words: usize| (0..words).map(|_| random.within(0, u64::MAX - 1)).collect();
        Memories {
            kept: WORDS.map(&mut noise).to_vec(),
        }
    }
}

/// None, a few, and just as many as are enough.
fn budgets(random: &mut Random, most: u64) -> [u32; 3] {
    let few = random.within(1, 40) as u32;
    let enough = u32::try_from(most).unwrap_or(u32::MAX);
    let enough = random.pick(&[enough, u32::MAX]);
    [0, few, enough]
}

/// Draws requests of every kind that can be listed, and damaged files; the first outcome that may not
/// come ends it.
pub fn run(seed: u64, requests: u64, ask: impl Asking) -> Result<Met, String> {
    const STREAM: u64 = 1 << 41;
    let mut met = Met::default();
    let mut memories = Memories::new(&mut Random::new(seed, STREAM - 1));
    for number in 0..requests {
        let case = draw(seed, number);
        if case.kind == Kind::OverBudget {
            continue;
        }
        let mut random = Random::new(seed, STREAM + number);
        if random.one_in(4) {
            memories = Memories::new(&mut random);
        }
        let request = read(&case.file).ok();
        let jobs = request.as_ref().map_or(0, |request| request.jobs.len());
        let lent = possible::lent(&mut random, jobs);
        let trial = Trial {
            file: &case.file,
            lent: &lent,
            full: outcome(&case.file, &lent, listing::first_of_the_least),
            most: request
                .as_ref()
                .map_or(0, |request| vertices(request, u32::MAX.into())),
        };
        for memory in &mut memories.kept {
            for budget in budgets(&mut random, trial.most) {
                let got = trial.call(&ask, budget, memory)?;
                met.numbers[usize::from(got.number)] += 1;
            }
        }
    }
    Ok(met)
}

/// Lists and rounds of all three kinds, too large to list.
fn large(random: &mut Random) -> Vec<u8> {
    let fitted = Fitted {
        devices: random.within(1, 4),
        transition: random.pick(&[2, 4, 6]),
    };
    let tables = if random.one_in(3) {
        let round = Round {
            period: random.u16(10, 30),
            multiples: random.pick(&[&[1, 2, 4], &[1, 2, 2], &[2, 3, 6], &[1, 2, 4, 4]]),
            load: random.within(20, 60),
        };
        recorders::round(random, fitted, round)
    } else {
        let list = List {
            horizon: random.u16(40, 160),
            jobs: random.within(6, 12),
            load: random.within(30, 70),
            window: random.within(8, 30),
        };
        recorders::list(random, fitted, list)
    };
    match random.within(1, 4) {
        1 => second::apart(random, tables).bytes(),
        2 => third::deepened(random, tables).bytes(),
        _ => tables.bytes(),
    }
}

/// Draws large requests, for which a memory of some size is lent, and holds the outcomes to the layers.
pub fn run_large(seed: u64, requests: u64, ask: impl Asking) -> Result<Met, String> {
    const MOST_CASES: usize = 60_000;
    const MOST_COUNTED: u64 = 2_000;
    const WORDS: usize = 100_000;
    let mut met = Met::default();
    let mut memory = vec![u64::MAX / 5; WORDS];
    for number in 0..requests {
        let mut random = Random::new(seed, number);
        let file = large(&mut random);
        let request = read(&file).expect("an accepted file");
        let Ok(best) = layers::first_of_the_least(&request, MOST_CASES) else {
            met.beyond += 1;
            continue;
        };
        let lent = possible::lent(&mut random, request.jobs.len());
        let trial = Trial {
            file: &file,
            lent: &lent,
            full: outcome(&file, &lent, |_| best.clone()),
            most: vertices(&request, MOST_COUNTED),
        };
        // In little memory it may take for ever.
        let words = random.pick(&[WORDS / 4, WORDS / 50, 300]);
        let few = random.within(1, 20_000) as u32;
        let soon = trial.call(&ask, few, &mut memory[..words])?;
        let got = trial.call(&ask, u32::MAX, &mut memory)?;
        for number in [soon.number, got.number] {
            met.numbers[usize::from(number)] += 1;
        }
        met.rounds += u64::from(request.round);
    }
    Ok(met)
}

#[cfg(test)]
mod tests {
    use super::*;
    use crate::rivals::remembering;

    const SEED: u64 = 33;
    const REQUESTS: u64 = 1_000;
    const LARGE: u64 = 150;

    /// The benchmark's search of the same shape, as C would call it.
    fn remembering(
        file: &[u8],
        budget: u32,
        memory: &mut [u64],
        starts: &mut [u8],
        result: &mut [u8],
    ) -> u8 {
        let refused = |number: u8, count: u32, result: &mut [u8]| {
            result[7..].copy_from_slice(&count.to_be_bytes());
            number
        };
        let request = match read(file) {
            Ok(request) => request,
            Err(number) => return refused(number, 0, result),
        };
        if starts.len() < 2 * request.jobs.len() {
            return refused(15, 0, result);
        }
        let (found, _) = remembering::search(file, budget, memory);
        let (energy, found) = match found.number {
            0 => (found.energy, found.starts),
            // The one that counts, before it is given up.
            20 if vertices(&request, u64::from(budget) + 1) <= u64::from(budget) => {
                let best = listing::first_of_the_least(&request).expect("a plan");
                (best.energy as u32, best.starts)
            }
            number => return refused(number, found.count, result),
        };
        result[1..3].copy_from_slice(&(request.horizon as u16).to_be_bytes());
        result[3..7].copy_from_slice(&energy.to_be_bytes());
        for (place, start) in starts.chunks_exact_mut(2).zip(found) {
            place.copy_from_slice(&(start as u16).to_be_bytes());
        }
        0
    }

    #[test]
    fn the_search_of_the_same_shape_agrees_with_the_listing() {
        let met = run(SEED, REQUESTS, by_bytes(remembering)).expect("outcomes that may come");
        for number in (0..=13).chain([15, 19, 20, 26]) {
            assert!(met.numbers[number] > 0, "{number} is not met");
        }
    }

    #[test]
    fn it_agrees_with_the_layers() {
        let met = run_large(SEED, LARGE, by_bytes(remembering)).expect("outcomes that may come");
        assert!(met.beyond < LARGE / 2 && met.rounds > LARGE / 10, "{met:?}");
    }

    fn is_refused(ask: impl Asking) -> bool {
        run(SEED, REQUESTS, ask).is_err()
    }

    /// An asking that follows the rules but for what is best.
    fn by(best: impl Fn(&Request) -> Option<Schedule>) -> impl Asking {
        move |file: &[u8], _: u32, _: &mut [u64], lent: &[u16]| outcome(file, lent, &best)
    }

    #[test]
    fn whoever_gives_up_although_the_budget_is_enough_is_refused() {
        let right = by(listing::first_of_the_least);
        assert!(is_refused(
            move |file: &[u8], budget: u32, memory: &mut [u64], lent: &[u16]| {
                let outcome = right(file, budget, memory, lent);
                match outcome.number {
                    0 => Outcome::new(20, 0, budget, lent.to_vec()),
                    _ => outcome,
                }
            }
        ));
    }

    #[test]
    fn starts_that_are_written_where_it_is_given_up_are_refused() {
        let right = by(listing::first_of_the_least);
        assert!(is_refused(
            move |file: &[u8], budget: u32, memory: &mut [u64], lent: &[u16]| {
                let outcome = right(file, budget, memory, lent);
                match (outcome.number, budget) {
                    (0, 0) => Outcome::new(20, 0, budget, outcome.starts),
                    _ => outcome,
                }
            }
        ));
    }

    #[test]
    fn the_first_plan_for_the_least_is_refused() {
        assert!(is_refused(by(|request| {
            let starts = listing::first(request)?;
            let mut energies = crate::oracle::rows::Energies::of(request);
            let energy = listing::energy(request, &starts, &mut energies);
            Some(Schedule { starts, energy })
        })));
    }

    #[test]
    fn a_count_or_another_energy_is_refused() {
        for place in [6, 10] {
            let right = by(listing::first_of_the_least);
            assert!(is_refused(
                move |file: &[u8], budget: u32, memory: &mut [u64], lent: &[u16]| {
                    let mut outcome = right(file, budget, memory, lent);
                    outcome.result[place] ^= u8::from(outcome.number == 0);
                    outcome
                }
            ));
        }
    }
}
