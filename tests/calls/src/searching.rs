//! The search on requests that are too long to list; and searches that go wrong where a budget runs out,
//! each of which the comparison must find.

use crate::expected::{pairs, Searched, RESULT};
use crate::{library, Tester, SEED};
use outside::cases::random::Random;
use outside::cases::tables::{device_a, task, Tables};
use outside::cases::{draw, Case, Kind};
use outside::oracle::long;
use outside::oracle::visit::visit;

pub type Search = fn(&[u8], u32, &mut [u8], &mut [u8]) -> u8;

const REQUESTS: u64 = 150;

/// Files to find a wrong search on.
const FEW: u64 = 120;

/// How many searches have to run out of their budget with a best at hand.
pub const LEAST_CUT_SHORT: u64 = 20_000;

pub fn test(tester: &mut Tester) -> Result<(), String> {
    the_papers_largest_set()?;
    for number in 0..REQUESTS {
        tester.all(&too_long(long::draw(&mut Random::new(SEED, number))));
        if let Some(failure) = tester.failure.take() {
            return Err(failure);
        }
    }
    for (name, wrong) in WRONG {
        if !is_found(wrong) {
            return Err(format!("not found: a search with {name}"));
        }
    }
    Ok(())
}

/// The pruning paper's largest set of at most sixteen jobs (Table 6, 16 jobs in 55 ticks). The oracle does not
/// get to its end; the search without a memory took twelve seconds for these vertices.
fn the_papers_largest_set() -> Result<(), String> {
    const COUNT: u32 = 2_705_846_136;
    const ENERGY: u32 = 250;
    let file = Tables {
        devices: vec![device_a(); 2],
        tasks: vec![task(5, 1, 0b01), task(11, 3, 0b10)],
        ..Tables::default()
    }
    .bytes();
    let mut memory = vec![u64::MAX / 7; 3_000];
    for (budget, expected) in [
        (COUNT - 1, (20, 0, COUNT - 1)),
        (COUNT, (0, ENERGY, COUNT)),
        (u32::MAX, (0, ENERGY, COUNT)),
    ] {
        let (mut starts, mut result) = ([0; 32], [0; RESULT]);
        let (mut others, mut told) = ([0; 32], [0; RESULT]);
        let number = library::search(&file, budget, &mut starts, &mut result);
        let same = library::search_in(&file, budget, &mut memory, &mut others, &mut told);
        let number_at =
            |at: usize| u32::from_be_bytes(result[at..at + 4].try_into().expect("four"));
        let got = (number, number_at(3), number_at(7));
        if got != expected || (number, starts, result) != (same, others, told) {
            return Err(format!(
                "the paper's largest set: {got:?}, not {expected:?}"
            ));
        }
    }
    Ok(())
}

/// What is known of a drawn case.
pub fn searched(case: Case) -> Searched {
    match case.kind {
        Kind::OverBudget => too_long(case.file),
        _ => Searched::new(case.file),
    }
}

/// A request that is too long to list. Start times to be judged may come from anywhere: whether they are
/// feasible is for the judge to say.
fn too_long(file: Vec<u8>) -> Searched {
    const BUDGET: u32 = 1_000_000;
    // The first complete vertex comes soon or not at all.
    const SOON: u64 = 2_000;
    let mut searched = Searched::long(file, long::LIMIT);
    let request = searched.read.as_ref().expect("an accepted request");
    searched.best_from = visit(request, SOON).best_from;
    let jobs = request.jobs.len();
    let (mut starts, mut result) = (vec![0; 2 * jobs], [0; RESULT]);
    let number = library::possible(&searched.file, BUDGET, &mut starts, &mut result);
    if number == 0 {
        searched.planned.get_or_insert(pairs(&starts));
    }
    searched
}

/// Whether the comparison finds fault with a search.
fn is_found(wrong: Search) -> bool {
    let mut tester = Tester::new(wrong);
    (0..FEW).any(|number| {
        let known = match number % 6 {
            0 => too_long(long::draw(&mut Random::new(SEED, number))),
            _ => searched(draw(SEED, number)),
        };
        tester.search(&known);
        tester.failure.is_some()
    })
}

const WRONG: [(&str, Search); 5] = [
    (
        "the best so far for the least where the budget ran out, but for one that lacks a vertex",
        |file, budget, starts, result| {
            let (mut others, mut told) = (starts.to_vec(), [0; RESULT]);
            let number = library::search(file, budget, starts, result);
            let one_more = library::search(file, budget.saturating_add(1), &mut others, &mut told);
            match (number, one_more) {
                (20, 20) if library::possible(file, budget, starts, result) == 0 => 0,
                _ => number,
            }
        },
    ),
    (
        "starts written where the budget ran out",
        |file, budget, starts, result| {
            let mut told = [0; RESULT];
            let number = library::search(file, budget, starts, result);
            if number == 20 {
                library::possible(file, budget, starts, &mut told);
            }
            number
        },
    ),
    (
        "19 where the budget ran out with no best at hand",
        |file, budget, starts, result| {
            let (mut first, mut told) = ([0; 32], [0; RESULT]);
            let number = library::search(file, budget, starts, result);
            let has_best = library::possible(file, budget, &mut first, &mut told) == 0;
            match number {
                20 if !has_best => 19,
                _ => number,
            }
        },
    ),
    (
        "a budget that has to be above the count",
        |file, budget, starts, result| match budget {
            0 | u32::MAX => library::search(file, budget, starts, result),
            _ => library::search(file, budget - 1, starts, result),
        },
    ),
    (
        "a budget of 16 bits",
        |file, budget, starts, result| match budget {
            u32::MAX => library::search(file, budget, starts, result),
            _ => {
                let number = library::search(file, budget % 65_536, starts, result);
                if number == 20 && result.len() >= RESULT {
                    result[7..RESULT].copy_from_slice(&budget.to_be_bytes());
                }
                number
            }
        },
    ),
];
