//! The searches on long horizons, with wide windows and long moves: up to 4,096 ticks and moves of 255.

use crate::expected::{Searched, RESULT};
use crate::searching::Search;
use crate::{library, Tester};
use outside::cases::random::Random;
use outside::oracle::long;

const SEED: u64 = 60;
const REQUESTS: u64 = 150;

/// Requests to find a wrong search on.
const FEW: u64 = 20;

pub fn test(tester: &mut Tester) -> Result<(), String> {
    for number in 0..REQUESTS {
        tester.wide(&drawn(number));
        if let Some(failure) = tester.failure.take() {
            return Err(failure);
        }
    }
    for (name, wrong) in WRONG {
        let mut tester = Tester::new(wrong);
        (0..FEW).for_each(|number| tester.search(&drawn(number)));
        if tester.failure.is_none() {
            return Err(format!("not found: a search of wide windows with {name}"));
        }
    }
    Ok(())
}

fn drawn(number: u64) -> Searched {
    let file = long::draw_wide(&mut Random::new(SEED, number));
    Searched::long(file, long::WIDE_LIMIT)
}

impl Tester {
    /// Every search, and the plan judged by its rows.
    fn wide(&mut self, searched: &Searched) {
        let request = searched.read.as_ref().expect("an accepted request");
        let (jobs, size) = (
            request.jobs.len(),
            request.devices.len() * request.horizon as usize,
        );
        self.search(searched);
        self.search_in(searched);
        self.first(searched, jobs);
        self.least(searched, jobs);
        self.rows(searched, size);
        self.verdict(searched);
    }
}

/// Searches that go wrong only where a number is large.
const WRONG: [(&str, Search); 2] = [
    ("moves of seven bits", |file, budget, starts, result| {
        let mut cut = file.to_vec();
        if cut[0] != 0xFF {
            let devices = usize::from(cut[2]);
            let records = cut[3..3 + 7 * devices].chunks_exact_mut(7);
            records.for_each(|record| record[0] &= 0x7F);
        }
        library::search(&cut, budget, starts, result)
    }),
    ("starts of eleven bits", |file, budget, starts, result| {
        let number = library::search(file, budget, starts, result);
        let is_told = number == 0 && result.len() >= RESULT;
        if is_told {
            starts.iter_mut().step_by(2).for_each(|high| *high &= 7);
        }
        number
    }),
];
