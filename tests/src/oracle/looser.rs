//! Looser windows, from outside: pairs of job lists that differ in their windows alone, those of the
//! second being no narrower, and what the searches of both give (rules 97 to 99).
//!
//! The job records are the last bytes of a job list whatever its kind, so that a window is widened in
//! the file itself, and nothing here knows how a device is laid out.

use crate::cases::random::Random;
use crate::cases::recorders::{self, Fitted, List};
use crate::cases::{draw_of, Kind};
use crate::oracle::request::{read, Job, Request};

/// What a search gives, as far as it is compared.
#[derive(Clone, Copy, Debug, PartialEq, Eq)]
pub struct Found {
    pub number: u8,
    pub energy: u64,
    pub count: u64,
}

/// How often each thing was seen of two searches that both came to their end.
#[derive(Clone, Debug, Default, PartialEq, Eq)]
pub struct Met {
    pub pairs: u64,
    /// Only the looser windows have a plan: what holds from the first to the second does not hold back.
    pub helped: u64,
    pub neither: u64,
    pub cheaper: u64,
    pub as_dear: u64,
    pub more_vertices: u64,
    pub fewer_vertices: u64,
}

impl Met {
    /// Names of what was never seen.
    pub fn missed(&self) -> Vec<&'static str> {
        [
            ("a plan for the looser windows only", self.helped),
            ("no plan for either", self.neither),
            ("a cheaper plan", self.cheaper),
            ("a plan that costs the same", self.as_dear),
            ("more vertices", self.more_vertices),
            ("fewer vertices", self.fewer_vertices),
        ]
        .into_iter()
        .filter(|&(_, count)| count == 0)
        .map(|(name, _)| name)
        .collect()
    }

    fn add(&mut self, first: Found, second: Found) {
        self.pairs += 1;
        match (first.number, second.number) {
            (0, _) if second.energy < first.energy => self.cheaper += 1,
            (0, _) => self.as_dear += 1,
            (_, 0) => self.helped += 1,
            _ => self.neither += 1,
        }
        self.more_vertices += u64::from(second.count > first.count);
        self.fewer_vertices += u64::from(second.count < first.count);
    }
}

/// The kinds of cases that have job lists.
const KINDS: [Kind; 5] = [
    Kind::Jobs,
    Kind::Dear,
    Kind::Second,
    Kind::Third,
    Kind::Tight,
];

/// Bytes of a job record: release, deadline, running time, device set.
const RECORD: usize = 7;

/// A job list, and the same with some windows wider.
fn pair(seed: u64, number: u64) -> (Vec<u8>, Vec<u8>) {
    let mut random = Random::new(seed, number);
    loop {
        let kind = KINDS[number as usize % KINDS.len()];
        let file = draw_of(kind, seed, random.within(0, u64::MAX - 1)).file;
        let Ok(request) = read(&file) else { continue };
        if request.round || request.jobs.is_empty() {
            continue;
        }
        let wider = widened(&mut random, &file, &request);
        return (file, wider);
    }
}

/// The same of a recorder's size.
fn large_pair(seed: u64, number: u64) -> (Vec<u8>, Vec<u8>) {
    let mut random = Random::new(seed, number);
    let fitted = Fitted {
        devices: random.within(2, 4),
        transition: random.pick(&[4, 10, 20]),
    };
    let list = List {
        horizon: random.u16(100, 600),
        jobs: random.within(6, 12),
        load: random.within(30, 70),
        window: random.within(5, 15),
    };
    let file = recorders::list(&mut random, fitted, list).bytes();
    let request = read(&file).expect("an accepted file");
    let wider = widened(&mut random, &file, &request);
    (file, wider)
}

/// The file with some windows wider.
fn widened(random: &mut Random, file: &[u8], request: &Request) -> Vec<u8> {
    let mut wider = file.to_vec();
    let records = file.len() - RECORD * request.jobs.len();
    for (record, job) in wider[records..].chunks_mut(RECORD).zip(&request.jobs) {
        widen(random, record, job, request.horizon);
    }
    wider
}

/// Releases and deadlines each stay, move by a tick or two, or go anywhere on their side.
fn widen(random: &mut Random, record: &mut [u8], job: &Job, horizon: u32) {
    let mut shift = |most: u32| match random.within(1, 4) {
        1 | 2 => 0,
        3 => most.min(random.within(1, 2) as u32),
        _ => random.within(0, most.into()) as u32,
    };
    let release = (job.release - shift(job.release)) as u16;
    let deadline = (job.deadline + shift(horizon - job.deadline)) as u16;
    record[..2].copy_from_slice(&release.to_be_bytes());
    record[2..4].copy_from_slice(&deadline.to_be_bytes());
}

/// Holds the searches of so many pairs to rule 99. A pair of which one comes to no end is left out;
/// the first that breaks the rule ends it.
pub fn run(seed: u64, pairs: u64, search: impl Fn(&[u8]) -> Found) -> Result<Met, String> {
    run_of(pair, seed, pairs, search)
}

/// The same with lists of a recorder's size.
pub fn run_large(seed: u64, pairs: u64, search: impl Fn(&[u8]) -> Found) -> Result<Met, String> {
    run_of(large_pair, seed, pairs, search)
}

fn run_of(
    draw: fn(u64, u64) -> (Vec<u8>, Vec<u8>),
    seed: u64,
    pairs: u64,
    search: impl Fn(&[u8]) -> Found,
) -> Result<Met, String> {
    let mut met = Met::default();
    for number in 0..pairs {
        let (file, wider) = draw(seed, number);
        let (first, second) = (search(&file), search(&wider));
        for (file, found) in [(&file, first), (&wider, second)] {
            if ![0, 19, 20].contains(&found.number) {
                return Err(format!("file {file:02X?} is refused: {found:?}"));
            }
        }
        if first.number == 20 || second.number == 20 {
            continue;
        }
        if first.number == 0 && (second.number != 0 || second.energy > first.energy) {
            return Err(format!(
                "looser windows cost more: {first:?} and {second:?}\n  file  {file:02X?}\n  wider {wider:02X?}"
            ));
        }
        met.add(first, second);
    }
    Ok(met)
}

#[cfg(test)]
mod tests {
    use super::*;
    use crate::oracle::visit::visit;

    const SEED: u64 = 13;
    const PAIRS: u64 = 4_000;
    const LIMIT: u64 = 100_000;

    /// By the visit of the oracle.
    fn visited(file: &[u8]) -> Found {
        let request = read(file).expect("an accepted file");
        let visited = visit(&request, LIMIT);
        let number = match visited.best {
            _ if visited.count >= LIMIT => 20,
            None => 19,
            Some(_) => 0,
        };
        Found {
            number,
            energy: visited.best.unwrap_or(0),
            count: visited.count,
        }
    }

    #[test]
    fn looser_windows_never_cost_more() {
        let met = run(SEED, PAIRS, visited).expect("no pair that costs more");
        assert_eq!(met.missed(), [""; 0], "{met:?}");
    }

    /// The same pairs the other way round: narrower windows may cost more.
    #[test]
    fn narrower_windows_are_told() {
        let breaks = |number| {
            let (file, wider) = pair(SEED, number);
            let (first, second) = (visited(&wider), visited(&file));
            first.number == 0 && second.number == 19
                || first.number == 0 && second.number == 0 && second.energy > first.energy
        };
        assert!((0..PAIRS).filter(|&number| breaks(number)).count() > 100);
    }

    /// Whoever charges for the width of a window is found out.
    #[test]
    fn a_search_that_charges_for_width_is_refused() {
        let charged = |file: &[u8]| {
            let width = |job: &Job| u64::from(job.deadline - job.release);
            let found = visited(file);
            let jobs = read(file).expect("an accepted file").jobs;
            Found {
                energy: found.energy + jobs.iter().map(width).sum::<u64>(),
                ..found
            }
        };
        assert!(run(SEED, PAIRS, charged).is_err());
    }
}
