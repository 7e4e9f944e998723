//! The first of all plans, from outside: random requests and lent lists, and for each call the whole
//! outcome that rules 112 to 115 ask for.
//!
//! Small requests are held to the full listing. Large ones are beyond any listing, and are held to
//! `by_sets`: how soon a set of jobs can be over that is begun at a given time, from the smallest set
//! up. It goes forwards, and works a table out anew wherever it asks; the proved code has one table,
//! made backwards, of how late a set can still be begun. The small requests hold it to the listing.

use crate::cases::faults::damaged;
use crate::cases::random::Random;
use crate::cases::tables::{job, JobRecord, Tables};
use crate::cases::valid::{device, hopeless_list, shuffle};
use crate::cases::{second, third};
use crate::oracle::listing;
use crate::oracle::possible::{self, Met, Outcome};
use crate::oracle::request::{read, Job, Request};

/// Takes the file and the lent list.
pub trait Asking: Fn(&[u8], &[u16]) -> Outcome {}
impl<F: Fn(&[u8], &[u16]) -> Outcome> Asking for F {}

/// The same through a function that is called with bytes, two for each start, and writes its result
/// into eleven.
pub fn by_bytes(call: impl Fn(&[u8], &mut [u8], &mut [u8]) -> u8) -> impl Asking {
    let ask = possible::by_bytes(move |file, _, starts, result| call(file, starts, result));
    move |file: &[u8], lent: &[u16]| ask(file, 0, lent)
}

/// How soon the last of these jobs can end, if the first begins at `time` or later; nothing where some
/// job ends late in every order.
fn soonest_end(jobs: &[&Job], time: u32) -> Option<u32> {
    let mut ends = vec![None; 1 << jobs.len()];
    ends[0] = Some(time);
    for set in 1..ends.len() {
        // Whichever of the set runs last, the others are over as soon as can be.
        let members = (0..jobs.len()).filter(|place| set >> place & 1 == 1);
        let last = |place: usize| {
            let (job, others) = (jobs[place], set ^ (1 << place));
            let end = ends[others]?.max(job.release) + job.running;
            (end <= job.deadline).then_some(end)
        };
        ends[set] = members.filter_map(last).min();
    }
    ends[(1 << jobs.len()) - 1]
}

/// The first schedule by job number: always the smallest number, at its earliest start, after which the
/// others can still be in time.
fn by_sets(request: &Request) -> Option<Vec<u32>> {
    let jobs = &request.jobs;
    let mut left: Vec<usize> = (0..jobs.len()).collect();
    let (mut starts, mut time) = (vec![0; jobs.len()], 0);
    while !left.is_empty() {
        let first = left.iter().position(|&number| {
            let end = time.max(jobs[number].release) + jobs[number].running;
            let others = left.iter().filter(|&&other| other != number);
            let others: Vec<&Job> = others.map(|&other| &jobs[other]).collect();
            end <= jobs[number].deadline && soonest_end(&others, end).is_some()
        });
        let number = left.remove(first?);
        starts[number] = time.max(jobs[number].release);
        time = starts[number] + jobs[number].running;
    }
    Some(starts)
}

/// Whether all jobs can be in time.
pub fn has_plan(request: &Request) -> bool {
    let jobs: Vec<&Job> = request.jobs.iter().collect();
    soonest_end(&jobs, 0).is_some()
}

fn is_listed(request: &Request) -> bool {
    listing::size(request) <= 20_000
}

/// The first schedule, of a request of any size.
pub fn expected(request: &Request) -> Option<Vec<u32>> {
    if is_listed(request) {
        listing::first(request)
    } else {
        by_sets(request)
    }
}

/// The whole outcome, where `first` says of the request what comes first.
pub(crate) fn outcome(
    file: &[u8],
    lent: &[u16],
    first: impl Fn(&Request) -> Option<Vec<u32>>,
) -> Outcome {
    let refused = |number| Outcome::new(number, 0, 0, lent.to_vec());
    let request = match read(file) {
        Ok(request) => request,
        Err(number) => return refused(number),
    };
    if lent.len() < request.jobs.len() {
        return refused(15);
    }
    let Some(starts) = first(&request) else {
        return refused(19);
    };
    let mut after = lent.to_vec();
    for (place, start) in after.iter_mut().zip(starts) {
        *place = start as u16;
    }
    Outcome::new(0, request.horizon, 0, after)
}

/// Draws requests of every kind, most of them small enough to list, and damaged files, and holds the
/// outcomes to the rules; the first that differs ends it.
pub fn run(seed: u64, requests: u64, ask: impl Asking) -> Result<Met, String> {
    run_of(draw, seed, requests, ask)
}

/// The same with requests of up to 16 jobs and 4,096 ticks, whose windows leave hardly any room: about
/// a third has no plan.
pub fn run_large(seed: u64, requests: u64, ask: impl Asking) -> Result<Met, String> {
    run_of(|random| large(random).bytes(), seed, requests, ask)
}

fn run_of(
    draw: impl Fn(&mut Random) -> Vec<u8>,
    seed: u64,
    requests: u64,
    ask: impl Asking,
) -> Result<Met, String> {
    let mut met = Met::default();
    for number in 0..requests {
        let mut random = Random::new(seed, number);
        let file = draw(&mut random);
        let jobs = read(&file).map_or(0, |request| request.jobs.len());
        let lent = possible::lent(&mut random, jobs);
        let expected = outcome(&file, &lent, expected);
        let got = ask(&file, &lent);
        if got != expected {
            return Err(format!(
                "file {file:?}, lent {lent:?}\nexpected {expected:?}\ngot      {got:?}"
            ));
        }
        met.numbers[usize::from(got.number)] += 1;
    }
    Ok(met)
}

/// What is asked of `any_plan` too, and the kinds and faults that it is not asked for.
fn draw(random: &mut Random) -> Vec<u8> {
    match random.within(1, 8) {
        1 => second::accepted(random).bytes(),
        2 => second::damaged(random),
        3 => third::accepted(random).bytes(),
        4 => {
            let tables = small_clash(random);
            damaged(random, tables)
        }
        5 => small_clash(random).bytes(),
        _ => possible::draw_file(random),
    }
}

/// Jobs of which those with the sooner deadline must not always go first.
fn small_clash(random: &mut Random) -> Tables {
    let mut tables = Tables {
        horizon: random.u16(6, 14),
        devices: vec![device(random)],
        ..Tables::default()
    };
    for _ in 0..random.within(2, 4) {
        let running = random.u16(1, 3);
        let release = random.u16(0, tables.horizon - running);
        let deadline = (release + running + random.u16(0, 4)).min(tables.horizon);
        tables.jobs.push(job(release, deadline, running, 1));
    }
    tables
}

/// Jobs laid one after the other, with little room around each; then some of them run longer, so that
/// not every request has a plan. One in eight is beyond any budget of a visit: fourteen loose jobs, and
/// two that want the same tick.
fn large(random: &mut Random) -> Tables {
    if random.one_in(8) {
        let room = random.u16(200, 4_000);
        return hopeless_list(random, 14, room);
    }
    let count = random.pick(&[10, 12, 14, 16, 16, 16, 16, 16]);
    let mut tables = Tables {
        horizon: random.pick(&[64, 200, 1_000, 4_095, 4_096]),
        devices: vec![device(random)],
        ..Tables::default()
    };
    let share = tables.horizon / count;
    let room = share * random.u16(1, 4);
    for number in 0..count {
        let running = random.u16(1, share);
        let start = number * share + random.u16(0, share - running);
        let release = start.saturating_sub(random.u16(0, room));
        let end = start + running + random.u16(0, room);
        let deadline = end.min(tables.horizon);
        tables.jobs.push(job(release, deadline, running, 1));
    }
    for _ in 0..random.within(0, 7) {
        let place = random.index(tables.jobs.len());
        lengthen(random, &mut tables.jobs[place], share);
    }
    shuffle(random, &mut tables.jobs);
    tables
}

fn lengthen(random: &mut Random, job: &mut JobRecord, most: u16) {
    let window = job.deadline - job.release;
    job.running = (job.running + random.u16(0, most)).min(window);
}

#[cfg(test)]
mod tests {
    use super::*;

    const SEED: u64 = 32;
    const REQUESTS: u64 = 2_000;
    const LARGE: u64 = 40;

    /// An asking that follows the rules but for what comes first.
    fn by(first: impl Fn(&Request) -> Option<Vec<u32>>) -> impl Asking {
        move |file: &[u8], lent: &[u16]| outcome(file, lent, &first)
    }

    fn is_refused(ask: impl Asking) -> bool {
        run(SEED, REQUESTS, ask).is_err()
    }

    #[test]
    fn the_sets_agree_with_the_listing_and_every_number_is_met() {
        let met = run(SEED, REQUESTS, by(by_sets)).expect("the same outcomes");
        for number in (0..=13).chain([15, 19, 26]) {
            assert!(met.numbers[number] > 0, "{number} is not met");
        }
        assert_eq!(met.numbers[20], 0);
    }

    #[test]
    fn about_a_third_of_the_large_has_no_plan() {
        let met = run_large(SEED, LARGE, by(by_sets)).expect("the same outcomes");
        let (yes, no) = (met.numbers[0], met.numbers[19]);
        assert!(no * 4 > yes + no && yes > no, "{yes} yes, {no} no");
    }

    /// Jobs in the order that `key` gives them, each as early as it goes.
    fn in_order<K: Ord>(request: &Request, key: impl Fn(&Job) -> K) -> Option<Vec<u32>> {
        let jobs = &request.jobs;
        let mut order: Vec<usize> = (0..jobs.len()).collect();
        order.sort_by_key(|&number| key(&jobs[number]));
        let (mut starts, mut time) = (vec![0; jobs.len()], 0);
        for number in order {
            starts[number] = time.max(jobs[number].release);
            time = starts[number] + jobs[number].running;
            if time > jobs[number].deadline {
                return None;
            }
        }
        Some(starts)
    }

    #[test]
    fn no_where_only_the_sooner_deadline_first_misses_is_refused() {
        assert!(is_refused(by(|request| {
            let greedy = in_order(request, |job| job.deadline);
            greedy.and_then(|_| expected(request))
        })));
    }

    #[test]
    fn the_plan_by_sooner_deadlines_is_refused() {
        assert!(is_refused(by(|request| {
            in_order(request, |job| job.deadline).or_else(|| expected(request))
        })));
    }

    #[test]
    fn the_cheapest_for_the_first_is_refused() {
        assert!(is_refused(by(|request| {
            if !is_listed(request) {
                return expected(request);
            }
            listing::first_of_the_least(request).map(|best| best.starts)
        })));
    }

    #[test]
    fn an_energy_or_a_count_is_refused() {
        for place in [6, 10] {
            let right = by(expected);
            assert!(is_refused(move |file: &[u8], lent: &[u16]| {
                let mut outcome = right(file, lent);
                outcome.result[place] = u8::from(outcome.number == 0);
                outcome
            }));
        }
    }
}
