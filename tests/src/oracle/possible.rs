//! Whether there is a plan, from outside: random requests, budgets and lent lists, and for each call
//! the whole outcome that rules 60 to 64 ask for.
//!
//! The schedule comes from the full listing, in which there is no tree: of all feasible vectors the
//! first in the order of rule 47. The count comes from the tree laid out level by level, in which
//! nothing is visited: the vertices that stand at or before the schedule, as sequences compare.
//! Requests too large for that are held to `visited`, which does visit; the small ones hold it to both.

use crate::cases::faults::damaged;
use crate::cases::random::Random;
use crate::cases::second;
use crate::cases::tables::Tables;
use crate::cases::third;
use crate::cases::valid::{
    crowded_list, hopeless_list, job_list, long_list, loose_list, task_list, tight_list,
};
use crate::oracle::listing;
use crate::oracle::request::{read, unmarked, Job, Request};

/// What a call gives: the number, the eleven bytes of the result and the lent list after it.
#[derive(Clone, Debug, PartialEq, Eq)]
pub struct Outcome {
    pub number: u8,
    pub result: [u8; 11],
    pub starts: Vec<u16>,
}

impl Outcome {
    /// Energy and job are 0 in every outcome.
    pub(crate) fn new(number: u8, horizon: u32, count: u32, starts: Vec<u16>) -> Outcome {
        let mut result = [0; 11];
        result[1..3].copy_from_slice(&(horizon as u16).to_be_bytes());
        result[7..].copy_from_slice(&count.to_be_bytes());
        Outcome {
            number,
            result,
            starts,
        }
    }

    pub fn count(&self) -> u32 {
        u32::from_be_bytes(self.result[7..].try_into().expect("four bytes"))
    }
}

/// Takes the file, the budget and the lent list.
pub trait Asking: Fn(&[u8], u32, &[u16]) -> Outcome {}
impl<F: Fn(&[u8], u32, &[u16]) -> Outcome> Asking for F {}

/// The same through a function that is called with bytes, two for each start, and writes its result
/// into eleven.
pub fn by_bytes(door: impl Fn(&[u8], u32, &mut [u8], &mut [u8]) -> u8) -> impl Asking {
    move |file: &[u8], budget: u32, lent: &[u16]| {
        let mut bytes: Vec<u8> = lent.iter().flat_map(|start| start.to_be_bytes()).collect();
        let mut result = [0; 11];
        let number = door(file, budget, &mut bytes, &mut result);
        let pairs = bytes.chunks_exact(2);
        Outcome {
            number,
            result,
            starts: pairs
                .map(|pair| u16::from_be_bytes([pair[0], pair[1]]))
                .collect(),
        }
    }
}

/// A vertex: (job, start) in running order. As vectors these compare as the visiting order has them:
/// a vertex before what is below it, then the smaller job, then the earlier start.
type Vertex = Vec<(usize, u32)>;

fn time(jobs: &[Job], vertex: &[(usize, u32)]) -> u32 {
    vertex
        .last()
        .map_or(0, |&(job, start)| start + jobs[job].running)
}

fn unplaced<'a>(jobs: &'a [Job], vertex: &'a [(usize, u32)]) -> impl Iterator<Item = usize> + 'a {
    (0..jobs.len()).filter(|&job| vertex.iter().all(|&(placed, _)| placed != job))
}

/// Cut A: a job that is late already, or more to run than the horizon has room for.
fn is_cut(request: &Request, vertex: &[(usize, u32)]) -> bool {
    let jobs = &request.jobs;
    let time = time(jobs, vertex);
    let late = |job: usize| time.max(jobs[job].release) > jobs[job].latest();
    let load: u32 = unplaced(jobs, vertex).map(|job| jobs[job].running).sum();
    unplaced(jobs, vertex).any(late) || time + load > request.horizon
}

fn children(jobs: &[Job], vertex: &[(usize, u32)]) -> Vec<Vertex> {
    let time = time(jobs, vertex);
    let with = |place| [vertex, &[place][..]].concat();
    unplaced(jobs, vertex)
        .flat_map(|job| {
            (time.max(jobs[job].release)..=jobs[job].latest()).map(move |start| (job, start))
        })
        .map(with)
        .collect()
}

/// The first schedule by job number, and the vertices till then; with none, all of them.
#[derive(Clone, Debug, PartialEq, Eq)]
struct Answer {
    starts: Option<Vec<u32>>,
    count: u64,
}

/// By the listing and the levels of the tree; nothing where the tree is too large.
fn laid_out(request: &Request) -> Option<Answer> {
    const WIDEST: usize = 3_000;
    if listing::size(request) > 20_000 {
        return None;
    }
    let starts = listing::first(request);
    let last: Option<Vertex> = starts.as_deref().map(listing::running_order);
    let (mut count, mut level) = (0, vec![Vertex::new()]);
    while !level.is_empty() {
        let is_before = |vertex: &&Vertex| last.as_ref().is_none_or(|last| *vertex <= last);
        count += level.iter().filter(is_before).count() as u64;
        let spared = level.iter().filter(|vertex| !is_cut(request, vertex));
        level = spared
            .flat_map(|vertex| children(&request.jobs, vertex))
            .collect();
        if level.len() > WIDEST {
            return None;
        }
    }
    Some(Answer { starts, count })
}

/// By a visit that stops when it has found a schedule, or has counted `limit` vertices.
fn visited(request: &Request, limit: u64) -> Answer {
    fn visit(request: &Request, vertex: &[(usize, u32)], limit: u64, answer: &mut Answer) {
        answer.count += 1;
        if is_cut(request, vertex) {
            return;
        }
        if vertex.len() == request.jobs.len() {
            let mut starts = vec![0; vertex.len()];
            vertex.iter().for_each(|&(job, start)| starts[job] = start);
            answer.starts = Some(starts);
            return;
        }
        for child in children(&request.jobs, vertex) {
            if answer.starts.is_some() || answer.count >= limit {
                return;
            }
            visit(request, &child, limit, answer);
        }
    }
    let mut answer = Answer {
        starts: None,
        count: 0,
    };
    visit(request, &[], limit, &mut answer);
    answer
}

/// Counting stops here; no budget that is drawn is larger, but for those that cover everything.
const LIMIT: u64 = 200_000;

/// The whole outcome, where `answer` says of the request what is found and counted.
fn outcome(file: &[u8], budget: u32, lent: &[u16], answer: impl Fn(&Request) -> Answer) -> Outcome {
    let refused = |number, count| Outcome::new(number, 0, count, lent.to_vec());
    let request = match read(file) {
        Ok(request) => request,
        Err(number) => return refused(number, 0),
    };
    if lent.len() < request.jobs.len() {
        return refused(15, 0);
    }
    let answer = answer(&request);
    if u64::from(budget) < answer.count {
        return refused(20, budget);
    }
    let Some(starts) = answer.starts else {
        return refused(19, answer.count as u32);
    };
    let mut after = lent.to_vec();
    for (place, start) in after.iter_mut().zip(starts) {
        *place = start as u16;
    }
    Outcome::new(0, request.horizon, answer.count as u32, after)
}

/// What a call has to give.
pub fn asked(file: &[u8], budget: u32, lent: &[u16]) -> Outcome {
    outcome(file, budget, lent, expected)
}

fn expected(request: &Request) -> Answer {
    laid_out(request).unwrap_or_else(|| visited(request, LIMIT))
}

/// The numbers that were met, and for each kind of file how many plans were found.
#[derive(Clone, Debug, Default, PartialEq, Eq)]
pub struct Met {
    pub numbers: [u64; 27],
    pub found: [u64; 3],
}

/// A request and a lent list, to be asked about under several budgets.
#[derive(Clone, Debug)]
pub struct Question {
    pub file: Vec<u8>,
    pub lent: Vec<u16>,
}

impl Question {
    /// Holds the outcomes under budgets around the count to the rules; the first that differs ends it.
    pub fn hold(&self, ask: &impl Asking, met: &mut Met) -> Result<(), String> {
        let Question { file, lent } = self;
        for budget in budgets(file) {
            let expected = outcome(file, budget, lent, expected);
            let got = ask(file, budget, lent);
            if got != expected {
                return Err(format!(
                    "file {file:?}, budget {budget}, lent {lent:?}\nexpected {expected:?}\ngot      {got:?}"
                ));
            }
            met.numbers[usize::from(got.number)] += 1;
            met.found[unmarked(file).0 as usize] += u64::from(got.number == 0);
        }
        Ok(())
    }
}

/// Draws requests and lent lists and holds every outcome to the rules.
pub fn run(seed: u64, requests: u64, ask: impl Asking) -> Result<Met, String> {
    let mut met = Met::default();
    for number in 0..requests {
        draw(&mut Random::new(seed, number)).hold(&ask, &mut met)?;
    }
    Ok(met)
}

/// None, one, the count and its neighbours; without bound only where the count is known.
fn budgets(file: &[u8]) -> Vec<u32> {
    let count = read(file).map_or(0, |request| expected(&request).count);
    if count >= LIMIT {
        return vec![0, 1, LIMIT as u32 - 1];
    }
    let count = count as u32;
    vec![0, 1, count.saturating_sub(1), count, count + 1, u32::MAX]
}

pub fn draw(random: &mut Random) -> Question {
    let file = draw_file(random);
    let jobs = read(&file).map_or(0, |request| request.jobs.len());
    let lent = lent(random, jobs);
    Question { file, lent }
}

/// Mostly good files of every shape, and some damaged ones.
pub(crate) fn draw_file(random: &mut Random) -> Vec<u8> {
    match random.within(1, 16) {
        1 => crowded_list(random).bytes(),
        2 => long_list(random).bytes(),
        3 => task_list(random).bytes(),
        4 => loose_list(random).bytes(),
        5 => hopeless(random).bytes(),
        6 | 7 => tight_list(random).bytes(),
        8 | 9 => {
            let tables = job_list(random);
            damaged(random, tables)
        }
        10 => third::accepted(random).bytes(),
        11 => third::damaged(random),
        12 => second::accepted(random).bytes(),
        13 => second::damaged(random),
        _ => job_list(random).bytes(),
    }
}

/// No schedule, and from a few to some thousand vertices to show it.
fn hopeless(random: &mut Random) -> Tables {
    let loose = random.within(1, 4);
    let room = random.u16(loose as u16 + 1, 6);
    hopeless_list(random, loose, room)
}

/// A lent list, mostly as long as needed or longer, filled with numbers that mean nothing.
pub(crate) fn lent(random: &mut Random, needed: usize) -> Vec<u16> {
    let length = match random.within(1, 12) {
        1 => random.within(0, needed as u64) as usize,
        2 => needed.saturating_sub(1),
        3..=6 => needed,
        _ => needed + random.within(1, 7) as usize,
    };
    (0..length).map(|_| random.u16(0, 65_535)).collect()
}

#[cfg(test)]
mod tests {
    use super::*;

    const SEED: u64 = 17;
    const REQUESTS: u64 = 1_500;

    /// An asking that follows the rules but for what `change` does to the answer.
    fn by(change: impl Fn(&Request, Answer) -> Answer) -> impl Asking {
        move |file: &[u8], budget: u32, lent: &[u16]| {
            outcome(file, budget, lent, |request: &Request| {
                change(request, visited(request, LIMIT))
            })
        }
    }

    fn is_refused(ask: impl Asking) -> bool {
        run(SEED, REQUESTS, ask).is_err()
    }

    #[test]
    fn the_visit_agrees_and_every_number_is_met() {
        let met = run(SEED, REQUESTS, by(|_, answer| answer)).expect("the same outcomes");
        for number in (0..=13).chain([15, 19, 20]) {
            assert!(met.numbers[number] > 0, "{number} is not met");
        }
        assert!(met.found.iter().all(|&found| found > 50), "{met:?}");
    }

    #[test]
    fn an_uncounted_vertex_is_refused() {
        let less = |_: &Request, answer: Answer| Answer {
            count: answer.count - u64::from(answer.starts.is_some()),
            ..answer
        };
        assert!(is_refused(by(less)));
    }

    #[test]
    fn an_energy_is_refused() {
        let right = by(|_, answer| answer);
        assert!(is_refused(move |file: &[u8], budget: u32, lent: &[u16]| {
            let mut outcome = right(file, budget, lent);
            outcome.result[6] = u8::from(outcome.number == 0);
            outcome
        }));
    }

    #[test]
    fn no_for_an_exhausted_budget_is_refused() {
        let right = by(|_, answer| answer);
        assert!(is_refused(move |file: &[u8], budget: u32, lent: &[u16]| {
            let mut outcome = right(file, budget, lent);
            if outcome.number == 20 {
                outcome.number = 19;
            }
            outcome
        }));
    }

    #[test]
    fn the_cheapest_for_the_first_is_refused() {
        let cheapest = |request: &Request, answer: Answer| {
            if listing::size(request) > 20_000 {
                return answer;
            }
            let best = listing::first_of_the_least(request);
            Answer {
                starts: best.map(|best| best.starts),
                ..answer
            }
        };
        assert!(is_refused(by(cheapest)));
    }

    #[test]
    fn the_count_of_the_whole_tree_is_refused() {
        let whole = |request: &Request, answer: Answer| Answer {
            count: crate::oracle::visit::visit(request, LIMIT).count,
            ..answer
        };
        assert!(is_refused(by(whole)));
    }
}
