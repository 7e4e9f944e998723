//! Mending from outside: random requests, given starts and lent lists, and for each call the whole
//! outcome that rules 65 to 69 ask for.
//!
//! Small requests are listed: every vector of starts is written out, and those that are no schedule
//! in the order of the given starts, or start a job before its given time, are thrown away. What is
//! left says which start of each job is the smallest, and that there is none. So nothing here
//! follows the rule by which a job finds its place. Requests too large for that are held to `plain`,
//! which does follow it, and which the small ones hold to the listing.

use crate::cases::faults::damaged;
use crate::cases::random::Random;
use crate::cases::second;
use crate::cases::tables::{job, Tables};
use crate::cases::third;
use crate::cases::valid::{crowded_list, job_list, long_list, task_list, tight_list};
use crate::oracle::request::{read, unmarked, Job, Request};

/// What every operation of the library answers.
#[derive(Clone, Copy, Debug, Default, PartialEq, Eq)]
pub struct Answer {
    pub number: u8,
    pub job: u8,
    pub horizon: u16,
    pub energy: u32,
    pub count: u32,
}

impl Answer {
    fn refusal(number: u8) -> Answer {
        Answer {
            number,
            ..Answer::default()
        }
    }

    /// The number that a C function returns, and the eleven bytes that it writes.
    pub fn of_result(number: u8, result: &[u8; 11]) -> Answer {
        let wide = |at: usize| {
            result[at..at + 4]
                .iter()
                .fold(0, |sum: u32, &byte| sum << 8 | u32::from(byte))
        };
        Answer {
            number,
            job: result[0],
            horizon: u16::from_be_bytes([result[1], result[2]]),
            energy: wide(3),
            count: wide(7),
        }
    }
}

/// A mending: file, given starts, and two lent lists, for the new starts and for the moves.
pub trait Mending: Fn(&[u8], &[u16], &mut [u16], &mut [u16]) -> Answer {}
impl<F: Fn(&[u8], &[u16], &mut [u16], &mut [u16]) -> Answer> Mending for F {}

/// A mending that is called with bytes, two for each number, and writes its answer into eleven.
pub fn by_bytes(
    door: impl Fn(&[u8], &[u8], &mut [u8], &mut [u8], &mut [u8]) -> u8,
) -> impl Mending {
    move |file: &[u8], given: &[u16], starts: &mut [u16], moved: &mut [u16]| {
        let (mut out, mut list, mut result) = (bytes_of(starts), bytes_of(moved), [0; 11]);
        let number = door(file, &bytes_of(given), &mut out, &mut list, &mut result);
        numbers_of(&out, starts);
        numbers_of(&list, moved);
        Answer::of_result(number, &result)
    }
}

fn bytes_of(numbers: &[u16]) -> Vec<u8> {
    numbers
        .iter()
        .flat_map(|number| number.to_be_bytes())
        .collect()
}

fn numbers_of(bytes: &[u8], numbers: &mut [u16]) {
    for (number, pair) in numbers.iter_mut().zip(bytes.chunks(2)) {
        *number = u16::from_be_bytes([pair[0], pair[1]]);
    }
}

/// The jobs in the order of their given starts, equal starts by job number.
fn order(given: &[u16]) -> Vec<usize> {
    let mut order: Vec<usize> = (0..given.len()).collect();
    order.sort_by_key(|&job| (given[job], job));
    order
}

/// The new starts by job number, or the first job in running order that comes out late.
type Mended = Result<Vec<u16>, usize>;

/// How many vectors of starts the listing writes out.
fn size(jobs: &[Job]) -> u64 {
    let choices = |job: &Job| u64::from(job.latest() - job.release + 1);
    jobs.iter()
        .fold(1, |size: u64, job| size.saturating_mul(choices(job)))
}

/// By listing. A job comes out late exactly if it and those before it have no schedule, and those
/// before it have one.
pub(crate) fn listed(request: &Request, given: &[u16]) -> Mended {
    let order = order(given);
    let mut smallest = Vec::new();
    for count in 1..=order.len() {
        let front = &order[..count];
        match smallest_starts(request, given, front) {
            Some(starts) => smallest = starts,
            None => return Err(front[count - 1]),
        }
    }
    let mut starts = vec![0; order.len()];
    for (&job, &start) in order.iter().zip(&smallest) {
        starts[job] = start as u16;
    }
    Ok(starts)
}

/// Of all schedules of these jobs in this order, the smallest start that each job has.
fn smallest_starts(request: &Request, given: &[u16], order: &[usize]) -> Option<Vec<u32>> {
    let jobs: Vec<&Job> = order.iter().map(|&job| &request.jobs[job]).collect();
    let mut starts: Vec<u32> = jobs.iter().map(|job| job.release).collect();
    let mut smallest: Option<Vec<u32>> = None;
    let mut schedules = Vec::new();
    loop {
        let in_turn = (1..jobs.len()).all(|at| starts[at - 1] + jobs[at - 1].running <= starts[at]);
        let kept = (0..jobs.len()).all(|at| u32::from(given[order[at]]) <= starts[at]);
        if in_turn && kept {
            let least = smallest.get_or_insert_with(|| starts.clone());
            for (least, &start) in least.iter_mut().zip(&starts) {
                *least = start.min(*least);
            }
            schedules.push(starts.clone());
        }
        let Some(place) = (0..jobs.len()).find(|&at| starts[at] < jobs[at].latest()) else {
            break;
        };
        for at in 0..place {
            starts[at] = jobs[at].release;
        }
        starts[place] += 1;
    }
    // The smallest starts of all are themselves a schedule, as rule 66 takes for granted.
    if let Some(smallest) = &smallest {
        assert!(
            schedules.contains(smallest),
            "no schedule has all the smallest starts"
        );
    }
    smallest
}

/// By the rule: a job's given start, its release or the end before it, whichever is latest.
fn plain(request: &Request, given: &[u16]) -> Mended {
    let mut starts = vec![0; given.len()];
    let mut end = 0;
    for place in order(given) {
        let job = &request.jobs[place];
        let start = u32::from(given[place]).max(job.release).max(end);
        end = start + job.running;
        if job.deadline < end {
            return Err(place);
        }
        starts[place] = start as u16;
    }
    Ok(starts)
}

/// What is listed in less than a moment.
const LISTED: u64 = 20_000;

fn mended(request: &Request, given: &[u16]) -> Mended {
    if size(&request.jobs) <= LISTED {
        listed(request, given)
    } else {
        plain(request, given)
    }
}

/// The whole outcome: the answer, and what the two lent lists hold after it.
pub(crate) fn outcome(
    file: &[u8],
    given: &[u16],
    starts: &[u16],
    moved: &[u16],
    mended: impl Fn(&Request, &[u16]) -> Mended,
) -> (Answer, Vec<u16>, Vec<u16>) {
    let refused = |answer| (answer, starts.to_vec(), moved.to_vec());
    let request = match read(file) {
        Ok(request) => request,
        Err(number) => return refused(Answer::refusal(number)),
    };
    let count = request.jobs.len();
    if given.len() != count {
        return refused(Answer::refusal(14));
    }
    if starts.len() < count || moved.len() < 3 * count {
        return refused(Answer::refusal(15));
    }
    let new = match mended(&request, given) {
        Ok(new) => new,
        Err(late) => {
            return refused(Answer {
                job: late as u8,
                ..Answer::refusal(17)
            })
        }
    };
    let moves: Vec<u16> = (0..count)
        .filter(|&job| given[job] != new[job])
        .flat_map(|job| [job as u16, given[job], new[job]])
        .collect();
    let answer = Answer {
        horizon: request.horizon as u16,
        count: moves.len() as u32 / 3,
        ..Answer::default()
    };
    let over = |front: &[u16], lent: &[u16]| [front, &lent[front.len()..]].concat();
    (answer, over(&new, starts), over(&moves, moved))
}

/// One call: what it is given and lent.
#[derive(Clone, Debug)]
pub struct Call {
    pub file: Vec<u8>,
    pub given: Vec<u16>,
    pub starts: Vec<u16>,
    pub moved: Vec<u16>,
}

impl Call {
    /// The call's answer, or what is wrong with its outcome.
    pub fn hold(&self, mend: &impl Mending) -> Result<Answer, String> {
        let (mut starts, mut moved) = (self.starts.clone(), self.moved.clone());
        let answer = mend(&self.file, &self.given, &mut starts, &mut moved);
        let expected = outcome(&self.file, &self.given, &self.starts, &self.moved, mended);
        let got = (answer, starts, moved);
        if got == expected {
            return Ok(answer);
        }
        Err(format!("{self:?}\nexpected {expected:?}\ngot      {got:?}"))
    }
}

/// The numbers that were met, how many calls moved a job and moved none, and for each kind of file how
/// many were mended.
#[derive(Clone, Debug, Default, PartialEq, Eq)]
pub struct Met {
    pub numbers: [u64; 27],
    pub moved: u64,
    pub unmoved: u64,
    pub mended: [u64; 3],
}

impl Met {
    pub fn add(&mut self, file: &[u8], answer: Answer) {
        self.numbers[usize::from(answer.number)] += 1;
        if answer.number == 0 {
            self.moved += u64::from(answer.count > 0);
            self.unmoved += u64::from(answer.count == 0);
            self.mended[unmarked(file).0 as usize] += 1;
        }
    }
}

/// Draws calls and holds each outcome to the rules; the first that differs ends it.
pub fn run(seed: u64, calls: u64, mend: impl Mending) -> Result<Met, String> {
    let mut met = Met::default();
    for number in 0..calls {
        let call = draw(&mut Random::new(seed, number));
        met.add(&call.file, call.hold(&mend)?);
    }
    Ok(met)
}

/// A request with given starts and lent lists: mostly good ones, and sometimes a damaged file, a
/// start too many or too few, a list too short.
pub fn draw(random: &mut Random) -> Call {
    let file = match random.within(1, 16) {
        1 => crowded_list(random).bytes(),
        2 => long_list(random).bytes(),
        3 => task_list(random).bytes(),
        4 => job_list(random).bytes(),
        5 => tight_list(random).bytes(),
        6 => {
            let tables = small_list(random);
            damaged(random, tables)
        }
        7 => third::accepted(random).bytes(),
        8 => third::damaged(random),
        9 => second::accepted(random).bytes(),
        10 => second::damaged(random),
        _ => small_list(random).bytes(),
    };
    let request = read(&file).ok();
    let jobs = request.as_ref().map_or(&[][..], |request| &request.jobs);
    let mut given = given_starts(random, jobs);
    if random.one_in(12) {
        let more = random.u16(0, 65_535);
        given.push(more);
    } else if random.one_in(12) {
        given.pop();
    }
    let starts = lent(random, jobs.len());
    let moved = lent(random, 3 * jobs.len());
    Call {
        file,
        given,
        starts,
        moved,
    }
}

/// Few vectors of starts, and often a schedule in any order.
fn small_list(random: &mut Random) -> Tables {
    let horizon = random.u16(4, 12);
    let mut tables = Tables {
        horizon,
        ..Tables::default()
    };
    for _ in 0..random.within(1, 4) {
        let running = random.u16(1, 2);
        let release = if random.one_in(2) {
            0
        } else {
            random.u16(0, horizon - running)
        };
        let deadline = if random.one_in(2) {
            horizon
        } else {
            random.u16(release + running, horizon)
        };
        tables.jobs.push(job(release, deadline, running, 0));
    }
    tables
}

/// Given starts in any order: from a small range, so that ties are common, from each job's window,
/// a schedule of which some starts were shifted, or any of 16 bits.
fn given_starts(random: &mut Random, jobs: &[Job]) -> Vec<u16> {
    let horizon = jobs.iter().map(|job| job.deadline).max().unwrap_or(0) as u16;
    match random.within(1, 12) {
        1 => jobs.iter().map(|_| random.u16(0, 65_535)).collect(),
        2 => jobs
            .iter()
            .map(|_| random.pick(&[0, 1, horizon, 32_768, 65_533, 65_534, 65_535]))
            .collect(),
        3..=6 => {
            let most = random.u16(0, 3);
            jobs.iter().map(|_| random.u16(0, most)).collect()
        }
        7 => jobs
            .iter()
            .map(|job| random.u16(job.release as u16, job.latest() as u16))
            .collect(),
        8 => jobs.iter().map(|_| random.u16(0, horizon)).collect(),
        _ => shifted(random, jobs),
    }
}

/// The jobs one after the other by their deadlines, which often is a schedule, with some shifted.
fn shifted(random: &mut Random, jobs: &[Job]) -> Vec<u16> {
    let mut order: Vec<usize> = (0..jobs.len()).collect();
    order.sort_by_key(|&job| jobs[job].deadline);
    let mut starts = vec![0; jobs.len()];
    let mut end = 0;
    for place in order {
        let start = end.max(jobs[place].release);
        end = start + jobs[place].running;
        starts[place] = start as u16;
    }
    if !random.one_in(4) {
        for start in &mut starts {
            let by = random.u16(0, 2);
            *start = if random.one_in(2) {
                start.saturating_sub(by)
            } else {
                *start + by
            };
        }
    }
    starts
}

/// A lent list, mostly as long as needed or longer, filled with numbers that mean nothing.
fn lent(random: &mut Random, needed: usize) -> Vec<u16> {
    let length = match random.within(1, 24) {
        1 => random.within(0, needed as u64) as usize,
        2 => needed.saturating_sub(1),
        3..=14 => needed,
        _ => needed + random.within(1, 7) as usize,
    };
    (0..length).map(|_| random.u16(0, 65_535)).collect()
}

#[cfg(test)]
mod tests {
    use super::*;

    const SEED: u64 = 18;
    const CALLS: u64 = 20_000;

    fn by(rule: impl Fn(&Request, &[u16]) -> Mended) -> impl Mending {
        move |file: &[u8], given: &[u16], starts: &mut [u16], moved: &mut [u16]| {
            let (answer, new, moves) = outcome(file, given, starts, moved, &rule);
            starts.copy_from_slice(&new);
            moved.copy_from_slice(&moves);
            answer
        }
    }

    /// A mending whose rule has one thing changed: the order of two jobs, a job's start, what is late.
    fn changed(
        key: impl Fn(&[u16], usize) -> (u16, usize),
        start: impl Fn(u32, &Job, u32) -> u32,
        late: impl Fn(&Job, u32) -> bool,
    ) -> impl Mending {
        by(move |request: &Request, given: &[u16]| {
            let mut order: Vec<usize> = (0..given.len()).collect();
            order.sort_by_key(|&job| key(given, job));
            let mut starts = vec![0; given.len()];
            let mut end = 0;
            for place in order {
                let job = &request.jobs[place];
                let from = start(u32::from(given[place]), job, end);
                if late(job, from) {
                    return Err(place);
                }
                end = from + job.running;
                starts[place] = from as u16;
            }
            Ok(starts)
        })
    }

    fn rule(given: u32, job: &Job, end: u32) -> u32 {
        given.max(job.release).max(end)
    }

    fn is_late(job: &Job, start: u32) -> bool {
        job.deadline < start + job.running
    }

    #[test]
    fn the_plain_rule_is_what_the_listing_finds() {
        let met = run(SEED, CALLS, by(plain)).unwrap();
        for number in (0..=15).chain([17]) {
            assert!(met.numbers[number] > 20, "{met:?}");
        }
        for number in [16, 18, 19, 20] {
            assert_eq!(met.numbers[number], 0, "{met:?}");
        }
        assert!(met.moved > 400 && met.unmoved > 100, "{met:?}");
        assert!(met.mended.iter().all(|&mended| mended > 100), "{met:?}");
    }

    #[test]
    fn a_wrong_mending_is_found() {
        let key = |given: &[u16], job: usize| (given[job], job);
        let later_of_a_tie = changed(|given, job| (given[job], 99 - job), rule, is_late);
        assert!(run(SEED, CALLS, later_of_a_tie).is_err());
        let by_job_number = changed(|_, job| (0, job), rule, is_late);
        assert!(run(SEED, CALLS, by_job_number).is_err());
        let given_ignored = changed(key, |_, job, end| job.release.max(end), is_late);
        assert!(run(SEED, CALLS, given_ignored).is_err());
        let release_ignored = changed(key, |given, _, end| given.max(end), is_late);
        assert!(run(SEED, CALLS, release_ignored).is_err());
        let sums_of_16_bits = changed(key, rule, |job, start| {
            job.deadline < (start + job.running) % 65_536
        });
        assert!(run(SEED, CALLS, sums_of_16_bits).is_err());
        let never_late = changed(key, rule, |_, _| false);
        assert!(run(SEED, CALLS, never_late).is_err());
        let late_by_number = by(|request, given| {
            plain(request, given).map_err(|first| {
                let alone = |&job: &usize| is_late(&request.jobs[job], given[job].into());
                (0..given.len()).find(alone).unwrap_or(first)
            })
        });
        assert!(run(SEED, CALLS, late_by_number).is_err());
    }

    #[test]
    fn a_wrong_list_is_found() {
        let right = by(plain);
        let last_move_left_out =
            |file: &[u8], given: &[u16], starts: &mut [u16], moved: &mut [u16]| {
                let before = moved.to_vec();
                let answer = right(file, given, starts, moved);
                let last = 3 * (answer.count as usize).saturating_sub(1);
                if answer.count > 0 {
                    moved[last..last + 3].copy_from_slice(&before[last..last + 3]);
                }
                answer
            };
        assert!(run(SEED, CALLS, last_move_left_out).is_err());
        let refusal_writes = |file: &[u8], given: &[u16], starts: &mut [u16], moved: &mut [u16]| {
            let answer = right(file, given, starts, moved);
            if let (17, Some(first)) = (answer.number, starts.first_mut()) {
                *first = !*first;
            }
            answer
        };
        assert!(run(SEED, CALLS, refusal_writes).is_err());
    }

    #[test]
    fn bytes_cross_as_they_are() {
        let door =
            |file: &[u8], given: &[u8], out: &mut [u8], list: &mut [u8], result: &mut [u8]| {
                let wide = |bytes: &[u8]| {
                    let mut numbers = vec![0; bytes.len() / 2];
                    numbers_of(bytes, &mut numbers);
                    numbers
                };
                let (mut starts, mut moved) = (wide(out), wide(list));
                let answer = by(plain)(file, &wide(given), &mut starts, &mut moved);
                out.copy_from_slice(&bytes_of(&starts));
                list.copy_from_slice(&bytes_of(&moved));
                result[0] = answer.job;
                result[1..3].copy_from_slice(&answer.horizon.to_be_bytes());
                result[3..7].copy_from_slice(&answer.energy.to_be_bytes());
                result[7..].copy_from_slice(&answer.count.to_be_bytes());
                answer.number
            };
        run(SEED, CALLS, by_bytes(door)).unwrap();
    }
}
