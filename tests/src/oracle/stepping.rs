//! Stepping through a round from outside: random requests, starts and lent lists, and for each call
//! the whole outcome that rules 90 to 96 ask for.
//!
//! Every device is run tick by tick. A move is kept as the tick at which it is over, and the figures
//! of a device are read from the bytes of its record, so that nothing here follows the proved code's
//! bookkeeping. While a job runs its devices are watched: each has to work in every one of its ticks.

pub mod ends;

use crate::cases::faults::damaged;
use crate::cases::random::Random;
use crate::cases::second::Second;
use crate::cases::tables::{job, task, DeviceRecord, Tables};
use crate::cases::third;
use crate::oracle::judge::fault;
use crate::oracle::request::{read, Request};
use std::collections::BTreeMap;

/// What the library answers, with what it leaves in the lent list.
#[derive(Clone, Debug, Default, PartialEq, Eq)]
pub struct Outcome {
    pub number: u8,
    pub job: u8,
    pub horizon: u16,
    pub energy: u32,
    pub energies: Vec<u32>,
}

/// A stepping: file, starts and the lent list.
pub trait Stepping: Fn(&[u8], &[u16], &[u32]) -> Outcome {}
impl<F: Fn(&[u8], &[u16], &[u32]) -> Outcome> Stepping for F {}

/// A stepping that is called with bytes, two for a start and four for an energy, and writes its
/// answer into eleven.
pub fn by_bytes(door: impl Fn(&[u8], &[u8], &mut [u8], &mut [u8]) -> u8) -> impl Stepping {
    move |file: &[u8], starts: &[u16], lent: &[u32]| {
        let starts: Vec<u8> = starts.iter().flat_map(|x| x.to_be_bytes()).collect();
        let mut out: Vec<u8> = lent.iter().flat_map(|x| x.to_be_bytes()).collect();
        let mut result = [0xA5; 11];
        let number = door(file, &starts, &mut out, &mut result);
        let wide = |bytes: &[u8]| bytes.iter().fold(0, |sum, &b| sum << 8 | u32::from(b));
        // The count is no part of an outcome: it is 0.
        assert_eq!(wide(&result[7..]), 0, "a count is told");
        Outcome {
            number,
            job: result[0],
            horizon: wide(&result[1..3]) as u16,
            energy: wide(&result[3..7]),
            energies: out.chunks(4).map(wide).collect(),
        }
    }
}

/// A device as its seven bytes have it.
#[derive(Clone, Copy, Debug)]
struct Figures {
    transition: u32,
    working: u32,
    sleeping: u32,
    moving: u32,
}

fn figures(file: &[u8], device: usize) -> Figures {
    let record = &file[3 + 7 * device..];
    let pair = |at: usize| u32::from(record[at]) * 256 + u32::from(record[at + 1]);
    Figures {
        transition: record[0].into(),
        working: pair(1),
        sleeping: pair(3),
        moving: pair(5),
    }
}

#[derive(Clone, Copy, Debug, PartialEq, Eq)]
enum Goal {
    Work,
    Sleep,
}

/// A device at a tick: it stays, or it is on its way and there at a tick.
#[derive(Clone, Copy, Debug, PartialEq, Eq)]
enum State {
    Stays(Goal),
    Moves(Goal, u32),
}

/// What is known of a device at a start or a completion.
#[derive(Clone, Copy)]
struct Moment {
    transition: u32,
    this: bool,
    /// None after the last job.
    next: Option<bool>,
    pause: u32,
}

impl Moment {
    /// After the last job the next uses nothing.
    fn is_next(&self) -> bool {
        self.next == Some(true)
    }
}

/// Where a device that stays begins to move to, if it does.
type Rule = fn(Goal, Moment) -> Option<Goal>;

fn at_start(stays: Goal, m: Moment) -> Option<Goal> {
    match stays {
        Goal::Work if !m.this && (!m.is_next() || m.pause >= m.transition) => Some(Goal::Sleep),
        Goal::Sleep if m.is_next() && m.pause < m.transition => Some(Goal::Work),
        _ => None,
    }
}

fn at_completion(stays: Goal, m: Moment) -> Option<Goal> {
    match stays {
        Goal::Sleep if m.is_next() => Some(Goal::Work),
        Goal::Work if m.this && !m.is_next() && m.pause >= m.transition => Some(Goal::Sleep),
        _ => None,
    }
}

/// The rules, and what of them may be changed.
#[derive(Clone, Copy)]
struct Rules {
    start: Rule,
    completion: Rule,
    /// The power of a tick on the way.
    way: fn(Figures) -> u32,
    /// Whether a job, shorter than the device's transition and using it or not, is refused.
    brief: fn(bool) -> bool,
    unfit_first: bool,
    starts_first: bool,
    watched: bool,
}

const RULES: Rules = Rules {
    start: at_start,
    completion: at_completion,
    way: |figures| figures.moving,
    brief: |_| true,
    unfit_first: false,
    starts_first: false,
    watched: true,
};

/// The letters of a device, and where it is at H.
fn run_device(
    request: &Request,
    figures: Figures,
    starts: &[u32],
    device: usize,
    rules: &Rules,
) -> (Vec<char>, State) {
    let mut order: Vec<usize> = (0..starts.len()).collect();
    order.sort_by_key(|&job| starts[job]);
    let end = |job: usize| starts[job] + request.jobs[job].running;
    let moment = |place: usize| {
        let next = order.get(place + 1);
        let until = next.map_or(request.horizon, |&job| starts[job]);
        Moment {
            transition: figures.transition,
            this: request.jobs[order[place]].uses(device),
            next: next.map(|&job| request.jobs[job].uses(device)),
            pause: until - end(order[place]),
        }
    };
    let mut state = State::Stays(Goal::Work);
    let mut letters = Vec::new();
    for tick in 0..=request.horizon {
        if let State::Moves(goal, over) = state {
            if over == tick {
                state = State::Stays(goal);
            }
        }
        let mut happens = |rule: Rule, place: usize| {
            if let State::Stays(goal) = state {
                if let Some(other) = rule(goal, moment(place)) {
                    state = State::Moves(other, tick + figures.transition);
                }
            }
        };
        let ended = |&place: &usize| end(order[place]) == tick;
        let begun = |&place: &usize| starts[order[place]] == tick;
        let places = || 0..order.len();
        if rules.starts_first {
            places()
                .filter(begun)
                .for_each(|place| happens(rules.start, place));
        }
        places()
            .filter(ended)
            .for_each(|place| happens(rules.completion, place));
        if !rules.starts_first {
            places()
                .filter(begun)
                .for_each(|place| happens(rules.start, place));
        }
        letters.push(match state {
            State::Stays(Goal::Work) => 'W',
            State::Stays(Goal::Sleep) => 'S',
            State::Moves(Goal::Sleep, _) => 'D',
            State::Moves(Goal::Work, _) => 'U',
        });
    }
    letters.pop();
    (letters, state)
}

/// While a job runs its devices work, and at H none is moving.
fn watch(request: &Request, starts: &[u32], device: usize, ran: &(Vec<char>, State)) {
    for (job, &start) in request.jobs.iter().zip(starts) {
        let ticks = start as usize..(start + job.running) as usize;
        let works = ran.0[ticks].iter().all(|&letter| letter == 'W');
        assert!(
            works || !job.uses(device),
            "a job finds a device not working"
        );
    }
    assert!(matches!(ran.1, State::Stays(_)), "a device moves at H");
}

fn energy(letters: &[char], figures: Figures, rules: &Rules) -> u32 {
    let power = |letter: &char| match letter {
        'W' => figures.working,
        'S' => figures.sleeping,
        _ => (rules.way)(figures),
    };
    letters.iter().map(power).sum()
}

/// Whether 25 is for the file; it has been read.
fn is_unfit(file: &[u8], devices: usize) -> bool {
    let unlike = |device: usize| {
        let f = figures(file, device);
        !(f.sleeping < f.moving && f.moving < f.working)
    };
    file[0] == 0xFF || (0..devices).any(unlike)
}

/// Whether 24 is, of a file without 25.
fn is_brief(file: &[u8], request: &Request, rules: &Rules) -> bool {
    let shorter = |job: &crate::oracle::request::Job, device: usize| {
        job.running < figures(file, device).transition && (rules.brief)(job.uses(device))
    };
    let devices = request.devices.len();
    let mut jobs = request.jobs.iter();
    jobs.any(|job| (0..devices).any(|device| shorter(job, device)))
}

fn outcome(file: &[u8], starts: &[u16], lent: &[u32], rules: &Rules) -> Outcome {
    let refused = |number, job: usize| Outcome {
        number,
        job: job as u8,
        energies: lent.to_vec(),
        ..Outcome::default()
    };
    let request = match read(file) {
        Ok(request) => request,
        Err(number) => return refused(number, 0),
    };
    let devices = request.devices.len();
    if starts.len() != request.jobs.len() {
        return refused(14, 0);
    }
    if lent.len() < devices {
        return refused(15, 0);
    }
    if rules.unfit_first && is_unfit(file, devices) {
        return refused(25, 0);
    }
    let starts: Vec<u32> = starts.iter().map(|&start| start.into()).collect();
    if let Some((number, job)) = fault(&request, &starts) {
        return refused(number, job);
    }
    if is_unfit(file, devices) {
        return refused(25, 0);
    }
    if is_brief(file, &request, rules) {
        return refused(24, 0);
    }
    let mut energies = lent.to_vec();
    for (device, place) in energies.iter_mut().enumerate().take(devices) {
        let figures = figures(file, device);
        let ran = run_device(&request, figures, &starts, device, rules);
        *place = energy(&ran.0, figures, rules);
        if rules.watched {
            watch(&request, &starts, device, &ran);
            assert!(*place <= figures.working * request.horizon);
        }
    }
    Outcome {
        horizon: request.horizon as u16,
        energy: energies[..devices].iter().sum(),
        energies,
        ..Outcome::default()
    }
}

/// The oracle itself.
pub fn stepped(file: &[u8], starts: &[u16], lent: &[u32]) -> Outcome {
    outcome(file, starts, lent, &RULES)
}

/// One call: what it is given and lent.
#[derive(Clone, Debug)]
pub struct Call {
    pub file: Vec<u8>,
    pub starts: Vec<u16>,
    pub lent: Vec<u32>,
}

impl Call {
    /// The call's number, or what is wrong with its outcome.
    pub fn hold(&self, step: &impl Stepping) -> Result<u8, String> {
        let got = step(&self.file, &self.starts, &self.lent);
        let expected = stepped(&self.file, &self.starts, &self.lent);
        if got == expected {
            return Ok(got.number);
        }
        Err(format!(
            "{self:02X?}\nexpected {expected:?}\ngot      {got:?}"
        ))
    }
}

/// Draws calls and holds each outcome to the rules: how often each number came. The first call that
/// differs ends it.
pub fn run(seed: u64, calls: u64, step: impl Stepping) -> Result<BTreeMap<u8, u64>, String> {
    let mut met = BTreeMap::new();
    for number in 0..calls {
        let number = draw(&mut Random::new(seed, number)).hold(&step)?;
        *met.entry(number).or_default() += 1;
    }
    Ok(met)
}

/// A request with starts and a lent list: mostly such as can be stepped, and sometimes a fault of
/// the file, of the starts, of the list, of a device or of a job.
pub fn draw(random: &mut Random) -> Call {
    let (mut tables, mut starts) = match random.within(1, 5) {
        1 => round(random),
        _ => list(random),
    };
    if random.one_in(9) {
        outlast(random, &mut tables);
    }
    if random.one_in(9) {
        make_dear(random, &mut tables);
    }
    let devices = tables.devices.len();
    let file = match random.within(1, 32) {
        1 | 2 => damaged(random, tables),
        3 | 4 => Second::alike(tables).bytes(),
        5 | 6 => with_levels(&tables),
        7 => third::damaged(random),
        _ => tables.bytes(),
    };
    shift(random, &mut starts);
    match random.within(1, 24) {
        1 => starts.push(random.u16(0, u16::MAX)),
        2 => drop(starts.pop()),
        _ => (),
    }
    let places = match random.within(1, 16) {
        1 => random.within(0, devices as u64) as usize,
        2..=9 => devices,
        _ => devices + random.within(1, 5) as usize,
    };
    let lent = (0..places).map(|_| u32::from(random.u16(0, u16::MAX)) << 9 | 1);
    Call {
        file,
        starts,
        lent: lent.collect(),
    }
}

/// Sometimes one of the starts is another.
fn shift(random: &mut Random, starts: &mut [u16]) {
    if random.one_in(6) && !starts.is_empty() {
        let place = random.index(starts.len());
        let by = random.u16(0, 3);
        starts[place] = match random.within(1, 5) {
            1 => random.u16(0, u16::MAX),
            2 | 3 => starts[place].saturating_sub(by),
            _ => starts[place].saturating_add(by),
        };
    }
}

fn shuffle(random: &mut Random, placed: &mut [(u16, u16)]) {
    for place in (1..placed.len()).rev() {
        placed.swap(place, random.index(place + 1));
    }
}

/// The mark FF 03, and records with a list of one level: whatever such a file is, it is not stepped.
fn with_levels(tables: &Tables) -> Vec<u8> {
    let file = tables.bytes();
    let record = |device: &DeviceRecord| {
        let powers = [device.working, device.moving].map(u16::to_be_bytes);
        let level = device.sleeping.to_be_bytes();
        [&[device.transition], &powers.concat()[..], &[1], &level].concat()
    };
    let records: Vec<u8> = tables.devices.iter().flat_map(record).collect();
    let rest = tables.count_places()[1];
    [&[0xFF, 3], &file[..3], &records, &file[rest..]].concat()
}

/// A device with Ps < P0 < Pw; some have the largest powers, and some are slow.
fn device(random: &mut Random) -> DeviceRecord {
    let top = random.pick(&[6, 20, 65_535]);
    let sleeping = random.u16(0, top - 2);
    let moving = random.u16(sleeping + 1, top - 1);
    DeviceRecord {
        transition: if random.one_in(12) {
            random.u8(5, 40)
        } else {
            random.u8(1, 4)
        },
        working: random.u16(moving + 1, top),
        sleeping,
        moving,
    }
}

fn devices(random: &mut Random) -> Vec<DeviceRecord> {
    let count = random.pick(&[0, 1, 1, 2, 2, 3, 3, 4, 5, 8]);
    (0..count).map(|_| device(random)).collect()
}

fn longest(devices: &[DeviceRecord]) -> u16 {
    let transitions = devices.iter().map(|device| device.transition.into());
    transitions.max().unwrap_or(1)
}

/// Pauses about a transition of one of the devices are what the rules turn on.
fn pause(random: &mut Random, devices: &[DeviceRecord]) -> u16 {
    let some = match devices.len() {
        0 => 1,
        count => u16::from(devices[random.index(count)].transition),
    };
    match random.within(1, 7) {
        1 | 2 => 0,
        3 => some - 1,
        4 => some,
        5 => some + 1,
        6 => 2 * some,
        _ => random.u16(0, 3 * some),
    }
}

/// Jobs in their windows, with the schedule from which they were made; their numbers are in any
/// order.
fn list(random: &mut Random) -> (Tables, Vec<u16>) {
    let devices = devices(random);
    let least = longest(&devices);
    let mut at = if random.one_in(2) {
        pause(random, &devices)
    } else {
        0
    };
    let mut placed = Vec::new();
    for _ in 0..random.within(0, 9) {
        let running = least + random.pick(&[0, 0, 1, 2, 5]);
        placed.push((at, running));
        at += running + pause(random, &devices);
    }
    let mut tables = Tables {
        horizon: at.max(1),
        devices,
        ..Tables::default()
    };
    shuffle(random, &mut placed);
    let all = tables.all_devices();
    for &(start, running) in &placed {
        let wide = random.one_in(2);
        let release = if wide { 0 } else { random.u16(0, start) };
        let deadline = random.u16(start + running, tables.horizon);
        let deadline = if wide { tables.horizon } else { deadline };
        let set = random.u8(0, 255) & all;
        tables.jobs.push(job(release, deadline, running, set));
    }
    (tables, placed.iter().map(|&(start, _)| start).collect())
}

/// Two tasks of which the second has a longer period, and starts for the jobs that they unfold into.
fn round(random: &mut Random) -> (Tables, Vec<u16>) {
    let devices = devices(random);
    let least = longest(&devices);
    let (first, second) = (least + random.u16(0, 2), least + random.u16(0, 2));
    let slack = pause(random, &devices) + pause(random, &devices);
    let period = first + second + slack;
    let times = random.u16(1, 4);
    let mut tables = Tables {
        devices,
        ..Tables::default()
    };
    let all = tables.all_devices();
    for (period, running) in [(period, first), (period * times, second)] {
        let set = random.u8(0, 255) & all;
        tables.tasks.push(task(period, running, set));
    }
    // The first two jobs are released together at 0, and then one in every period.
    let start = random.u16(0, slack);
    let mut starts = vec![start, start + first + random.u16(0, slack - start)];
    for number in 1..times {
        starts.push(number * period + random.u16(0, period - first));
    }
    (tables, starts)
}

/// A job becomes shorter than a transition, or a device that no job need use slower than a job.
fn outlast(random: &mut Random, tables: &mut Tables) {
    if random.one_in(2) && !tables.jobs.is_empty() {
        let place = random.index(tables.jobs.len());
        let shorter = &mut tables.jobs[place];
        shorter.running = random.u16(1, shorter.running);
    } else if tables.devices.len() < 8 {
        let least = longest(&tables.devices) as u8;
        tables.devices.push(DeviceRecord {
            transition: least + random.u8(0, 6),
            ..device(random)
        });
    }
}

/// A device that costs as much to move as to work, or more.
fn make_dear(random: &mut Random, tables: &mut Tables) {
    let count = tables.devices.len();
    if count > 0 {
        let device = &mut tables.devices[random.index(count)];
        device.moving = random.u16(device.working, u16::MAX);
    }
}

#[cfg(test)]
mod tests {
    use super::*;
    use crate::oracle::judge::judge;
    use crate::oracle::listing::uses;
    use crate::oracle::rows::row_given;

    const SEED: u64 = 9;
    const CALLS: u64 = 6_000;

    fn by(rules: Rules) -> impl Stepping {
        let rules = Rules {
            watched: false,
            ..rules
        };
        move |file: &[u8], starts: &[u16], lent: &[u32]| outcome(file, starts, lent, &rules)
    }

    fn hex(digits: &str) -> Vec<u8> {
        let byte = |at: usize| u8::from_str_radix(&digits[at..at + 2], 16).unwrap();
        (0..digits.len()).step_by(2).map(byte).collect()
    }

    const TABLE_2: &str = "002d0501000500010003010005000100030100050001000301000500010003010005000100030008000000050003040002000a000702000b0014000611001400190004080014001e000515001e0023000300001f00260004130028002d000200";

    #[test]
    fn every_number_comes() {
        let met = run(SEED, CALLS, stepped).unwrap();
        for number in [1, 2, 3, 4, 5, 9, 10, 13, 14, 15, 16, 17, 18, 24, 25] {
            assert!(met.get(&number).is_some_and(|&count| count > 5), "{met:?}");
        }
        assert!(met[&0] > CALLS / 3, "{met:?}");
    }

    #[test]
    fn rows_of_table_2() {
        let file = hex(TABLE_2);
        let request = read(&file).unwrap();
        let starts = [0, 3, 11, 20, 24, 30, 33, 40];
        let row = |device: usize| {
            let ran = run_device(&request, figures(&file, device), &starts, device, &RULES);
            ran.0.iter().collect::<String>()
        };
        assert_eq!(row(0), "DSSSSSSSSSUWWWWWWDSSUWWWWWWWWDUWWWWWWDSSSSSSS");
        assert_eq!(row(1), "WWWWWWWWWWDSSSSSSSSSSSSSSSSSSSUWWWWWWDSSSSSSS");
        assert_eq!(row(3), "DSSSSSSSSSSSSSSSSUWWWWWWDSSSSSSSSSSSSSSSSSSSS");
        // With rows of least energy, at the same starts.
        assert_eq!(judge(&request, &starts), Ok(497));
        let least = row_given(
            request.round,
            &request.devices[0],
            &uses(&request, &starts, 0),
            request.horizon,
        );
        assert_eq!(least, "DSSSSSSSSSUWWWWWWDSSSSSUWWWWWDSSUWWWWDSSSSSSU");
    }

    #[test]
    fn a_wrong_stepping_is_found() {
        let wrong: [(&str, Rules); 9] = [
            (
                "a pause of T too short at a start",
                Rules {
                    start: |stays, m| match stays {
                        Goal::Work if !m.this && (!m.is_next() || m.pause > m.transition) => {
                            Some(Goal::Sleep)
                        }
                        Goal::Work => None,
                        _ => at_start(stays, m),
                    },
                    ..RULES
                },
            ),
            (
                "a pause of T too short at a completion",
                Rules {
                    completion: |stays, m| match stays {
                        Goal::Work if m.pause == m.transition => None,
                        _ => at_completion(stays, m),
                    },
                    ..RULES
                },
            ),
            (
                "woken at a start though the pause is T",
                Rules {
                    start: |stays, m| match stays {
                        Goal::Sleep if m.is_next() && m.pause <= m.transition => Some(Goal::Work),
                        _ => at_start(stays, m),
                    },
                    ..RULES
                },
            ),
            (
                "nothing done after the last job",
                Rules {
                    completion: |stays, m| at_completion(stays, m).filter(|_| m.next.is_some()),
                    ..RULES
                },
            ),
            (
                "nothing done at the last start",
                Rules {
                    start: |stays, m| at_start(stays, m).filter(|_| m.next.is_some()),
                    ..RULES
                },
            ),
            (
                "down at a start without a look at the next job",
                Rules {
                    start: |stays, m| match stays {
                        Goal::Work if !m.this => Some(Goal::Sleep),
                        _ => at_start(stays, m),
                    },
                    ..RULES
                },
            ),
            (
                "24 for used devices only",
                Rules {
                    brief: |used| used,
                    ..RULES
                },
            ),
            (
                "25 before 16 to 18",
                Rules {
                    unfit_first: true,
                    ..RULES
                },
            ),
            (
                "moves at Pw",
                Rules {
                    way: |figures| figures.working,
                    ..RULES
                },
            ),
        ];
        for (name, rules) in wrong {
            assert!(run(SEED, CALLS, by(rules)).is_err(), "not found: {name}");
        }
    }

    #[test]
    fn a_refusal_that_writes_is_found() {
        let writes = |file: &[u8], starts: &[u16], lent: &[u32]| {
            let mut outcome = stepped(file, starts, lent);
            if let (24 | 25, Some(last)) = (outcome.number, outcome.energies.last_mut()) {
                *last ^= 1;
            }
            outcome
        };
        assert!(run(SEED, CALLS, writes).is_err());
    }

    /// That this job used what goes down at its completion, and that a completion comes before a
    /// start, change nothing.
    #[test]
    fn clauses_that_change_nothing() {
        let whoever_used = Rules {
            completion: |stays, m| at_completion(stays, Moment { this: true, ..m }),
            ..RULES
        };
        assert!(run(SEED, CALLS, by(whoever_used)).is_ok());
        let starts_first = Rules {
            starts_first: true,
            ..RULES
        };
        assert!(run(SEED, CALLS, by(starts_first)).is_ok());
    }
}
