//! What each call must leave, by the rules (70 to 74) and the oracle: its number, its result bytes,
//! and every byte that is lent.

use outside::oracle::first;
use outside::oracle::judge::judge;
use outside::oracle::listing::{first_of_the_least, uses, Schedule};
use outside::oracle::long::{self, Found};
use outside::oracle::request::{read, Request};
use outside::oracle::rows::row_given;
use outside::oracle::sheets::{plan_text, Made};
use outside::oracle::visit::visit;
use outside::oracle::writing::Written;

pub const RESULT: usize = 11;

/// What a door answers to what it does not hand on.
pub const SHUT: u8 = 255;

#[derive(Clone, Copy, Default)]
struct Answer {
    number: u8,
    job: u8,
    horizon: u16,
    energy: u32,
    count: u32,
}

impl Answer {
    fn refusal(number: u8) -> Answer {
        Answer {
            number,
            ..Answer::default()
        }
    }

    fn bytes(&self) -> Vec<u8> {
        let mut bytes = vec![self.job];
        bytes.extend(self.horizon.to_be_bytes());
        bytes.extend(self.energy.to_be_bytes());
        bytes.extend(self.count.to_be_bytes());
        bytes
    }
}

/// The complete outcome of a call: of the lent bytes, all of them.
#[derive(Clone, Debug, PartialEq, Eq)]
pub struct Outcome {
    pub number: u8,
    pub lent: Vec<u8>,
    pub result: Vec<u8>,
}

/// The buffers of a call as they are before it.
#[derive(Clone)]
pub struct Buffers {
    pub lent: Vec<u8>,
    pub result: Vec<u8>,
}

impl Buffers {
    fn is_short(&self) -> bool {
        self.result.len() < RESULT
    }

    /// An answer that is told, if there is room, and that writes to the front of the lent bytes.
    fn after(&self, answer: Answer, written: &[u8]) -> Outcome {
        let mut lent = self.lent.clone();
        lent[..written.len()].copy_from_slice(written);
        let mut result = self.result.clone();
        if !self.is_short() {
            result[..RESULT].copy_from_slice(&answer.bytes());
        }
        Outcome {
            number: answer.number,
            lent,
            result,
        }
    }

    fn refused(&self, number: u8) -> Outcome {
        self.after(Answer::refusal(number), &[])
    }

    /// A door that stays shut.
    pub fn untouched(&self, number: u8) -> Outcome {
        Outcome {
            number,
            lent: self.lent.clone(),
            result: self.result.clone(),
        }
    }

    /// A file or tables that go to the front of the lent bytes, and are counted.
    pub fn written(&self, written: &Written) -> Outcome {
        match written {
            _ if self.is_short() => self.untouched(SHUT),
            Err(number) => self.refused(*number),
            Ok((_, bytes)) if self.lent.len() < bytes.len() => self.refused(15),
            Ok((horizon, bytes)) => {
                let answer = Answer {
                    horizon: *horizon,
                    count: bytes.len() as u32,
                    ..Answer::default()
                };
                self.after(answer, bytes)
            }
        }
    }

    /// A sheet or a table that goes to the front of the lent bytes, with a count of its own.
    pub fn made(&self, made: &Made) -> Outcome {
        match made {
            _ if self.is_short() => self.untouched(SHUT),
            Err(number) => self.refused(*number),
            Ok((_, bytes)) if self.lent.len() < bytes.len() => self.refused(15),
            Ok((count, bytes)) => {
                let answer = Answer {
                    count: *count as u32,
                    ..Answer::default()
                };
                self.after(answer, bytes)
            }
        }
    }
}

fn success(request: &Request, energy: u64, count: u64) -> Answer {
    Answer {
        horizon: request.horizon as u16,
        energy: energy as u32,
        count: count as u32,
        ..Answer::default()
    }
}

/// The start times of bytes, two each.
pub fn pairs(bytes: &[u8]) -> Vec<u32> {
    let pair = |pair: &[u8]| u32::from(u16::from_be_bytes([pair[0], pair[1]]));
    bytes.chunks_exact(2).map(pair).collect()
}

fn two_bytes(starts: &[u32]) -> Vec<u8> {
    let bytes = |start: &u32| (*start as u16).to_be_bytes();
    starts.iter().flat_map(bytes).collect()
}

/// A file, with what its search comes to. Worked out once, for any budget.
pub struct Searched {
    pub file: Vec<u8>,
    pub read: Result<Request, u8>,
    pub count: u64,
    /// Whether the search ends there; else the count is only known to be no smaller.
    pub is_whole: bool,
    /// A budget that runs out from there on does so with a best at hand.
    pub best_from: Option<u64>,
    pub best: Option<Schedule>,
    /// Start times that are worth judging: those of the best, where it is known.
    pub planned: Option<Vec<u32>>,
}

impl Searched {
    pub fn new(file: Vec<u8>) -> Searched {
        let read = read(&file);
        let (mut count, mut best_from, mut best) = (0, None, None);
        if let Ok(request) = &read {
            let visited = visit(request, u64::MAX);
            (count, best_from) = (visited.count, visited.best_from);
            best = first_of_the_least(request);
            let least = best.as_ref().map(|schedule| schedule.energy);
            assert_eq!(visited.best, least, "the oracle's two halves disagree");
        }
        let planned = best.as_ref().map(|schedule| schedule.starts.clone());
        Searched {
            file,
            read,
            count,
            is_whole: true,
            best_from,
            best,
            planned,
        }
    }

    /// Of an accepted request that is too long to list, by a plain search (`outside::oracle::long`).
    pub fn long(file: Vec<u8>, limit: u32) -> Searched {
        let request = read(&file).expect("an accepted request");
        let Found {
            number,
            energy,
            count,
            starts,
        } = long::found(&file, limit);
        let is_whole = number != 20;
        let best = (number == 0).then(|| Schedule {
            starts: starts.clone(),
            energy: energy.into(),
        });
        if number == 0 {
            let judged = judge(&request, &starts);
            assert_eq!(judged, Ok(energy.into()), "a plain search's plan is none");
        }
        Searched {
            file,
            count: u64::from(count) + u64::from(!is_whole),
            is_whole,
            best_from: None,
            best,
            planned: (number == 0).then_some(starts),
            read: Ok(request),
        }
    }

    pub fn check(&self, before: &Buffers) -> Outcome {
        match &self.read {
            Err(number) => before.refused(*number),
            Ok(_) if before.is_short() => before.refused(15),
            Ok(request) => before.after(success(request, 0, 0), &[]),
        }
    }

    pub fn sizes(&self, before: &Buffers) -> Outcome {
        match &self.read {
            Err(number) => before.refused(*number),
            Ok(_) if before.is_short() || before.lent.len() < 3 => before.refused(15),
            Ok(request) => {
                let sizes = [request.devices.len(), request.tasks, request.jobs.len()];
                before.after(success(request, 0, 0), &sizes.map(|size| size as u8))
            }
        }
    }

    pub fn search(&self, budget: u32, before: &Buffers) -> Outcome {
        let request = match &self.read {
            Err(number) => return before.refused(*number),
            Ok(request) => request,
        };
        if before.is_short() || before.lent.len() < 2 * request.jobs.len() {
            return before.refused(15);
        }
        let after = |number, count| Answer {
            count,
            ..Answer::refusal(number)
        };
        if self.count > u64::from(budget) {
            return before.after(after(20, budget), &[]);
        }
        assert!(self.is_whole, "what comes of this budget is not known");
        match &self.best {
            None => before.after(after(19, self.count as u32), &[]),
            Some(schedule) => before.after(
                success(request, schedule.energy, self.count),
                &two_bytes(&schedule.starts),
            ),
        }
    }

    pub fn first(&self, before: &Buffers) -> Outcome {
        let request = match &self.read {
            Err(number) => return before.refused(*number),
            Ok(request) => request,
        };
        if before.is_short() || before.lent.len() < 2 * request.jobs.len() {
            return before.refused(15);
        }
        match first::expected(request) {
            None => before.refused(19),
            Some(starts) => before.after(success(request, 0, 0), &two_bytes(&starts)),
        }
    }

    /// With a budget that is enough.
    pub fn least(&self, before: &Buffers) -> Outcome {
        let request = match &self.read {
            Err(number) => return before.refused(*number),
            Ok(request) => request,
        };
        if before.is_short() || before.lent.len() < 2 * request.jobs.len() {
            return before.refused(15);
        }
        match &self.best {
            None => before.refused(19),
            Some(best) => {
                let answer = success(request, best.energy, 0);
                before.after(answer, &two_bytes(&best.starts))
            }
        }
    }

    pub fn rows(&self, starts: &[u8], before: &Buffers) -> Outcome {
        let request = match &self.read {
            Err(number) => return before.refused(*number),
            Ok(request) => request,
        };
        let size = request.devices.len() * request.horizon as usize;
        if starts.len() != 2 * request.jobs.len() {
            return before.refused(14);
        }
        if before.is_short() || before.lent.len() < size {
            return before.refused(15);
        }
        let starts = pairs(starts);
        match judge(request, &starts) {
            Err(fault) => before.after(faulty(fault), &[]),
            Ok(energy) => {
                let row = |(number, device)| {
                    let uses = uses(request, &starts, number);
                    row_given(request.round, device, &uses, request.horizon).into_bytes()
                };
                let rows: Vec<u8> = request.devices.iter().enumerate().flat_map(row).collect();
                before.after(success(request, energy, 0), &rows)
            }
        }
    }

    pub fn verdict(&self, starts: &[u8], before: &Buffers) -> Outcome {
        if starts.len() % 2 != 0 || before.is_short() {
            return before.untouched(SHUT);
        }
        let request = match &self.read {
            Err(number) => return before.refused(*number),
            Ok(request) => request,
        };
        if starts.len() != 2 * request.jobs.len() {
            return before.refused(14);
        }
        match judge(request, &pairs(starts)) {
            Err(fault) => before.after(faulty(fault), &[]),
            Ok(energy) => before.after(success(request, energy, 0), &[]),
        }
    }

    /// The lines of a plan, for start times that are one for each job.
    fn plan_lines(request: &Request, starts: &[u32]) -> Vec<u8> {
        let line =
            |(job, &start): (&outside::oracle::request::Job, &u32)| (start, job.margin(start));
        let placed: Vec<(u32, i64)> = request.jobs.iter().zip(starts).map(line).collect();
        plan_text(&placed)
    }

    pub fn plan_size(&self, starts: &[u8]) -> usize {
        let request = self.read.as_ref().ok();
        request.map_or(0, |request| Self::plan_lines(request, &pairs(starts)).len())
    }

    pub fn plan_sheet(&self, starts: &[u8], before: &Buffers) -> Outcome {
        if starts.len() % 2 != 0 || before.is_short() {
            return before.untouched(SHUT);
        }
        let request = match &self.read {
            Err(number) => return before.refused(*number),
            Ok(request) => request,
        };
        if starts.len() != 2 * request.jobs.len() {
            return before.refused(14);
        }
        let starts = pairs(starts);
        if let Err(fault) = judge(request, &starts) {
            return before.after(faulty(fault), &[]);
        }
        let text = Self::plan_lines(request, &starts);
        if before.lent.len() < text.len() {
            return before.refused(15);
        }
        before.after(success(request, 0, text.len() as u64), &text)
    }

    pub fn margins(&self, starts: &[u8], before: &Buffers) -> Outcome {
        if starts.len() % 2 != 0 || before.is_short() {
            return before.untouched(SHUT);
        }
        let request = match &self.read {
            Err(number) => return before.refused(*number),
            Ok(request) => request,
        };
        if starts.len() != 2 * request.jobs.len() {
            return before.refused(14);
        }
        if before.lent.len() < 4 * request.jobs.len() {
            return before.refused(15);
        }
        let margin = |(job, start): (&outside::oracle::request::Job, u32)| {
            (job.margin(start) as i32).to_be_bytes()
        };
        let jobs = request.jobs.iter().zip(pairs(starts));
        let written: Vec<u8> = jobs.flat_map(margin).collect();
        before.after(success(request, 0, 0), &written)
    }
}

fn faulty((number, job): (u8, usize)) -> Answer {
    Answer {
        job: job as u8,
        ..Answer::refusal(number)
    }
}
