//! Both sums are kept in the one vertex that there is: placing a job takes its ticks off, taking it
//! back puts them on again.

use super::{found, members, Found, Problem, Tally, DEVICES};
use crate::oracle::request::MOST_JOBS;

/// What a device has: the end of its last placed use, the energy charged before that end, the ticks for
/// which unplaced jobs will use it, and in a round the start of its first use.
#[derive(Clone, Copy, Default)]
struct State {
    end: u32,
    spent: u32,
    ahead: u32,
    first: u32,
}

struct Search<'a> {
    problem: &'a Problem,
    tally: &'a mut Tally,
    time: u32,
    unplaced: u16,
    /// The running times of all unplaced jobs.
    load: u32,
    states: [State; DEVICES],
    starts: [u32; MOST_JOBS],
}

impl Search<'_> {
    fn visit(&mut self) {
        if !self.tally.counts() || self.cut_a() {
            return;
        }
        if self.unplaced == 0 {
            self.tally.offer(self.energy(), &self.starts);
        } else if !self.tally.beats(|| self.floor()) {
            self.children();
        }
    }

    fn children(&mut self) {
        let (time, states) = (self.time, self.states);
        for number in members(self.unplaced) {
            let job = self.problem.jobs[number];
            for start in time.max(job.release)..=job.deadline - job.running {
                self.place(number, start);
                self.visit();
                self.take_back(number, time, states);
                if self.tally.over {
                    return;
                }
            }
        }
    }

    fn place(&mut self, number: usize, start: u32) {
        let job = self.problem.jobs[number];
        self.starts[number] = start;
        self.time = start + job.running;
        self.unplaced &= !(1 << number);
        self.load -= job.running;
        for (k, device) in self.problem.devices.iter().enumerate() {
            if job.uses(k) {
                let state = &mut self.states[k];
                let round = self.problem.round;
                if round && state.end == 0 {
                    state.first = start;
                }
                state.spent += device.lead(round, state.end, start) + device.working * job.running;
                state.end = start + job.running;
                state.ahead -= job.running;
            }
        }
    }

    /// The time and the devices as they were before the job was placed.
    fn take_back(&mut self, number: usize, time: u32, states: [State; DEVICES]) {
        self.time = time;
        self.unplaced |= 1 << number;
        self.load += self.problem.jobs[number].running;
        self.states = states;
    }

    fn cut_a(&self) -> bool {
        let late = |number| self.problem.is_late(number, self.time);
        self.time + self.load > self.problem.horizon || members(self.unplaced).any(late)
    }

    fn energy(&self) -> u32 {
        let devices = self.problem.devices.iter().zip(&self.states);
        devices
            .map(|(device, state)| {
                let (round, horizon) = (self.problem.round, self.problem.horizon);
                device.close(round, horizon, state.first, state.end, state.spent)
            })
            .sum()
    }

    fn floor(&self) -> u32 {
        let devices = self.problem.devices.iter().zip(&self.states);
        devices
            .map(|(device, state)| {
                let others = self.problem.horizon - state.end - state.ahead;
                state.spent + device.working * state.ahead + device.sleeping * others
            })
            .sum()
    }
}

pub fn search(file: &[u8], budget: u32) -> Found {
    found(file, budget, |problem, tally| {
        let all = problem.all_jobs();
        let mut search = Search {
            problem,
            tally,
            time: 0,
            unplaced: all,
            load: problem.load(all),
            states: [State::default(); DEVICES],
            starts: [0; MOST_JOBS],
        };
        for (k, state) in search.states.iter_mut().enumerate() {
            state.ahead = problem.ahead(all, k);
        }
        search.visit();
    })
}
