//! The steps of the proved search: a child is judged by its parent's numbers, and made only where no
//! cut drops it. Cut A is one comparison against a limit that depends on the parent and the job.

use super::{found, members, Found, Problem, Tally, DEVICES};
use crate::oracle::request::MOST_JOBS;

/// What a device has: the end of its last placed use, the energy charged before that end, the ticks for
/// which unplaced jobs will use it, and in a round the start of its first use.
#[derive(Clone, Copy, Default)]
struct State {
    end: u32,
    spent: u32,
    ahead: u32,
    first: u32,
}

#[derive(Clone, Copy)]
struct Vertex {
    time: u32,
    unplaced: u16,
    /// The running times of all unplaced jobs.
    load: u32,
    states: [State; DEVICES],
    starts: [u32; MOST_JOBS],
}

/// The two smallest last starts of the unplaced jobs, and the job of the smaller one.
struct Dues {
    at: usize,
    first: u32,
    second: u32,
}

struct Search<'a> {
    problem: &'a Problem,
    tally: &'a mut Tally,
}

impl Search<'_> {
    /// The child of `parent` that places a job at `start`. Cut B may come before it is known whether a
    /// job is left: the energy of a complete vertex is at least its floor.
    fn visit(&mut self, parent: &Vertex, limit: u32, number: usize, start: u32) {
        if !self.tally.counts() || start + self.problem.jobs[number].running > limit {
            return;
        }
        if !self.tally.beats(|| self.floor(parent, number, start)) {
            let child = self.place(parent, number, start);
            self.enter(&child);
        }
    }

    fn enter(&mut self, vertex: &Vertex) {
        if vertex.unplaced == 0 {
            self.tally.offer(self.energy(vertex), &vertex.starts);
        } else {
            self.children(vertex);
        }
    }

    fn children(&mut self, vertex: &Vertex) {
        let dues = self.dues(vertex.unplaced);
        for number in members(vertex.unplaced) {
            let job = self.problem.jobs[number];
            let due = if dues.at == number {
                dues.second
            } else {
                dues.first
            };
            let limit = due.min(self.problem.horizon - (vertex.load - job.running));
            for start in vertex.time.max(job.release)..=job.deadline - job.running {
                self.visit(vertex, limit, number, start);
                if self.tally.over {
                    return;
                }
            }
        }
    }

    fn dues(&self, unplaced: u16) -> Dues {
        let mut dues = Dues {
            at: 0,
            first: u32::MAX,
            second: u32::MAX,
        };
        for number in members(unplaced) {
            let job = &self.problem.jobs[number];
            let last = job.deadline - job.running;
            if last < dues.first {
                dues = Dues {
                    at: number,
                    first: last,
                    second: dues.first,
                };
            } else {
                dues.second = dues.second.min(last);
            }
        }
        dues
    }

    /// The floor of the child: the job's own ticks are among those to come.
    fn floor(&self, parent: &Vertex, number: usize, start: u32) -> u32 {
        let job = &self.problem.jobs[number];
        let devices = self.problem.devices.iter().zip(&parent.states);
        devices
            .enumerate()
            .map(|(k, (device, state))| {
                let (end, spent) = if job.uses(k) {
                    (
                        start,
                        state.spent + device.lead(self.problem.round, state.end, start),
                    )
                } else {
                    (state.end, state.spent)
                };
                let others = self.problem.horizon - end - state.ahead;
                spent + device.working * state.ahead + device.sleeping * others
            })
            .sum()
    }

    fn place(&self, parent: &Vertex, number: usize, start: u32) -> Vertex {
        let job = self.problem.jobs[number];
        let mut child = *parent;
        child.time = start + job.running;
        child.unplaced &= !(1 << number);
        child.load -= job.running;
        child.starts[number] = start;
        for (k, device) in self.problem.devices.iter().enumerate() {
            if job.uses(k) {
                let state = &mut child.states[k];
                let round = self.problem.round;
                if round && state.end == 0 {
                    state.first = start;
                }
                state.spent += device.lead(round, state.end, start) + device.working * job.running;
                state.end = start + job.running;
                state.ahead -= job.running;
            }
        }
        child
    }

    fn energy(&self, vertex: &Vertex) -> u32 {
        let devices = self.problem.devices.iter().zip(&vertex.states);
        devices
            .map(|(device, state)| {
                let (round, horizon) = (self.problem.round, self.problem.horizon);
                device.close(round, horizon, state.first, state.end, state.spent)
            })
            .sum()
    }
}

pub fn search(file: &[u8], budget: u32) -> Found {
    found(file, budget, |problem, tally| {
        let all = problem.all_jobs();
        let mut root = Vertex {
            time: 0,
            unplaced: all,
            load: problem.load(all),
            states: [State::default(); DEVICES],
            starts: [0; MOST_JOBS],
        };
        for (k, state) in root.states.iter_mut().enumerate() {
            state.ahead = problem.ahead(all, k);
        }
        if tally.counts() && root.load <= problem.horizon {
            Search { problem, tally }.enter(&root);
        }
    })
}
