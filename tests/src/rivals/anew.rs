//! Both sums are made anew at every vertex. Carried in the vertex are only the end of each device's
//! last placed use and the energy before that end.

use super::{found, members, Found, Problem, Tally, DEVICES};
use crate::oracle::request::MOST_JOBS;

#[derive(Clone, Copy)]
struct Vertex {
    time: u32,
    unplaced: u16,
    /// For each device, the end of its last placed use, and the energy charged before that end; and
    /// in a round the start of its first.
    ends: [u32; DEVICES],
    spent: [u32; DEVICES],
    firsts: [u32; DEVICES],
}

struct Search<'a> {
    problem: &'a Problem,
    tally: &'a mut Tally,
    starts: [u32; MOST_JOBS],
}

impl Search<'_> {
    /// `last` is the job placed last and its start: charged to its devices only after cut A. The root
    /// has none.
    fn visit(&mut self, mut vertex: Vertex, last: Option<(usize, u32)>) {
        if !self.tally.counts() || self.cut_a(&vertex) {
            return;
        }
        if let Some((number, start)) = last {
            self.charge(&mut vertex, number, start);
        }
        if vertex.unplaced == 0 {
            self.tally.offer(self.energy(&vertex), &self.starts);
        } else if !self.tally.beats(|| self.floor(&vertex)) {
            self.children(&vertex);
        }
    }

    fn children(&mut self, vertex: &Vertex) {
        for number in members(vertex.unplaced) {
            let job = self.problem.jobs[number];
            let earliest = vertex.time.max(job.release);
            for start in earliest..=job.deadline - job.running {
                self.starts[number] = start;
                let child = Vertex {
                    time: start + job.running,
                    unplaced: vertex.unplaced & !(1 << number),
                    ..*vertex
                };
                self.visit(child, Some((number, start)));
                if self.tally.over {
                    return;
                }
            }
        }
    }

    fn charge(&self, vertex: &mut Vertex, number: usize, start: u32) {
        let job = self.problem.jobs[number];
        for (k, device) in self.problem.devices.iter().enumerate() {
            if job.uses(k) {
                let (round, end) = (self.problem.round, vertex.ends[k]);
                if round && end == 0 {
                    vertex.firsts[k] = start;
                }
                vertex.spent[k] += device.lead(round, end, start) + device.working * job.running;
                vertex.ends[k] = vertex.time;
            }
        }
    }

    fn cut_a(&self, vertex: &Vertex) -> bool {
        let late = |number| self.problem.is_late(number, vertex.time);
        members(vertex.unplaced).any(late)
            || vertex.time + self.problem.load(vertex.unplaced) > self.problem.horizon
    }

    fn energy(&self, vertex: &Vertex) -> u32 {
        let devices = self.problem.devices.iter().enumerate();
        devices
            .map(|(k, device)| {
                let (first, end, spent) = (vertex.firsts[k], vertex.ends[k], vertex.spent[k]);
                device.close(self.problem.round, self.problem.horizon, first, end, spent)
            })
            .sum()
    }

    fn floor(&self, vertex: &Vertex) -> u32 {
        let devices = self.problem.devices.iter().enumerate();
        devices
            .map(|(k, device)| {
                let ahead = self.problem.ahead(vertex.unplaced, k);
                let others = self.problem.horizon - vertex.ends[k] - ahead;
                vertex.spent[k] + device.working * ahead + device.sleeping * others
            })
            .sum()
    }
}

pub fn search(file: &[u8], budget: u32) -> Found {
    found(file, budget, |problem, tally| {
        let root = Vertex {
            time: 0,
            unplaced: problem.all_jobs(),
            ends: [0; DEVICES],
            spent: [0; DEVICES],
            firsts: [0; DEVICES],
        };
        let mut search = Search {
            problem,
            tally,
            starts: [0; MOST_JOBS],
        };
        search.visit(root, None);
    })
}
