//! The counted search without work that need not be done: the floor is one number, which a job raises
//! by the extras of the gaps before it; a complete vertex is never made; starts are kept as a path; and
//! once every later start of a job is cut, a child costs one comparison.

use super::{found, Device, Found, Problem, Tally, DEVICES};
use crate::oracle::request::MOST_JOBS;

/// One gap more than a horizon has ticks.
const GAPS: usize = 4_097;

/// What a gap costs above the deepest sleep.
fn extra_of(device: &Device, gap: u32) -> u32 {
    device.gap(gap) - device.sleeping * gap
}

/// What a job is asked for at every start.
#[derive(Clone, Copy, Default)]
struct Task {
    release: u32,
    running: u32,
    /// The last start from which it meets its deadline.
    last: u32,
    count: usize,
    devices: [usize; DEVICES],
}

/// Of each device the end of its last placed use, in a round the start of its first, and the ticks for
/// which unplaced jobs will use it; and the running times of all unplaced jobs.
#[derive(Clone, Copy)]
struct Vertex {
    ends: [u32; DEVICES],
    firsts: [u32; DEVICES],
    aheads: [u32; DEVICES],
    load: u32,
}

/// The two smallest last starts of the unplaced jobs, and the job of the smaller one.
struct Dues {
    at: usize,
    first: u32,
    second: u32,
}

struct Search<'a> {
    problem: &'a Problem,
    tasks: [Task; MOST_JOBS],
    /// Of each device the extra of each gap, and the least of all from that gap on.
    extras: Vec<u32>,
    leasts: Vec<u32>,
    tally: &'a mut Tally,
    /// The energy of the best.
    best: u32,
    path: [u32; MOST_JOBS],
}

impl Search<'_> {
    fn is_fresh(&self, vertex: &Vertex, k: usize) -> bool {
        self.problem.round && vertex.ends[k] == 0
    }

    /// Over the devices that a job uses, the sum of what a table has for the gaps before `start`.
    #[inline(always)]
    fn sum(&self, table: &[u32], vertex: &Vertex, task: &Task, start: u32) -> u32 {
        let mut sum = 0;
        for &k in &task.devices[..task.count] {
            if !self.is_fresh(vertex, k) {
                sum += table[GAPS * k + (start - vertex.ends[k]) as usize];
            }
        }
        sum
    }

    /// The child that places a job at `start`; from `cut` on every start of it is cut.
    #[inline(always)]
    fn visit(
        &mut self,
        parent: &Vertex,
        left: u16,
        floor: u32,
        cut: u32,
        number: usize,
        start: u32,
    ) {
        if !self.tally.counts() || start >= cut || self.best <= floor {
            return;
        }
        self.enter(parent, left, floor, number, start);
    }

    fn enter(&mut self, parent: &Vertex, left: u16, floor: u32, number: usize, start: u32) {
        self.path[number] = start;
        if left == 0 {
            let energy = floor + self.closing(parent, number, start);
            self.offer(energy);
        } else {
            let child = self.place(parent, number, start);
            let time = start + self.tasks[number].running;
            self.children(&child, left, floor, time);
        }
    }

    fn offer(&mut self, energy: u32) {
        if energy < self.best {
            self.best = energy;
            self.tally.best = Some((energy, self.path));
        }
    }

    fn children(&mut self, vertex: &Vertex, unplaced: u16, floor: u32, time: u32) {
        let dues = self.dues(unplaced);
        let mut rest = unplaced;
        for number in 0..self.problem.job_count {
            if rest % 2 == 1 {
                let due = if dues.at == number {
                    dues.second
                } else {
                    dues.first
                };
                let others = vertex.load - self.tasks[number].running;
                let limit = due.min(self.problem.horizon - others);
                self.tries(
                    vertex,
                    unplaced & !(1 << number),
                    floor,
                    time,
                    limit,
                    number,
                );
                if self.tally.over {
                    return;
                }
            }
            rest /= 2;
        }
    }

    #[inline(always)]
    fn tries(
        &mut self,
        vertex: &Vertex,
        left: u16,
        floor: u32,
        time: u32,
        limit: u32,
        number: usize,
    ) {
        let task = self.tasks[number];
        let mut cut = (limit.min(task.last + task.running) + 1).saturating_sub(task.running);
        let mut start = time.max(task.release);
        while start < cut {
            let child = floor + self.sum(&self.extras, vertex, &task, start);
            if self.best <= child {
                let least = floor + self.sum(&self.leasts, vertex, &task, start);
                if self.best <= least {
                    cut = start;
                }
            }
            self.visit(vertex, left, child, cut, number, start);
            if self.tally.over {
                return;
            }
            start += 1;
        }
        while start <= task.last && self.tally.counts() {
            start += 1;
        }
    }

    fn dues(&self, unplaced: u16) -> Dues {
        let mut dues = Dues {
            at: 0,
            first: 1 << 16,
            second: 1 << 16,
        };
        let mut rest = unplaced;
        for number in 0..self.problem.job_count {
            if rest % 2 == 1 {
                let last = self.tasks[number].last;
                if last < dues.first {
                    dues = Dues {
                        at: number,
                        first: last,
                        second: dues.first,
                    };
                } else {
                    dues.second = dues.second.min(last);
                }
            }
            rest /= 2;
        }
        dues
    }

    fn place(&self, parent: &Vertex, number: usize, start: u32) -> Vertex {
        let task = &self.tasks[number];
        let mut child = *parent;
        child.load -= task.running;
        for &k in &task.devices[..task.count] {
            if self.is_fresh(parent, k) {
                child.firsts[k] = start;
            }
            child.ends[k] = start + task.running;
            child.aheads[k] -= task.running;
        }
        child
    }

    /// The extras of the gaps that close the plan, where the job is its last.
    fn closing(&self, parent: &Vertex, number: usize, start: u32) -> u32 {
        let job = &self.problem.jobs[number];
        let mut sum = 0;
        for k in 0..self.problem.devices.len() {
            let fresh = self.is_fresh(parent, k);
            let (first, end) = if !job.uses(k) {
                if fresh {
                    continue;
                }
                (parent.firsts[k], parent.ends[k])
            } else {
                let first = if fresh { start } else { parent.firsts[k] };
                (first, start + job.running)
            };
            sum += self.extras[GAPS * k + (first + self.problem.horizon - end) as usize];
        }
        sum
    }
}

pub fn search(file: &[u8], budget: u32) -> Found {
    found(file, budget, |problem, tally| {
        let all = problem.all_jobs();
        let load = problem.load(all);
        if !tally.counts() || load > problem.horizon {
            return;
        }
        let mut root = Vertex {
            ends: [0; DEVICES],
            firsts: [0; DEVICES],
            aheads: [0; DEVICES],
            load,
        };
        let mut tasks = [Task::default(); MOST_JOBS];
        for (task, job) in tasks.iter_mut().zip(&problem.jobs[..problem.job_count]) {
            task.release = job.release;
            task.running = job.running;
            task.last = job.deadline - job.running;
            for k in (0..DEVICES).filter(|&k| job.uses(k)) {
                task.devices[task.count] = k;
                task.count += 1;
            }
        }
        let horizon = problem.horizon;
        let mut extras = vec![0; GAPS * DEVICES];
        let mut leasts = extras.clone();
        let mut floor = 0;
        for (k, device) in problem.devices.iter().enumerate() {
            root.aheads[k] = problem.ahead(all, k);
            floor += device.working * root.aheads[k] + device.sleeping * (horizon - root.aheads[k]);
            let gaps = &mut extras[GAPS * k..GAPS * k + horizon as usize + 1];
            for (gap, extra) in (0..).zip(gaps.iter_mut()) {
                *extra = extra_of(device, gap);
            }
            let mut least = u32::MAX;
            for (gap, &extra) in gaps.iter().enumerate().rev() {
                least = least.min(extra);
                leasts[GAPS * k + gap] = least;
            }
        }
        let mut search = Search {
            problem,
            tasks,
            extras,
            leasts,
            tally,
            best: u32::MAX,
            path: [0; MOST_JOBS],
        };
        if all == 0 {
            let idle = if problem.round {
                0
            } else {
                problem
                    .devices
                    .iter()
                    .map(|device| extra_of(device, horizon))
                    .sum()
            };
            search.offer(floor + idle);
        } else {
            search.children(&root, all, floor, 0);
        }
    })
}
