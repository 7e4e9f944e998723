//! Given start times judged by rules 20 to 23: the plan's energy, or the first fault with its job.

use crate::oracle::listing::energy;
use crate::oracle::request::Request;
use crate::oracle::rows::Energies;

/// A refusal number and the job that it names.
pub type Fault = (u8, usize);

pub fn judge(request: &Request, starts: &[u32]) -> Result<u64, Fault> {
    match fault(request, starts) {
        Some(fault) => Err(fault),
        None => Ok(energy(request, starts, &mut Energies::of(request))),
    }
}

/// What is wrong, if anything is, without a look at the energy.
pub fn fault(request: &Request, starts: &[u32]) -> Option<Fault> {
    let jobs = &request.jobs;
    for (number, (job, &start)) in jobs.iter().zip(starts).enumerate() {
        if start < job.release {
            return Some((16, number));
        }
        if start + job.running > job.deadline {
            return Some((17, number));
        }
    }
    let runs_in =
        |job: usize, tick: u32| (starts[job]..starts[job] + jobs[job].running).contains(&tick);
    let meets_another = |job: usize| {
        let others = (0..jobs.len()).filter(|&other| other != job);
        let mut ticks = starts[job]..starts[job] + jobs[job].running;
        others.clone().count() > 0
            && ticks.any(|tick| others.clone().any(|other| runs_in(other, tick)))
    };
    let first = (0..jobs.len()).find(|&job| meets_another(job));
    first.map(|job| (18, job))
}

#[cfg(test)]
mod tests {
    use super::*;
    use crate::cases::tables::{device_a, job, Tables};
    use crate::oracle::request::read;

    fn three() -> Request {
        let tables = Tables {
            horizon: 9,
            devices: vec![device_a()],
            tasks: Vec::new(),
            jobs: vec![job(1, 9, 2, 1), job(0, 9, 2, 0), job(0, 8, 2, 0)],
        };
        read(&tables.bytes()).unwrap()
    }

    #[test]
    fn the_first_fault_decides_and_names_its_job() {
        let judged = |starts: [u32; 3]| judge(&three(), &starts);
        assert_eq!(judged([0, 8, 8]), Err((16, 0)));
        assert_eq!(judged([1, 8, 0]), Err((17, 1)));
        assert_eq!(judged([1, 3, 7]), Err((17, 2)));
        assert_eq!(judged([1, 5, 4]), Err((18, 1)));
        assert_eq!(judged([1, 2, 5]), Err((18, 0)));
        assert!(judged([1, 3, 5]).is_ok());
    }
}
