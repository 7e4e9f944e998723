//! What the program must print for a file, to the byte.

use crate::oracle::listing::{first_of_the_least, uses, Schedule};
use crate::oracle::request::{read, Request};
use crate::oracle::rows::row_given;
use crate::oracle::visit::visit;

/// The budget of the printing program.
pub const BUDGET: u32 = 1_000_000;

/// The outcome of a search on a file.
pub struct Outcome {
    /// 0, or the refusal number.
    pub number: u8,
    /// The vertex count, and the budget for 20; 0 for a file that is refused.
    pub count: u64,
    pub plan: Option<(Request, Schedule)>,
}

pub fn search(file: &[u8], budget: u32) -> Outcome {
    let refused = |number, count| Outcome {
        number,
        count,
        plan: None,
    };
    let request = match read(file) {
        Ok(request) => request,
        Err(number) => return refused(number, 0),
    };
    // One vertex more than the budget is enough to know that the budget is too small. This comes
    // before the listing: 20 is decided before 19, and the listing may be too long to write out.
    let visited = visit(&request, u64::from(budget) + 1);
    if visited.count > u64::from(budget) {
        return refused(20, u64::from(budget));
    }
    let listed = first_of_the_least(&request);
    // The oracle's two halves know nothing of each other. If they part, the oracle is wrong.
    assert_eq!(
        visited.best,
        listed.as_ref().map(|schedule| schedule.energy),
        "the visit and the listing disagree about the least energy"
    );
    match listed {
        None => refused(19, visited.count),
        Some(schedule) => Outcome {
            number: 0,
            count: visited.count,
            plan: Some((request, schedule)),
        },
    }
}

/// The program's whole output for an outcome.
pub fn text(outcome: &Outcome) -> String {
    match &outcome.plan {
        Some((request, schedule)) => plan_text(request, schedule, Some(outcome.count)),
        None => format!("refused {}\n", outcome.number),
    }
}

/// A plan in lines, with the vertices that were counted, if any were.
pub fn plan_text(request: &Request, schedule: &Schedule, count: Option<u64>) -> String {
    let mut text = format!("energy {}\n", schedule.energy);
    if let Some(count) = count {
        text += &format!("vertices {count}\n");
    }
    for (number, (job, start)) in request.jobs.iter().zip(&schedule.starts).enumerate() {
        let margin = job.margin(*start);
        text += &format!("job {number} start {start} margin {margin}\n");
    }
    for (number, device) in request.devices.iter().enumerate() {
        let uses = uses(request, &schedule.starts, number);
        let row = row_given(request.round, device, &uses, request.horizon);
        text += &format!("device {number} {row}\n");
    }
    text
}
