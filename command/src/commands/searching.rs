//! plan and possible.

use super::export::output;
use super::work::at_work;
use crate::arguments::Arguments;
use crate::calls::planner::{self, Refused};
use crate::calls::system;
use crate::failure::Failure;
use crate::options::{CSV, RUNS};
use crate::plan::{job_lines, Origin, Plan};
use crate::request::Request;
use crate::source::Source;
use std::time::Instant;

/// How the plan of least energy is looked for.
#[derive(Clone, Copy)]
pub enum Way {
    /// With so many mebibytes to remember in, if they are given.
    Remembering(Option<usize>),
    /// By counting vertices, so many at most.
    Counting(u32),
}

/// Mebibytes, where none are given.
const MEMORY: usize = 64;

impl Way {
    pub fn given(arguments: &Arguments) -> Result<Way, Failure> {
        match (arguments.budget()?, arguments.memory()?) {
            (None, memory) => Ok(Way::Remembering(memory)),
            (Some(budget), None) => Ok(Way::Counting(budget)),
            (Some(_), Some(_)) => {
                let message = "with --budget nothing is remembered, so that --memory means nothing";
                Err(Failure::Usage(message.to_string()))
            }
        }
    }
}

pub fn plan(mut arguments: Arguments) -> Result<Vec<u8>, Failure> {
    let way = Way::given(&arguments)?;
    let source = Source::alone(&mut arguments)?;
    source.spared_by(arguments.option(&CSV), None)?;
    let request = source.open()?;
    let plan = best(&request, way)?;
    let text = plan.text(&request.names(), arguments.has(&RUNS));
    output(&arguments, &request, &plan, text)
}

/// The plan of least energy.
pub fn best(request: &Request, way: Way) -> Result<Plan, Failure> {
    let file = &request.file;
    let of_starts = |starts: &[u16], origin| {
        Plan::of_starts(file, starts, origin).map_err(|refused| request.not_found(refused))
    };
    match way {
        Way::Counting(budget) => {
            let found = planner::search(file, budget);
            let found = found.map_err(|refused| request.not_found(refused))?;
            of_starts(&found.starts, Origin::Counted(found.count))
        }
        Way::Remembering(mebibytes) => {
            let mut memory = memory(mebibytes)?;
            let begun = Instant::now();
            let found = at_work(|| remembered(file, &mut memory))?;
            let lasted = begun.elapsed();
            let starts = found.map_err(|refused| request.not_remembered(refused, lasted))?;
            of_starts(&starts, Origin::Least)
        }
    }
}

/// As much as is given, which has to be there; or as much of what is usual as there is: with less it takes longer
/// and gives the same plan.
fn memory(given: Option<usize>) -> Result<Vec<u64>, Failure> {
    let zeros = |mebibytes: usize| system::zeros(mebibytes << 17);
    match given {
        Some(mebibytes) => zeros(mebibytes).ok_or_else(|| {
            Failure::Usage(format!(
                "--memory {mebibytes}: there is not so much to be had"
            ))
        }),
        None => {
            let fewer = std::iter::successors(Some(MEMORY), |more| Some(more / 2));
            Ok(fewer
                .take_while(|&some| some > 0)
                .find_map(zeros)
                .unwrap_or_default())
        }
    }
}

/// The first try: in little memory, with a budget that takes some hundredths of a second.
const LITTLE: usize = 1 << 17;
const SHORT: u32 = 20_000;

/// Most requests are answered by the first try, before a large memory is cleared. More memory and a
/// larger budget change no answer but 20, which is proved.
fn remembered(file: &[u8], memory: &mut [u64]) -> Result<Vec<u16>, Refused> {
    let little = memory.len().min(LITTLE);
    match planner::least_plan(file, SHORT, &mut memory[..little]) {
        Err(refused) if refused.number == 20 => planner::least_plan(file, u32::MAX, memory),
        found => found,
    }
}

/// Whether there is any plan: with a budget by the visit that it is for, else by the one answer that
/// needs none.
pub fn possible(mut arguments: Arguments) -> Result<Vec<u8>, Failure> {
    let budget = arguments.budget()?;
    let request = Source::alone(&mut arguments)?.open()?;
    let file = &request.file;
    let found = match budget {
        Some(budget) => planner::any_plan(file, budget).map(|found| {
            let vertices = format!("vertices {}\n", found.count);
            (vertices, found.starts)
        }),
        None => planner::first_plan(file).map(|starts| (String::new(), starts)),
    };
    let answer = found.and_then(|(vertices, starts)| {
        let margins = planner::margins(file, &starts)?;
        Ok((vertices, starts, margins))
    });
    let (vertices, starts, margins) = answer.map_err(|refused| request.not_found(refused))?;
    let jobs = job_lines(&starts, &margins, &request.names());
    Ok(format!("yes\n{vertices}{jobs}").into_bytes())
}
