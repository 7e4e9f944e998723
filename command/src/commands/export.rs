//! export: catalogue, tasks, jobs and plan as sheets, for a spreadsheet program.

use super::searching::{best, Way};
use crate::arguments::Arguments;
use crate::calls::planner;
use crate::failure::Failure;
use crate::names::Names;
use crate::options::{BUDGET, CSV, MEMORY, MEND, STARTS_FROM};
use crate::plan::{energy_line, job_lines, Origin, Plan};
use crate::refusal;
use crate::request::Request;
use crate::sheets::tasks;
use crate::source::{self, Rows, Source};
use crate::streams;
use crate::text::catalogue::Catalogue;
use crate::text::part::{padded, part_fault};
use std::ffi::OsStr;

/// What is exported is the first word.
pub fn export(mut arguments: Arguments) -> Result<Vec<u8>, Failure> {
    let what = arguments.next("WHAT (catalogue, jobs, tasks or plan)")?;
    match what.to_str() {
        Some("catalogue") => catalogue(arguments),
        Some("jobs") => jobs(arguments),
        Some("tasks") => task_sheet(arguments),
        Some("plan") => plan(arguments),
        _ => Err(Failure::Usage(format!(
            "{:?} is nothing to export: it is catalogue, jobs, tasks or plan",
            what.to_string_lossy()
        ))),
    }
}

/// Of a catalogue its parts; of a request its devices, if their names are part numbers.
fn catalogue(mut arguments: Arguments) -> Result<Vec<u8>, Failure> {
    only_a_plan(&arguments)?;
    let parts = match Source::alone(&mut arguments)? {
        Source::File(path) => match source::catalogue_or_request(&path)? {
            Ok(catalogue) => return parts_in(&catalogue, &streams::name(&path)),
            Err(request) => parts_of(&request)?,
        },
        made => parts_of(&made.open()?)?,
    };
    let sheet = planner::export_devices(&parts);
    sheet.map_err(|refused| refusal::plain(refused.number))
}

/// The sheet of a catalogue, or the part for which it is refused.
fn parts_in(catalogue: &Catalogue, file: &str) -> Result<Vec<u8>, Failure> {
    let parts = catalogue.parts.concat();
    planner::export_devices(&parts).map_err(|refused| match planner::order_fault(&parts, &[]) {
        Some((number, part)) => catalogue.refused(number, part, file),
        None => refusal::plain(refused.number),
    })
}

/// The devices of a request as parts, each once.
fn parts_of(request: &Request) -> Result<Vec<u8>, Failure> {
    let (_, tables) = request.tables()?;
    let names = request.written_names();
    let refuse = |words: String| Err(Failure::Refused(format!("floe: no sheet: {words}")));
    if tables.kind.number != 1 {
        return refuse("a catalogue has devices of kind 1 alone".to_string());
    }
    let mut parts: Vec<Vec<u8>> = Vec::new();
    for (number, record) in tables.devices.records.iter().enumerate() {
        let Some(name) = names.device(number) else {
            return refuse(format!(
                "device {number} has no part number: give it as its name"
            ));
        };
        if let Some(fault) = part_fault(name) {
            return refuse(format!("device {number}: {fault}"));
        }
        let mut part = padded(name).unwrap_or_default();
        part.extend(record);
        if !parts.contains(&part) {
            parts.push(part);
        }
    }
    Ok(parts.concat())
}

fn jobs(mut arguments: Arguments) -> Result<Vec<u8>, Failure> {
    only_a_plan(&arguments)?;
    let tables = source::tables_in(Source::alone(&mut arguments)?, Rows::Jobs)?;
    if tables.tasks.count > 0 {
        let message =
            "floe: no sheet of jobs: the request has tasks, which release them; export tasks";
        return Err(Failure::Refused(message.to_string()));
    }
    let sheet = planner::export_jobs(&tables.jobs.records.concat());
    sheet.map_err(|refused| refusal::plain(refused.number))
}

fn task_sheet(mut arguments: Arguments) -> Result<Vec<u8>, Failure> {
    only_a_plan(&arguments)?;
    let tables = source::tables_in(Source::alone(&mut arguments)?, Rows::Tasks)?;
    Ok(tasks::sheet(&tables.tasks.records))
}

/// Options that mean nothing but for a plan.
fn only_a_plan(arguments: &Arguments) -> Result<(), Failure> {
    for option in [MEND, CSV, STARTS_FROM, BUDGET, MEMORY] {
        if arguments.has(&option) {
            let name = option.name;
            return Err(Failure::Usage(format!(
                "{name} goes with export plan alone"
            )));
        }
    }
    Ok(())
}

/// The plan of given start times, mended if that is asked for; without any that of least energy.
fn plan(mut arguments: Arguments) -> Result<Vec<u8>, Failure> {
    let way = Way::given(&arguments)?;
    let source = Source::given(&mut arguments)?;
    let starts = arguments.starts()?;
    source.apart_from(&starts)?;
    source.spared_by(arguments.option(&CSV), Some(&starts))?;
    let is_mended = arguments.has(&MEND);
    if starts.is_none() && is_mended {
        let message = "--mend goes with start times, which it makes feasible";
        return Err(Failure::Usage(message.to_string()));
    }
    let is_given = !starts.is_none();
    let (request, given) = (source.open()?, starts.read()?);
    let file = &request.file;
    let of_starts = |starts: &[u16]| {
        Plan::of_starts(file, starts, Origin::Given)
            .map_err(|refused| request.not_judged(refused, starts))
    };
    let plan = match (is_given, is_mended) {
        (false, _) => best(&request, way)?,
        (true, false) => of_starts(&given)?,
        (true, true) => {
            let mended = planner::mend(file, &given);
            let (starts, _) = mended.map_err(|refused| request.not_judged(refused, &given))?;
            of_starts(&starts)?
        }
    };
    let names = request.names();
    let text = energy_line(plan.energy, &names) + &job_lines(&plan.starts, &plan.margins, &names);
    match arguments.has(&CSV) {
        true => output(&arguments, &request, &plan, text),
        false => on_output(&request, &plan),
    }
}

/// What a plan prints: its text; with --csv and a file that text, and its sheet goes to the file; with
/// --csv alone its sheet, and the energy, by which cells are bought, goes to standard error.
pub fn output(
    arguments: &Arguments,
    request: &Request,
    plan: &Plan,
    text: String,
) -> Result<Vec<u8>, Failure> {
    match arguments.option(&CSV) {
        None => Ok(text.into_bytes()),
        Some("" | "-") => on_output(request, plan),
        Some(path) => {
            streams::save(OsStr::new(path), &sheet(request, plan)?)?;
            Ok(text.into_bytes())
        }
    }
}

fn on_output(request: &Request, plan: &Plan) -> Result<Vec<u8>, Failure> {
    let sheet = sheet(request, plan)?;
    streams::complain(energy_line(plan.energy, &request.names()).trim_end());
    Ok(sheet)
}

/// The sheet of a plan, as the library writes it. Where jobs have names a last column has them.
fn sheet(request: &Request, plan: &Plan) -> Result<Vec<u8>, Failure> {
    let sheet = planner::export_plan(&request.file, &plan.starts);
    let sheet = sheet.map_err(|refused| request.not_judged(refused, &plan.starts))?;
    Ok(with_names(sheet, &request.names()))
}

fn with_names(sheet: Vec<u8>, names: &Names) -> Vec<u8> {
    if names.jobs.iter().flatten().next().is_none() {
        return sheet;
    }
    let text = String::from_utf8_lossy(&sheet);
    let lines = text.lines().enumerate();
    let named = lines.map(|(job, line)| {
        let name = names.job(job).unwrap_or("");
        format!("{line},\"{name}\"\r\n")
    });
    named.collect::<String>().into_bytes()
}
