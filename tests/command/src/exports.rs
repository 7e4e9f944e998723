//! export: catalogue, jobs, tasks and plans as sheets, held to the oracle's sheets, and read again.

use crate::calls::{hold, Call, Content};
use crate::floe::{file, in_folder, same, Floe, Tried};
use crate::parts::parts;
use outside::cases::random::Random;
use outside::cases::{draw, Kind};
use outside::oracle::catalogue;
use outside::oracle::expect::{plan_text, search, BUDGET};
use outside::oracle::request::{unmarked, FileKind, Job, Request};
use outside::oracle::sheets::{self, export_devices, export_jobs};
use std::fmt::Write;
use std::fs;
use std::path::Path;

const SEED: u64 = 37;
const CATALOGUES: u64 = 400;
const CASES: u64 = 300;

pub fn test(floe: &Floe) -> Tried {
    in_folder("exports", |folder| {
        let runs = catalogues(floe)? + cases(floe, folder)? + by_hand(floe, folder)?;
        Ok(runs + hold(floe, folder, &FILES, &WRONG)?)
    })
}

/// A catalogue's text gives the oracle's sheet, and the sheet itself again.
fn catalogues(floe: &Floe) -> Tried {
    let (mut runs, mut met) = (0, [0; 3]);
    for number in 0..CATALOGUES {
        let call = catalogue::draw(&mut Random::new(SEED, number));
        let Some(parts) = parts(&call).filter(|parts| !parts.is_empty()) else {
            continue;
        };
        let mut text = String::new();
        for (number, [t, working, sleeping, moving]) in parts {
            let _ = writeln!(text, "part {number} {t} {working} {sleeping} {moving}");
        }
        let answer = floe.answer(&["export", "catalogue", "-"], text.as_bytes())?;
        let expected = export_devices(&call.catalogue).map(|(_, sheet)| sheet);
        same(
            answer.map_err(|(number, _)| number),
            expected.clone(),
            || text.clone(),
        )?;
        runs += 1;
        match expected {
            Ok(sheet) => {
                met[0] += 1;
                let again = floe.output(&["export", "catalogue", "-"], &sheet)?;
                same(again, sheet, || text.clone())?;
                runs += 1;
            }
            Err(21) => met[1] += 1,
            Err(_) => met[2] += 1,
        }
    }
    match met.iter().all(|&times| times >= 5) {
        true => Ok(runs),
        false => Err(format!("hardly met: {met:?}")),
    }
}

fn record(job: &Job) -> Vec<u8> {
    let numbers = [job.release, job.deadline, job.running];
    let mut bytes: Vec<u8> = numbers
        .iter()
        .flat_map(|&number| (number as u16).to_be_bytes())
        .collect();
    bytes.push(job.devices);
    bytes
}

/// Of a case that has a plan: its jobs, its plan, given and mended start times.
fn cases(floe: &Floe, folder: &Path) -> Tried {
    let mut runs = 0;
    for number in 0..CASES {
        let case = draw(SEED, number);
        if case.kind == Kind::OverBudget {
            continue;
        }
        let Some((request, schedule)) = search(&case.file, BUDGET).plan else {
            continue;
        };
        let named = || format!("case {number}");
        if !request.round {
            runs += jobs(floe, &case.file, &request)
                .map_err(|fault| format!("{}: {fault}", named()))?;
        }
        let sheet = |starts: &[u32]| {
            let jobs = request.jobs.iter().zip(starts);
            let lines: Vec<(u32, i64)> = jobs
                .map(|(job, &start)| (start, job.margin(start)))
                .collect();
            sheets::plan_text(&lines)
        };
        let starts: Vec<String> = schedule.starts.iter().map(u32::to_string).collect();
        let energy = format!("energy {}\n", schedule.energy);
        // The least plan, and the same for its start times; mended they stay.
        let mut calls = vec![vec!["export", "plan", "-"]];
        if !starts.is_empty() {
            let given: Vec<&str> = starts.iter().map(String::as_str).collect();
            calls.push([&["export", "plan", "-"][..], &given].concat());
            calls.push([&["export", "plan", "-", "--mend"][..], &given].concat());
        }
        for words in calls {
            let expected = (sheet(&schedule.starts), energy.clone());
            same(floe.noted(&words, &case.file)?, expected, named)?;
            runs += 1;
        }
        // With a file the sheet is there, and the plan is printed as ever.
        let path = folder.join("plan.csv").to_string_lossy().into_owned();
        let _ = fs::remove_file(&path);
        let printed = floe.output(&["plan", "-", "--csv", &path], &case.file)?;
        let written = fs::read(&path).map_err(|fault| format!("{}: {fault}", named()))?;
        let plan = plan_text(&request, &schedule, None);
        runs += from_the_sheet(floe, &case.file, &path, &starts)
            .map_err(|fault| format!("{}: {fault}", named()))?;
        same(
            (printed, written),
            (plan.into_bytes(), sheet(&schedule.starts)),
            named,
        )?;
        runs += 1;
    }
    Ok(runs)
}

/// The sheet of a plan has its start times, as words have them: in every command, in any order of rows,
/// and with lines that end in LF.
fn from_the_sheet(floe: &Floe, request: &[u8], path: &str, starts: &[String]) -> Tried {
    if starts.is_empty() {
        return Ok(0);
    }
    let starts: Vec<&str> = starts.iter().map(String::as_str).collect();
    for command in ["verdict", "rows", "mend"] {
        let words = [&[command, "-"][..], &starts].concat();
        let expected = floe.output(&words, request)?;
        let got = floe.output(&[command, "-", "--starts-from", path], request)?;
        same(got, expected, || command.to_string())?;
    }
    let sheet = fs::read_to_string(path).map_err(|fault| fault.to_string())?;
    let mut lines: Vec<&str> = sheet.lines().collect();
    lines.reverse();
    fs::write(path, lines.join("\n") + "\n").map_err(|fault| fault.to_string())?;
    let words = ["draw", "-", "--starts", &starts.join(",")];
    let expected = floe.output(&words, request)?;
    let (got, said) = floe.noted(&["draw", "-", "--starts-from", path], request)?;
    same((got, said.contains("LF alone")), (expected, true), || {
        "draw".to_string()
    })?;
    Ok(8)
}

/// The sheet of a list's jobs. With names for part numbers its devices are a catalogue, and both sheets
/// give the request again.
fn jobs(floe: &Floe, request_file: &[u8], request: &Request) -> Tried {
    let records: Vec<u8> = request.jobs.iter().flat_map(record).collect();
    let (_, expected) =
        export_jobs(&records).map_err(|number| format!("the oracle says {number}"))?;
    let sheet = floe.output(&["export", "jobs", "-"], request_file)?;
    same(&sheet, &expected, || "export jobs".to_string())?;
    let is_first = unmarked(request_file).0 == FileKind::First;
    if !is_first || request.devices.is_empty() || request.jobs.is_empty() {
        return Ok(1);
    }
    let text = floe.output(&["show", "-"], request_file)?;
    let mut number = 0;
    let mut named = String::new();
    for line in String::from_utf8_lossy(&text).lines() {
        named += line;
        if line.starts_with("device ") {
            let _ = write!(named, " name P{number:03}");
            number += 1;
        }
        named += "\n";
    }
    let parts = floe.output(&["export", "catalogue", "-"], named.as_bytes())?;
    let wanted: Vec<String> = (0..number).map(|number| format!("P{number:03}")).collect();
    in_folder("again", |folder| {
        let parts = file(folder, "parts.csv", &parts)?;
        let jobs = file(folder, "jobs.csv", &sheet)?;
        let (wanted, horizon) = (wanted.join(","), request.horizon.to_string());
        let mut words = vec!["write", "--catalogue", &parts, "--parts", &wanted];
        words.extend(["--jobs", &jobs, "--horizon", &horizon]);
        same(floe.output(&words, b"")?, request_file.to_vec(), || {
            named.clone()
        })?;
        Ok(4)
    })
}

const NAMED: &str = "horizon 12\ndevice 1 5 1 3\njob 0 12 2 0 name read\njob 0 12 3 0\n";

const FILES: [Content; 4] = [
    ("PLAN", "0,0,10\r\n1,2,7\r\n"),
    ("TWICE", "0,0,10\r\n0,2,7\r\n"),
    ("HEADER", "job,start,margin\r\n0,2,7\r\n"),
    ("EMPTY", ""),
];

/// What is no sheet, or cannot be one.
const WRONG: [Call; 15] = [
    (
        "export catalogue -",
        "part 417 1 5 1 3\npart flash 1 5 1 3\n",
        1,
        "refused 21: line 2 of standard input: 'flash' has small letters: a part number is up to 8 digits and capital letters",
    ),
    (
        "export catalogue -",
        "part A 1 5 1 3\npart B 1 5 1 3\npart A 1 5 1 3\n",
        1,
        "refused 22: line 3 of standard input: part 'A' stands in line 1 of standard input already: take one of the two out",
    ),
    (
        "export catalogue -",
        NAMED,
        1,
        "floe: no sheet: device 0 has no part number: give it as its name",
    ),
    (
        "export catalogue -",
        "horizon 5\ndevice 1 5 1 3 name flash",
        1,
        "floe: no sheet: device 0: 'flash' has small letters: a part number is up to 8 digits and capital letters",
    ),
    (
        "export catalogue -",
        "kind 2\nhorizon 5\ndevice 1 3 9 1 4 2 name A",
        1,
        "floe: no sheet: a catalogue has devices of kind 1 alone",
    ),
    (
        "export jobs -",
        "task 4 1 -",
        1,
        "floe: no sheet of jobs: the request has tasks, which release them; export tasks",
    ),
    (
        "export plan -",
        "horizon 4\njob 0 2 2 -\njob 0 2 2 -",
        1,
        "..refused 19: no schedule meets all deadlines: jobs 0 and 1 alone..",
    ),
    (
        "export plan - 0 1",
        NAMED,
        1,
        "refused 18: job 0 read: runs from 0 to 2 and overlaps job 1, from 1 to 4",
    ),
    (
        "export plan - 11 0 --mend",
        NAMED,
        1,
        "refused 17: job 0 read: start 11 + running time 2 > deadline 12",
    ),
    (
        "verdict - --starts-from TWICE",
        NAMED,
        1,
        "floe: line 2 of TWICE: job 0 stands in line 1 already",
    ),
    (
        "verdict - --starts-from HEADER",
        NAMED,
        1,
        "floe: line 1 of HEADER, column 1 (job): 'job' is not a number: this looks like a header, and a sheet has none: take the line out",
    ),
    (
        "verdict - --starts-from EMPTY",
        NAMED,
        1,
        "floe: EMPTY is empty: the sheet of a plan has a line for each job",
    ),
    (
        "verdict - --starts-from -",
        NAMED,
        2,
        "..- is standard input, and is given twice..",
    ),
    (
        "verdict - 0 2 --starts-from PLAN",
        NAMED,
        2,
        "..start times are given, and --starts-from too..",
    ),
    (
        "draw - --starts 0,2 --starts-from PLAN",
        NAMED,
        2,
        "..--starts and --starts-from are given..",
    ),
];

/// Mended start times, names in a sheet, and sheets that are exported again.
fn by_hand(floe: &Floe, folder: &Path) -> Tried {
    let sheet = "0,0,10,\"read\"\r\n1,2,7,\"\"\r\n";
    let words = ["export", "plan", "-", "0", "1", "--mend"];
    let (mended, said) = floe.noted(&words, NAMED.as_bytes())?;
    let mended = String::from_utf8_lossy(&mended).into_owned();
    let expected = (sheet.to_string(), "energy 36\n".to_string());
    same((mended, said), expected, || "mended".to_string())?;
    let path = folder.join("given.csv").to_string_lossy().into_owned();
    let words = ["export", "plan", "-", "0", "2", "--csv", &path];
    let printed = "energy 36\njob 0 read start 0 margin 10\njob 1 -    start 2 margin 7\n";
    floe.prints(&words, NAMED, printed)?;
    let written = fs::read_to_string(&path).map_err(|fault| fault.to_string())?;
    same(&written[..], sheet, || "to a file".to_string())?;
    // A text that only a catalogue completes has jobs all the same.
    let text = "horizon 20\njob 4 20 4 0,1\n";
    floe.prints(&["export", "jobs", "-"], text, "4,20,4,3\r\n")?;
    floe.prints(&["export", "jobs", "-"], "\"4\",20,04,3", "4,20,4,3\r\n")?;
    floe.prints(&["export", "tasks", "-"], "\"4\",01,3", "4,1,3\r\n")?;
    let missing = folder.join("none/plan.csv").to_string_lossy().into_owned();
    let (status, said) = floe.failed(&["plan", "-", "--csv", &missing], NAMED.as_bytes())?;
    let is_told = said.starts_with("floe: cannot write to ");
    same((status, is_told), (3, true), || said.clone())?;
    Ok(6)
}
