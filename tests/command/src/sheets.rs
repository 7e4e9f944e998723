//! Sheets: build from a sheet of devices and one of jobs, and plan --csv.

use crate::floe::{same, Floe, Tried};
use crate::parts::{parts, wanted};
use outside::cases::random::Random;
use outside::cases::{draw, Kind};
use outside::oracle::catalogue::{self, built, Call};
use outside::oracle::expect::{search, BUDGET};
use std::fs;
use std::path::Path;

/// The output, or the number with its words.
type Answered = Result<Result<Vec<u8>, (u8, String)>, String>;

const SEED: u64 = 25;
const CASES: u64 = 400;
const CALLS: u64 = 1_200;

pub fn test(floe: &Floe) -> Tried {
    let folder = std::env::temp_dir().join(format!("floe-sheets-{}", std::process::id()));
    fs::create_dir_all(&folder).map_err(|fault| fault.to_string())?;
    let [devices, jobs] = ["devices.csv", "jobs.csv"].map(|name| folder.join(name));
    let tried = plans(floe)
        .and_then(|runs| Ok(runs + builds(floe, &devices, &jobs)?))
        .and_then(|runs| Ok(runs + places(floe, &devices, &jobs)?));
    let _ = fs::remove_dir_all(&folder);
    tried
}

/// A line a job: number, start, margin.
fn plans(floe: &Floe) -> Tried {
    let mut runs = 0;
    for number in 0..CASES {
        let case = draw(SEED, number);
        if case.kind == Kind::OverBudget {
            continue;
        }
        let Some((request, schedule)) = search(&case.file, BUDGET).plan else {
            continue;
        };
        let jobs = request.jobs.iter().zip(&schedule.starts).enumerate();
        let sheet: String = jobs
            .map(|(number, (job, &start))| format!("{number},{start},{}\r\n", job.margin(start)))
            .collect();
        // The energy is never hidden.
        let energy = format!("energy {}\n", schedule.energy);
        for words in [&["plan", "-", "--csv"][..], &["plan", "-", "--csv", "-"]] {
            let (printed, said) = floe.noted(words, &case.file)?;
            let printed = String::from_utf8_lossy(&printed).into_owned();
            let expected = (sheet.clone(), energy.clone());
            same((printed, said), expected, || format!("case {number}"))?;
            runs += 1;
        }
    }
    Ok(runs)
}

fn run(floe: &Floe, paths: [&Path; 2], sheets: [&str; 2], words: &[&str]) -> Answered {
    for (path, sheet) in paths.iter().zip(sheets) {
        fs::write(path, sheet).map_err(|fault| fault.to_string())?;
    }
    let [devices, jobs] = paths.map(|path| path.to_string_lossy());
    let mut arguments = vec!["build", &devices, &jobs];
    arguments.extend(words);
    floe.answer(&arguments, b"")
}

fn builds(floe: &Floe, devices: &Path, jobs: &Path) -> Tried {
    let (mut runs, mut met) = (0, [0; 24]);
    for number in 0..CALLS {
        let random = &mut Random::new(SEED, number);
        let call = catalogue::draw(random);
        let Some((sheets, wanted)) = as_sheets(random, &call) else {
            continue;
        };
        let horizon = call.others.horizon.to_string();
        let mut words = vec!["--horizon", &horizon];
        words.extend(wanted.iter().map(String::as_str));
        let sheets = [sheets.0.as_str(), sheets.1.as_str()];
        let answer = run(floe, [devices, jobs], sheets, &words)?;
        let expected = built(&call).map(|(_, file)| file);
        met[usize::from(expected.as_ref().err().copied().unwrap_or(0))] += 1;
        same(answer.map_err(|(number, _)| number), expected, || {
            format!("call {number}: {sheets:?}, wanted {wanted:?}")
        })?;
        runs += 1;
    }
    let missed: Vec<usize> = [0, 21, 22, 23]
        .into_iter()
        .filter(|&number| met[number] < 5)
        .collect();
    if !missed.is_empty() {
        return Err(format!("hardly met: {missed:?} of {met:?}"));
    }
    Ok(runs)
}

/// A sheet of the catalogue and one of the jobs, if the call has no tasks; quoted here and there.
pub fn as_sheets(random: &mut Random, call: &Call) -> Option<((String, String), Vec<String>)> {
    let [_, tasks, jobs] = &call.others.tables;
    (tasks.count == 0 && usize::from(jobs.count) == jobs.records.len()).then_some(())?;
    let mut field = |text: String, is_name: bool| {
        let is_plain = text
            .bytes()
            .all(|byte| byte.is_ascii_digit() || byte.is_ascii_uppercase());
        let is_quoted = if is_name {
            !is_plain || random.one_in(2)
        } else {
            random.one_in(9)
        };
        if is_quoted {
            format!("\"{text}\"")
        } else {
            text
        }
    };
    let mut devices = String::new();
    for (number, figures) in parts(call)? {
        let mut fields = vec![field(number.replace('"', "\"\""), true)];
        fields.extend(figures.map(|figure| field(figure.to_string(), false)));
        devices += &(fields.join(",") + "\r\n");
    }
    let mut sheet = String::new();
    for record in &jobs.records {
        let (set, numbers) = record.split_last()?;
        let numbers = numbers
            .chunks_exact(2)
            .map(|pair| u16::from_be_bytes([pair[0], pair[1]]).to_string());
        let fields: Vec<String> = numbers.chain([set.to_string()]).collect();
        let fields: Vec<String> = fields.into_iter().map(|text| field(text, false)).collect();
        sheet += &(fields.join(",") + "\r\n");
    }
    // What is empty is no sheet.
    (!devices.is_empty() && !sheet.is_empty()).then_some(())?;
    // The last line may lack its end.
    if random.one_in(4) && sheet.ends_with("\r\n") {
        sheet.truncate(sheet.len() - 2);
    }
    Some(((devices, sheet), wanted(call)?))
}

/// The line at fault, of the sheet at fault.
fn places(floe: &Floe, devices: &Path, jobs: &Path) -> Tried {
    let good = "\"00417\",1,5,1,3\r\n417,2,9,2,4\r\n";
    let job = "0,5,2,1\r\n";
    let table: [([&str; 2], &str, u8, &str); 10] = [
        ([good, job], "418", 23, "part '418': "),
        (
            ["417,1,5,1,3\r\n\"A\"B,1,5,1,3\r\n", job],
            "417",
            27,
            "line 2 of ",
        ),
        (["417,1,5,1,3\r\nA,1,5\r\n", job], "417", 28, "line 2 of "),
        (
            ["417,1,5,1,3\r\nA,1,5,1,x\r\nB", job],
            "417",
            29,
            "line 2 of ",
        ),
        (
            ["417,1,5,1,3\r\na,1,5,1,3\r\n", job],
            "417",
            21,
            "line 2 of ",
        ),
        (["417,1,5,1,3\r\n\r\n", job], "417", 28, "line 2 of "),
        (["417,1,5,1,3\r\n417,1,5,1,3", job], "417", 22, "line 2 of "),
        ([good, "0,5,2,1\r\n0,5,2,256\r\n"], "417", 29, "line 2 of "),
        (
            [good, "0,5,2,1\r\n0,5,6,1\r\n"],
            "417",
            13,
            "job 1 (line 2 of ",
        ),
        ([good, &job.repeat(17)], "417", 12, "line 17 of "),
    ];
    let mut runs = 0;
    for (sheets, part, number, place) in table {
        let answer = run(floe, [devices, jobs], sheets, &["--horizon", "5", part])?;
        let (refused, said) = answer.err().unwrap_or_default();
        same((refused, said.starts_with(place)), (number, true), || {
            format!("{sheets:?}: refused {refused}: {said}")
        })?;
        runs += 1;
    }
    // A mark in front, as spreadsheets write it, is no part of the first number.
    let marked = format!("\u{FEFF}{good}");
    let file = run(
        floe,
        [devices, jobs],
        [&marked, job],
        &["--horizon", "5", "00417"],
    )?;
    let expected = [
        &[0, 5, 1, 1, 0, 5, 0, 1, 0, 3, 0, 1][..],
        &[0, 0, 0, 5, 0, 2, 1],
    ]
    .concat();
    same(file, Ok(expected), || "a mark in front".to_string())?;
    Ok(runs + 1)
}
