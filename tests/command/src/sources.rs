//! A request from sheets in one call, in the place of a file: as build makes it, in every command; and
//! the ways in which such a call goes wrong.

use crate::calls::{hold, Call, Content};
use crate::floe::{file, in_folder, same, Floe, Tried};
use crate::sheets::as_sheets;
use outside::cases::random::Random;
use outside::oracle::catalogue::{self, built};
use outside::running::runner::{run, Feed};
use std::path::Path;

const SEED: u64 = 36;
const CALLS: u64 = 500;

pub fn test(floe: &Floe) -> Tried {
    in_folder("sources", |folder| {
        let runs = in_one_call(floe, folder)? + by_names(floe, folder)? + tasks(floe, folder)?;
        let runs = runs + lists(floe, folder)? + piped(floe, folder)?;
        let wrong = hold(floe, folder, &FILES, &WRONG)? + hold(floe, folder, &FILES, &NOTHING)?;
        Ok(runs + wrong)
    })
}

/// `write` with sheets gives the file that the oracle builds, and `show` its text, in which the parts are
/// named.
fn in_one_call(floe: &Floe, folder: &Path) -> Tried {
    let (mut runs, mut accepted) = (0, 0);
    for number in 0..CALLS {
        let random = &mut Random::new(SEED, number);
        let call = catalogue::draw(random);
        let Some(((devices, jobs), wanted)) = as_sheets(random, &call) else {
            continue;
        };
        let is_list = wanted
            .iter()
            .all(|part| !part.is_empty() && !part.contains(','));
        if !is_list || devices.is_empty() || jobs.is_empty() {
            continue;
        }
        let devices = file(folder, "devices.csv", devices.as_bytes())?;
        let jobs = file(folder, "jobs.csv", jobs.as_bytes())?;
        let list = wanted.join(",");
        let horizon = call.others.horizon.to_string();
        let mut words = vec!["write", "--catalogue", &devices, "--jobs", &jobs];
        words.extend(["--parts", &list, "--horizon", &horizon]);
        let answer = floe.answer(&words, b"")?;
        let expected = built(&call).map(|(_, file)| file);
        let named = || format!("call {number}, wanted {wanted:?}");
        same(
            answer.map_err(|(number, _)| number),
            expected.clone(),
            named,
        )?;
        runs += 1;
        let Ok(expected) = expected else { continue };
        accepted += 1;
        words[0] = "show";
        let text = floe.output(&words, b"")?;
        let shown = String::from_utf8_lossy(&text).into_owned();
        let names = shown.lines().filter(|line| line.starts_with("device "));
        let names: Vec<&str> = names
            .filter_map(|line| line.split(" name ").nth(1))
            .collect();
        same(names, wanted.iter().map(String::as_str).collect(), named)?;
        same(floe.output(&["write", "-"], &text)?, expected, named)?;
        runs += 2;
    }
    match accepted {
        25.. => Ok(runs),
        _ => Err(format!("{accepted} requests of sheets are accepted")),
    }
}

const CATALOGUE: &str = "\"00417\",1,5,1,3\r\n\"417\",2,9,2,4\r\n\"FLASH8M\",3,12,1,6\r\n";

/// Part numbers stand for devices in the text beside a catalogue, and build --text keeps them.
fn by_names(floe: &Floe, folder: &Path) -> Tried {
    let parts = file(folder, "parts.csv", CATALOGUE.as_bytes())?;
    let by_name = "horizon 20\njob 0 8 3 417 name read\njob 4 20 4 FLASH8M,417\n";
    let by_name = file(folder, "jobs.txt", by_name.as_bytes())?;
    let sheet = file(folder, "jobs.csv", b"0,8,3,1\r\n4,20,4,3\r\n")?;
    let built = floe.output(&["build", &parts, &by_name, "417", "FLASH8M"], b"")?;
    let words = ["build", &parts, &sheet, "417", "FLASH8M", "--horizon", "20"];
    same(floe.output(&words, b"")?, built.clone(), || {
        "build by numbers".to_string()
    })?;
    let text = "horizon 20\n\n# device: T, Pw, Ps, P0\ndevice 2 9 2 4 name 417\n\
        device 3 12 1 6 name FLASH8M\n\n# job: release, deadline, running time, devices\n\
        job 0 8 3 417 name read\njob 4 20 4 417,FLASH8M\n";
    let words = ["build", &parts, &by_name, "417", "FLASH8M", "--text"];
    floe.prints(&words, "", text)?;
    same(
        floe.output(&["write", "-"], text.as_bytes())?,
        built,
        || "its text".to_string(),
    )?;
    let plan = "energy 191\njob 0 read start 0 margin 5\njob 1 -    start 16 margin 0\n";
    let plan_of = floe.output(&["plan", "-"], text.as_bytes())?;
    let plan_of = String::from_utf8_lossy(&plan_of).into_owned();
    let in_one = [
        "plan",
        "--catalogue",
        &parts,
        "--parts=417,FLASH8M",
        "--jobs",
        &by_name,
    ];
    floe.prints(&in_one, "", &plan_of)?;
    same(plan_of.starts_with(plan), true, || plan_of.clone())?;
    // From another kind of input too.
    let jobs = "0,8,3,1\r\n4,20,4,3\r\n";
    let words = [
        "check",
        "--catalogue",
        &parts,
        "--parts",
        "417,FLASH8M",
        "--jobs",
        "-",
        "--horizon=20",
    ];
    floe.prints(&words, jobs, "horizon 20\ndevices 2\ntasks 0\njobs 2\n")?;
    Ok(7)
}

/// A sheet of tasks makes the request that a text of the same lines makes.
fn tasks(floe: &Floe, folder: &Path) -> Tried {
    let parts = file(folder, "parts.csv", CATALOGUE.as_bytes())?;
    let sheet = file(folder, "tasks.csv", b"4,1,1\r\n\"6\",2,3")?;
    let text = "device 1 5 1 3\ndevice 3 12 1 6\ntask 4 1 0\ntask 6 2 0,1\n";
    let expected = floe.output(&["write", "-"], text.as_bytes())?;
    let words = [
        "write",
        "--catalogue",
        &parts,
        "--parts",
        "00417,FLASH8M",
        "--tasks",
        &sheet,
    ];
    same(floe.output(&words, b"")?, expected, || "tasks".to_string())?;
    floe.prints(&["export", "tasks", "-"], text, "4,1,1\r\n6,2,3\r\n")?;
    let mut runs = 3;
    let table: [(&[u8], &str); 7] = [
        (b"4,1\r\n", "floe: line 1 of TASKS: 2 fields, and 3 are wanted (period, running time, device set)\n"),
        (b"4,1,0\r\n4,1.5,0\r\n", "floe: line 2 of TASKS, column 2 (running time): '1.5' is not a whole number (round it, or choose a smaller unit): digits alone are wanted, at most 65535\n"),
        (b"period,run,set\r\n", "floe: line 1 of TASKS, column 1 (period): 'period' is not a number: this looks like a header, and a sheet has none: take the line out\n"),
        (b"4,\"1,0\r\n", "floe: line 1 of TASKS, column 2 (running time): '\\\"1,0' has a quote that is still open at the end of the line: close it\n"),
        (b"4,5,0\r\n", "refused 8: task 0 (line 1 of TASKS): running time 5 > period 4\n"),
        (b"4,1,0\r\n4,1,4\r\n", "refused 9: task 1 (line 2 of TASKS): names device 2, and the request has 2 devices\n"),
        (b"", "floe: TASKS is empty: a sheet of tasks has a line for each\n"),
    ];
    for (content, expected) in table {
        let sheet = file(folder, "tasks.csv", content)?;
        let words = [
            "plan",
            "--catalogue",
            &parts,
            "--parts",
            "00417,FLASH8M",
            "--tasks",
            &sheet,
        ];
        let (status, said) = floe.failed(&words, b"")?;
        let said = said.replace(&sheet, "TASKS");
        same((status, said), (1, expected.to_string()), || {
            "tasks".to_string()
        })?;
        runs += 1;
    }
    Ok(runs)
}

/// Wanted parts from a file, a part a line.
fn lists(floe: &Floe, folder: &Path) -> Tried {
    let parts = file(folder, "parts.csv", CATALOGUE.as_bytes())?;
    let jobs = file(folder, "jobs.csv", b"0,8,3,1\r\n")?;
    let words = ["build", &parts, &jobs, "00417", "FLASH8M", "--horizon", "9"];
    let expected = floe.output(&words, b"")?;
    let mut runs = 1;
    for list in [
        "00417\nFLASH8M\n",
        "\u{FEFF}\"00417\"\r\n\r\n\"FLASH8M\"\r\n\r\n",
        "00417\r\nFLASH8M",
    ] {
        let list = file(folder, "wanted.csv", list.as_bytes())?;
        let words = [
            "build",
            &parts,
            &jobs,
            "--parts-from",
            &list,
            "--horizon",
            "9",
        ];
        same(floe.output(&words, b"")?, expected.clone(), || {
            "a list".to_string()
        })?;
        let words = [
            "write",
            "--catalogue",
            &parts,
            "--jobs",
            &jobs,
            "--parts-from",
            &list,
            "--horizon",
            "9",
        ];
        same(floe.output(&words, b"")?, expected.clone(), || {
            "a list".to_string()
        })?;
        runs += 2;
    }
    for (list, expected) in [
        ("00417,FLASH8M\n", "floe: line 1 of LIST: '00417,FLASH8M' is more than a part number: a part a line is wanted\n"),
        ("\n\r\n", "floe: LIST is empty: a list of wanted parts has a part a line\n"),
        ("417\n0417\n", "refused 23: part '0417': PARTS lacks it; it has 00417 (line 1 of PARTS), which has another number of zeros in front; and 417 (line 2 of PARTS), which has another number of zeros in front\n"),
    ] {
        let list = file(folder, "wanted.csv", list.as_bytes())?;
        let words = ["build", &parts, &jobs, "--parts-from", &list, "--horizon", "9"];
        let (_, said) = floe.failed(&words, b"")?;
        let said = said.replace(&list, "LIST").replace(&parts, "PARTS");
        same(said, expected.to_string(), || "a list".to_string())?;
        runs += 1;
    }
    Ok(runs)
}

const FILES: [Content; 6] = [
    ("PARTS", CATALOGUE),
    ("JOBS", "0,8,3,1\r\n"),
    ("TEXT", "horizon 9\njob 0 8 3 0\n"),
    ("TASKS", "4,1,0\r\n"),
    ("EMPTY", ""),
    ("TWO", "00417,FLASH8M\n"),
];

const NO_TICKS: &str =
    "refused 10: how many ticks has the round? A sheet of jobs does not say it: add --horizon N";
const TWICE: &str = "..- is standard input, and is given twice: it can be read once, so that one of the two has to be a file..";

/// What is forgotten or given twice is named.
const WRONG: [Call; 18] = [
    ("plan --catalogue PARTS --parts 417 --jobs JOBS", "", 1, NO_TICKS),
    ("build PARTS JOBS 417", "", 1, NO_TICKS),
    (
        "plan --catalogue PARTS --parts 417 --jobs JOBS --horizon 5000",
        "",
        1,
        "refused 10: horizon 5000 is outside 1 to 4096",
    ),
    (
        "plan --catalogue PARTS --jobs JOBS",
        "",
        2,
        "..which parts of the catalogue? --parts A,B,.. or --parts-from FILE is missing..",
    ),
    ("plan --parts 417 --jobs JOBS", "", 2, "..parts of what? --catalogue FILE is missing.."),
    ("plan --catalogue PARTS --parts 417", "", 2, "..--jobs FILE or --tasks FILE is missing.."),
    (
        "plan --catalogue PARTS --parts 417 --parts-from JOBS --jobs JOBS",
        "",
        2,
        "..--parts and --parts-from are given: one of them is enough..",
    ),
    (
        "build PARTS JOBS 417 --parts-from JOBS --horizon 9",
        "",
        2,
        "..parts are given, and --parts-from too: one of them is enough..",
    ),
    (
        "plan --catalogue PARTS --parts 417 --jobs TEXT --horizon 9",
        "",
        2,
        "..--horizon goes with a sheet of jobs: a text has a line for it..",
    ),
    ("build - - 417", "", 2, TWICE),
    ("plan --catalogue - --parts-from - --jobs JOBS --horizon 9", "", 2, TWICE),
    ("plan TEXT --horizon 9", "", 2, "..--jobs FILE or --tasks FILE is missing.."),
    (
        "plan --catalogue PARTS --parts 417 FLASH8M --jobs JOBS --horizon 9",
        "",
        2,
        "..'FLASH8M' is a word too many: all parts stand behind --parts in one word, with commas between..",
    ),
    (
        "plan --catalogue PARTS --parts 417,_FLASH8M --jobs JOBS --horizon 9",
        "",
        1,
        "refused 23: part ' FLASH8M': PARTS lacks it; it has FLASH8M (line 3 of PARTS), which has no blank before or after it",
    ),
    (
        "plan --catalog PARTS",
        "",
        2,
        "..there is no option '--catalog' here; there is --catalogue..",
    ),
    (
        "plan --jobs JOBS --tasks JOBS",
        "",
        1,
        "floe: line 1 of JOBS: 4 fields, and 3 are wanted (period, running time, device set): a comma inside a number parts it in two",
    ),
    (
        "plan --jobs JOBS --tasks TASKS --horizon 9",
        "",
        1,
        "refused 11: tasks and a horizon, 9: the periods of the tasks say how long the round is, and which jobs there are",
    ),
    (
        "plan JOBS",
        "",
        1,
        "floe: JOBS: line 1, column 1: a line begins with kind, horizon, unit, device, task or job, not with '0,8,3,1'; a sheet is given by --jobs, --tasks or --catalogue",
    ),
];

/// Nothing at all is told as such, and is never a request without jobs.
const NOTHING: [Call; 8] = [
    ("plan -", "", 1, "refused 1: standard input is empty (if a command stands before the pipe, what it says is the reason)"),
    ("draw -", "", 1, "refused 1: standard input is empty (if a command stands before the pipe, what it says is the reason)"),
    ("plan EMPTY", "", 1, "refused 1: EMPTY is empty"),
    (
        "build PARTS EMPTY 417 --horizon 9",
        "",
        1,
        "floe: EMPTY is empty: a sheet of jobs has a line for each",
    ),
    (
        "build EMPTY JOBS 417 --horizon 9",
        "",
        1,
        "floe: EMPTY is empty: a catalogue of parts has a line for each",
    ),
    (
        "plan --catalogue PARTS --parts 417 --jobs - --horizon 9",
        "\r\n",
        1,
        "floe: standard input is empty (if a command stands before the pipe, what it says is the reason): a sheet of jobs has a line for each",
    ),
    (
        "export catalogue -",
        "",
        1,
        "floe: standard input is empty (if a command stands before the pipe, what it says is the reason): a catalogue of parts has a line for each",
    ),
    (
        "build PARTS JOBS --parts-from EMPTY --horizon 9",
        "",
        1,
        "floe: EMPTY is empty: a list of wanted parts has a part a line",
    ),
];

/// In a pipe the last line names the first, and the first has said why.
fn piped(floe: &Floe, folder: &Path) -> Tried {
    let nothing = file(folder, "empty", b"")?;
    let mut shell = floe.called_by(Path::new("/bin/sh"));
    let program = floe.program().display();
    let line = format!("'{program}' write {nothing} | '{program}' plan -");
    shell.args(["-c", &line]);
    let printed = run(&mut shell, &Feed::whole(b""))?;
    let said = String::from_utf8_lossy(&printed.errors).replace(&nothing, "EMPTY");
    let expected = format!("{}\n{}\n", NOTHING[2].3, NOTHING[0].3);
    same(said, expected, || "a pipe".to_string())?;
    Ok(1)
}
