//! build, held to the oracle's own look-up in the catalogue.

use crate::floe::{same, Floe, Tried};
use outside::cases::random::Random;
use outside::oracle::catalogue::{built, draw, Call};
use outside::oracle::writing::{Given, Table};
use std::fmt::Write;
use std::fs;
use std::path::Path;

const SEED: u64 = 23;
const CALLS: u64 = 1_200;

pub fn test(floe: &Floe) -> Tried {
    let folder = std::env::temp_dir().join(format!("floe-parts-{}", std::process::id()));
    fs::create_dir_all(&folder).map_err(|fault| fault.to_string())?;
    let tried = in_folder(floe, &folder);
    let _ = fs::remove_dir_all(&folder);
    tried
}

fn in_folder(floe: &Floe, folder: &Path) -> Tried {
    let [catalogue, others] = ["catalogue", "others"].map(|name| folder.join(name));
    let (mut runs, mut met) = (0, [0; 24]);
    for number in 0..CALLS {
        let call = draw(&mut Random::new(SEED, number));
        let Some((parts, wanted, given)) = as_text(&call) else {
            continue;
        };
        for (path, text) in [(&catalogue, &parts), (&others, &given)] {
            fs::write(path, text).map_err(|fault| fault.to_string())?;
        }
        let [catalogue, others] = [&catalogue, &others].map(|path| path.to_string_lossy());
        let mut words = vec!["build", &catalogue, &others];
        words.extend(wanted.iter().map(String::as_str));
        let answer = floe.answer(&words, b"")?;
        let expected = built(&call).map(|(_, file)| file);
        let refusal = expected.as_ref().err().copied().unwrap_or(0);
        met[usize::from(refusal)] += 1;
        let named = || format!("call {number}: {parts}{given}wanted {wanted:?}");
        same(answer.map_err(|(number, _)| number), expected, named)?;
        runs += 1;
    }
    let missed: Vec<usize> = [0, 21, 22, 23]
        .into_iter()
        .filter(|&number| met[number] < 10)
        .collect();
    if !missed.is_empty() {
        return Err(format!("hardly met: {missed:?} of {met:?}"));
    }
    Ok(runs + places(floe, &catalogue, &others)?)
}

/// The part at fault is told, and what has no place in a text is said with line and column.
fn places(floe: &Floe, catalogue: &Path, others: &Path) -> Tried {
    let good = "part 00417 1 5 1 3\npart 417 2 9 2 4\n";
    let request = "horizon 5\njob 0 5 2 0\n";
    let table: [(&str, &str, &[&str], &str); 10] = [
        (good, request, &["418"], "refused 23: part '418': "),
        (good, request, &["417", "0417"], "refused 23: part '0417': "),
        (
            good,
            request,
            &["123456789"],
            "refused 23: part '123456789': ",
        ),
        (
            "\npart b 1 5 1 3\n",
            request,
            &["B"],
            "refused 21: line 2 of ",
        ),
        (
            "part A 1 5 1 3\npart B 1 5 1 3\npart A 1 5 1 3",
            request,
            &["B"],
            "refused 22: line 3 of ",
        ),
        (
            "part A 0 5 1 3\n",
            request,
            &["A"],
            "refused 4: part 'A' (line 1 of ",
        ),
        (
            good,
            "horizon 5\njob 0 5 6 0\n",
            &["417"],
            "refused 13: job 0 (line 2 of ",
        ),
        (
            "part ABCDEFGHI 1 5 1 3\n",
            request,
            &["A"],
            ": line 1, column 6: ",
        ),
        (
            good,
            "horizon 5\ndevice 1 5 1 3\n",
            &["417"],
            ": line 2, column 1: ",
        ),
        (
            good,
            "\nkind 2\nhorizon 5\njob 0 5 2 0\n",
            &["417"],
            ": line 2, column 1: kind 2, and the parts of a catalogue are of kind 1",
        ),
    ];
    let mut runs = 0;
    for (parts, given, wanted, words) in table {
        for (path, text) in [(catalogue, parts), (others, given)] {
            fs::write(path, text).map_err(|fault| fault.to_string())?;
        }
        let [catalogue, others] = [catalogue, others].map(|path| path.to_string_lossy());
        let mut arguments = vec!["build", &catalogue, &others];
        arguments.extend(wanted);
        let printed = floe.run(&arguments, b"")?;
        let errors = String::from_utf8_lossy(&printed.errors);
        let is_said = errors.contains(words) && printed.output.is_empty();
        same((printed.status, is_said), (Some(1), true), || {
            printed.report()
        })?;
        runs += 1;
    }
    Ok(runs)
}

/// The call as texts, if there is a text for it: a part number is a word.
fn as_text(call: &Call) -> Option<(String, Vec<String>, String)> {
    let mut text = String::new();
    for (number, [t, working, sleeping, moving]) in parts(call)? {
        let _ = writeln!(text, "part {number} {t} {working} {sleeping} {moving}");
    }
    let wanted = wanted(call)?;
    // What is empty is no catalogue.
    (!text.is_empty()).then_some(())?;
    let others = others(&call.others, &wanted)?;
    Some((text, wanted, others))
}

/// The parts of a call by number and figures, if every number is a word.
pub fn parts(call: &Call) -> Option<Vec<(String, [u16; 4])>> {
    let part = |part: &[u8]| {
        let (number, record) = part.split_at_checked(8)?;
        let number = std::str::from_utf8(number).ok()?.trim_end_matches(' ');
        let is_word = !number.is_empty()
            && number
                .chars()
                .all(|char| !char.is_whitespace() && !char.is_control() && char != '#');
        is_word.then_some(())?;
        let [t, w1, w0, s1, s0, m1, m0] = *record else {
            return None;
        };
        let [working, sleeping, moving] = [[w1, w0], [s1, s0], [m1, m0]].map(u16::from_be_bytes);
        Some((number.to_string(), [t.into(), working, sleeping, moving]))
    };
    call.catalogue.chunks(15).map(part).collect()
}

/// The wanted parts of a call, if they can be arguments.
pub fn wanted(call: &Call) -> Option<Vec<String>> {
    let name = |number: &[u8]| {
        let text = std::str::from_utf8(number).ok()?.trim_end_matches(' ');
        let is_argument = number.len() == 8 && !text.contains('\0') && !text.starts_with('-');
        is_argument.then(|| text.to_string())
    };
    call.wanted.chunks(8).map(name).collect()
}

/// The number of a device as a word that is no wanted part: else it would be both.
fn number(device: u8, wanted: &[String]) -> String {
    let mut words = (1..).map(|width| format!("{device:0width$}"));
    let is_free = |word: &String| !wanted.contains(word);
    words.find(is_free).unwrap_or_default()
}

fn others(given: &Given, wanted: &[String]) -> Option<String> {
    let mut text = format!("horizon {}\n", given.horizon);
    let whole = |table: &Table| usize::from(table.count) == table.records.len();
    given.tables.iter().all(whole).then_some(())?;
    for (word, table) in [("task", &given.tables[1]), ("job", &given.tables[2])] {
        for record in &table.records {
            let (set, numbers) = record.split_last()?;
            let numbers = numbers
                .chunks_exact(2)
                .map(|pair| u16::from_be_bytes([pair[0], pair[1]]).to_string());
            let devices: Vec<String> = (0..8)
                .filter(|device| set >> device & 1 == 1)
                .map(|device: u8| number(device, wanted))
                .collect();
            let set = if devices.is_empty() {
                "-".to_string()
            } else {
                devices.join(",")
            };
            let words: Vec<String> = numbers.chain([set]).collect();
            let _ = writeln!(text, "{word} {}", words.join(" "));
        }
    }
    Some(text)
}
