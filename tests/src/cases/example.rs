//! The example files: requests as text, whose comment lines say what the program prints.

use crate::cases::second::{Second, Shut};
use crate::cases::tables::{job, task, DeviceRecord, Tables};
use crate::cases::third::{Levels, Third};
use crate::oracle::request::FileKind;
use std::fs;
use std::path::{Path, PathBuf};

pub struct Example {
    pub name: String,
    pub file: Vec<u8>,
    /// The text after `#> `, line by line.
    pub expected: String,
}

/// The folder of the examples, beside the tests.
pub fn folder() -> PathBuf {
    Path::new(env!("CARGO_MANIFEST_DIR")).join("../examples")
}

/// All examples that say what the program prints, by name.
pub fn all(folder: &Path) -> Result<Vec<Example>, String> {
    let said = |what: std::io::Error| format!("{}: {what}", folder.display());
    let mut examples = Vec::new();
    for entry in fs::read_dir(folder).map_err(said)? {
        let path = entry.map_err(said)?.path();
        if path.extension().is_some_and(|extension| extension == "txt") {
            let text = fs::read_to_string(&path).map_err(said)?;
            if text.contains("\n#> ") {
                let name = path.file_stem().unwrap_or_default().to_string_lossy();
                examples.push(parse(&name, &text)?);
            }
        }
    }
    examples.sort_by(|one, other| one.name.cmp(&other.name));
    Ok(examples)
}

fn parse(name: &str, text: &str) -> Result<Example, String> {
    let mut request = Request::default();
    let mut expected = String::new();
    for line in text.lines() {
        if let Some(printed) = line.strip_prefix("#> ") {
            expected += printed;
            expected.push('\n');
        }
        let words: Vec<&str> = line
            .split('#')
            .next()
            .into_iter()
            .flat_map(str::split_whitespace)
            .collect();
        add(&mut request, &words).ok_or(format!("{name}: not a line of a request: {line}"))?;
    }
    Ok(Example {
        name: name.to_string(),
        file: request.bytes(),
        expected,
    })
}

/// What the lines say so far. Shutting down is told apart in the second kind alone, levels in the third.
#[derive(Default)]
struct Request {
    kind: FileKind,
    tables: Tables,
    shuts: Vec<Shut>,
    levels: Vec<Levels>,
}

impl Request {
    fn bytes(self) -> Vec<u8> {
        let Request {
            kind,
            tables,
            shuts,
            levels,
        } = self;
        match kind {
            FileKind::First => tables.bytes(),
            FileKind::Second => Second { tables, shuts }.bytes(),
            FileKind::Third => Third { tables, levels }.bytes(),
        }
    }
}

/// One line more of a request, if it is one. A number that does not fit its field is none.
fn add(request: &mut Request, words: &[&str]) -> Option<()> {
    let number = |word: &str| word.parse::<u16>().ok();
    let byte = |word: &str| word.parse::<u8>().ok();
    let Request {
        kind,
        tables,
        shuts,
        levels,
    } = request;
    match *words {
        [] => {}
        ["kind", "2"] if tables.devices.is_empty() => *kind = FileKind::Second,
        ["kind", "3"] if tables.devices.is_empty() => *kind = FileKind::Third,
        ["horizon", ticks] => tables.horizon = number(ticks)?,
        ["device", transition, working, sleeping, moving] if *kind == FileKind::First => {
            tables.devices.push(DeviceRecord {
                transition: byte(transition)?,
                working: number(working)?,
                sleeping: number(sleeping)?,
                moving: number(moving)?,
            })
        }
        ["device", wake, shut, working, sleeping, waking, shutting]
            if *kind == FileKind::Second =>
        {
            tables.devices.push(DeviceRecord {
                transition: byte(wake)?,
                working: number(working)?,
                sleeping: number(sleeping)?,
                moving: number(waking)?,
            });
            shuts.push((byte(shut)?, number(shutting)?));
        }
        ["device", transition, working, moving, count, ref powers @ ..]
            if *kind == FileKind::Third =>
        {
            let powers: Option<Vec<u16>> = powers.iter().copied().map(number).collect();
            let (count, powers) = (byte(count)?, powers?);
            if powers.len() != usize::from(count) {
                return None;
            }
            tables.devices.push(DeviceRecord {
                transition: byte(transition)?,
                working: number(working)?,
                sleeping: 0,
                moving: number(moving)?,
            });
            levels.push(Levels { count, powers });
        }
        ["task", period, running, devices] => {
            let devices = set(devices)?;
            tables
                .tasks
                .push(task(number(period)?, number(running)?, devices));
        }
        ["job", release, deadline, running, devices] => {
            let devices = set(devices)?;
            let [release, deadline, running] = [release, deadline, running].map(number);
            tables
                .jobs
                .push(job(release?, deadline?, running?, devices));
        }
        _ => return None,
    }
    Some(())
}

fn set(word: &str) -> Option<u8> {
    if word == "-" {
        return Some(0);
    }
    let bit = |device: &str| 1u8.checked_shl(device.parse().ok()?);
    word.split(',')
        .try_fold(0, |set, device| Some(set | bit(device)?))
}

#[cfg(test)]
mod tests {
    use super::*;
    use crate::oracle::expect::{search, text, BUDGET};

    /// Keeps the examples from going stale, and the folder from being emptied unnoticed.
    #[test]
    fn each_example_prints_what_it_says() {
        let examples = all(&folder()).unwrap();
        let names: Vec<&str> = examples.iter().map(|each| each.name.as_str()).collect();
        let wanted = [
            "budget", "h4", "j10", "none", "p3", "p9", "table2", "table3",
        ];
        assert_eq!(names, wanted);
        for example in &examples {
            let printed = text(&search(&example.file, BUDGET));
            assert_eq!(printed, example.expected, "{}", example.name);
        }
    }

    #[test]
    fn what_is_no_line_of_a_request_is_said() {
        for line in [
            "horizon",
            "horizon 65536",
            "device 256 5 1 3",
            "job 0 5 2 8",
            "device 1 3 9 1 4 2",
            "kind 2\ndevice 1 5 1 3",
            "device 1 5 1 3\nkind 2",
            "kind 3\ndevice 1 10 4 2 3",
            "kind 3\ndevice 1 10 4 1 3 1",
        ] {
            assert!(parse("wrong", line).is_err(), "{line}");
        }
        let file = parse("right", "horizon 5 # ticks\njob 0 5 2 -")
            .unwrap()
            .file;
        assert_eq!(file, [0, 5, 0, 0, 1, 0, 0, 0, 5, 0, 2, 0]);
        let file = parse("second", "kind 2\nhorizon 5\ndevice 1 3 9 1 4 2")
            .unwrap()
            .file;
        let device = [1, 3, 0, 9, 0, 1, 0, 4, 0, 2];
        assert_eq!(file, [&[0xFF, 2, 0, 5, 1][..], &device, &[0, 0]].concat());
        let file = parse("third", "kind 3\nhorizon 5\ndevice 1 10 4 2 3 1")
            .unwrap()
            .file;
        let device = [1, 0, 10, 0, 4, 2, 0, 3, 0, 1];
        assert_eq!(file, [&[0xFF, 3, 0, 5, 1][..], &device, &[0, 0]].concat());
    }
}
