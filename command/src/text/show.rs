//! From tables to text.

use super::sets;
use crate::kinds::{value, Field, FIRST, JOB, TASK};
use crate::names::Names;
use crate::tables::Tables;
use crate::units::Units;
use std::fmt::Write;

/// The text of tables whose round has so many ticks. Read again it gives the same tables and names.
pub fn show(tables: &Tables, names: &Names, horizon: usize) -> String {
    let mut text = String::new();
    if tables.kind.number != FIRST.number {
        let _ = writeln!(text, "kind {}", tables.kind.number);
    }
    let _ = if tables.tasks.count > 0 {
        writeln!(text, "# The round of these tasks has {horizon} ticks.")
    } else {
        writeln!(text, "horizon {}", tables.horizon)
    };
    units(&mut text, &names.units);
    let figures = |record: &Vec<u8>| {
        let figures = tables.kind.figures(record).into_iter();
        figures
            .map(|(name, number)| (name, number.to_string()))
            .collect()
    };
    let devices = tables.devices.records.iter().map(figures).collect();
    section(&mut text, "device", devices, &names.devices);
    let with_set = |fields| move |record: &Vec<u8>| with_set(fields, record, &names.devices);
    let tasks = tables.tasks.records.iter().map(with_set(&TASK)).collect();
    section(&mut text, "task", tasks, &names.tasks);
    let jobs = tables.jobs.records.iter().map(with_set(&JOB)).collect();
    section(&mut text, "job", jobs, &names.jobs);
    text
}

fn units(text: &mut String, units: &Units) {
    if let Some(power) = &units.power {
        let _ = writeln!(text, "unit power {power}");
    }
    if let Some(tick) = units.tick() {
        let _ = writeln!(text, "unit tick {tick}");
    }
}

/// The words of a line with their names.
type Words = Vec<(&'static str, String)>;

/// The lines of a section, and above them what the words of the longest are.
fn section(text: &mut String, word: &str, lines: Vec<Words>, names: &[Option<String>]) {
    if let Some(longest) = lines.iter().max_by_key(|line| line.len()) {
        let fields: Vec<&str> = longest.iter().map(|(name, _)| *name).collect();
        let _ = writeln!(text, "\n# {word}: {}", fields.join(", "));
    }
    for (number, line) in lines.into_iter().enumerate() {
        let words: Vec<String> = line.into_iter().map(|(_, word)| word).collect();
        let name = names.get(number).and_then(Option::as_ref);
        let name = name.map_or(String::new(), |name| format!(" name {name}"));
        let _ = writeln!(text, "{word} {}{name}", words.join(" "));
    }
}

/// The words of a record whose last field is a device set.
fn with_set(fields: &'static [Field], record: &[u8], devices: &[Option<String>]) -> Words {
    let numbers = fields.iter().enumerate();
    numbers
        .map(|(place, field)| {
            let number = value(fields, record, place);
            let is_set = place + 1 == fields.len();
            let word = if is_set {
                sets::shown(number, devices)
            } else {
                number.to_string()
            };
            (field.name, word)
        })
        .collect()
}
