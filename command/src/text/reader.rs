//! From text to tables, and to the names that tables have no place for.

use super::lines::{lines, number, quoted, Fault, Line};
use super::naming;
use super::sets::device_set;
use crate::kinds::{Field, Kind, JOB, TASK};
use crate::names::Names;
use crate::tables::{Table, Tables, MOST_DEVICES, MOST_JOBS, MOST_TASKS};

/// Where the records stand: the line of each, up to one more than a request can have.
#[derive(Clone, Debug, Default)]
pub struct Places {
    pub kind: Option<usize>,
    pub horizon: Option<usize>,
    pub devices: Vec<usize>,
    pub tasks: Vec<usize>,
    pub jobs: Vec<usize>,
}

#[derive(Clone, Debug)]
pub struct Text {
    pub tables: Tables,
    pub places: Places,
    pub names: Names,
}

const HORIZON: Field = Field {
    name: "ticks",
    bytes: 2,
};

/// The words with which a line begins.
pub const WORDS: [&str; 6] = ["kind", "horizon", "unit", "device", "task", "job"];

pub fn read(text: &[u8]) -> Result<Text, Fault> {
    read_with(text, &naming::devices(text))
}

/// The same of a text whose devices have these names: a device set may say them before they are given,
/// or they come from elsewhere.
pub fn read_with(text: &[u8], devices: &[Option<String>]) -> Result<Text, Fault> {
    let mut read = Text {
        tables: Tables::empty(),
        places: Places::default(),
        names: Names::default(),
    };
    let mut is_first = true;
    for line in lines(text) {
        take(&mut read, line?, is_first, devices)?;
        is_first = false;
    }
    Ok(read)
}

fn take(
    read: &mut Text,
    line: Line,
    is_first: bool,
    devices: &[Option<String>],
) -> Result<(), Fault> {
    let Some(word) = line.words.first().copied() else {
        return Ok(());
    };
    let Text {
        tables,
        places,
        names,
    } = read;
    match word.text {
        "kind" => {
            let kind = kind(&line)?;
            if !is_first {
                return Err(word.fault("the kind stands before all other lines".to_string()));
            }
            tables.kind = kind;
            places.kind = Some(line.number);
        }
        "horizon" => {
            let horizon = horizon(&line)?;
            if let Some(first) = places.horizon.replace(line.number) {
                return Err(word.fault(format!("a second horizon: the first is in line {first}")));
            }
            tables.horizon = horizon;
        }
        "unit" => naming::unit(&line, &mut names.units)?,
        "device" | "task" | "job" => {
            let (line, name) = naming::unnamed(line)?;
            let (record, (table, lines, names, most)) = match word.text {
                "device" => (device(&line, tables.kind)?, read.devices()),
                "task" => (with_set(&line, &TASK, devices)?, read.tasks()),
                _ => (with_set(&line, &JOB, devices)?, read.jobs()),
            };
            add(table, lines, line.number, record, most);
            names.push(name);
        }
        other => {
            let message = format!(
                "a line begins with kind, horizon, unit, device, task or job, not with {}",
                quoted(other)
            );
            return Err(word.fault(message));
        }
    }
    Ok(())
}

/// A table with the lines and the names of its records, and how many it holds.
type Section<'a> = (
    &'a mut Table,
    &'a mut Vec<usize>,
    &'a mut Vec<Option<String>>,
    usize,
);

impl Text {
    fn devices(&mut self) -> Section<'_> {
        let (table, lines) = (&mut self.tables.devices, &mut self.places.devices);
        (table, lines, &mut self.names.devices, MOST_DEVICES)
    }

    fn tasks(&mut self) -> Section<'_> {
        let (table, lines) = (&mut self.tables.tasks, &mut self.places.tasks);
        (table, lines, &mut self.names.tasks, MOST_TASKS)
    }

    fn jobs(&mut self) -> Section<'_> {
        let (table, lines) = (&mut self.tables.jobs, &mut self.places.jobs);
        (table, lines, &mut self.names.jobs, MOST_JOBS)
    }
}

fn horizon(line: &Line) -> Result<u16, Fault> {
    let field = numbers(line, std::slice::from_ref(&HORIZON))?.concat();
    let bytes = field.iter();
    Ok(bytes.fold(0, |sum, &byte| sum << 8 | u16::from(byte)))
}

fn add(table: &mut Table, lines: &mut Vec<usize>, line: usize, record: Vec<u8>, most: usize) {
    table.add(record, most);
    if lines.len() <= most {
        lines.push(line);
    }
}

fn kind(line: &Line) -> Result<&'static Kind, Fault> {
    let field = Field {
        name: "kind",
        bytes: 1,
    };
    let words = line.arguments(&[field.name])?;
    let mut kind = None;
    for word in &words {
        let value = number(word, &field)?
            .iter()
            .fold(0, |_, &byte| u32::from(byte));
        let unknown = || word.fault(format!("there is no kind {value} of requests"));
        kind = Some(Kind::by_number(value).ok_or_else(unknown)?);
    }
    Ok(kind.unwrap_or(&crate::kinds::FIRST))
}

fn names(fields: &[Field]) -> Vec<&'static str> {
    fields.iter().map(|field| field.name).collect()
}

/// The bytes of the number in each field.
fn numbers(line: &Line, fields: &[Field]) -> Result<Vec<Vec<u8>>, Fault> {
    let words = line.arguments(&names(fields))?;
    let pairs = words.iter().zip(fields);
    pairs.map(|(word, field)| number(word, field)).collect()
}

/// The record of a device line. Where there are levels, how many powers it has is what it says itself.
fn device(line: &Line, kind: &Kind) -> Result<Vec<u8>, Fault> {
    let fields = kind.device_fields();
    let Some(words) = line.words.get(1..=fields.len()) else {
        return Ok(numbers(line, fields)?.concat());
    };
    let further = match words.last().zip(fields.last()) {
        Some((word, field)) if kind.has_levels => {
            let levels = number(word, field)?.first().copied().unwrap_or(0);
            kind.further_fields(levels.into(), line.words.len() - 1)
        }
        _ => Vec::new(),
    };
    let words = line.arguments(&[names(fields), names(&further)].concat())?;
    let mut device = Vec::new();
    for (word, field) in words.iter().zip(fields.iter().chain(&further)) {
        device.extend(number(word, field)?);
    }
    Ok(kind.device_record(device))
}

/// The record of a line whose last word is a device set.
fn with_set(line: &Line, fields: &[Field], devices: &[Option<String>]) -> Result<Vec<u8>, Fault> {
    let words = line.arguments(&names(fields))?;
    let Some((set, numbers)) = words.split_last() else {
        return Ok(Vec::new());
    };
    let mut bytes = Vec::new();
    for (word, field) in numbers.iter().zip(fields) {
        bytes.extend(number(word, field)?);
    }
    bytes.push(device_set(set, devices)?);
    Ok(bytes)
}
