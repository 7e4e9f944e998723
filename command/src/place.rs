//! Where a file is at fault, as the library says it, and in words.

use crate::calls::planner;
use crate::kinds::Kind;
use crate::names::Names;
use crate::tables::Tables;
use crate::text::reader::Places;

#[derive(Clone, Copy, Debug, PartialEq, Eq)]
pub enum Part {
    Horizon,
    DeviceCount,
    Device(usize),
    TaskCount,
    Task(usize),
    JobCount,
    Job(usize),
    /// What follows the last section.
    Tail,
}

/// A part of a file: its bytes from the first up to, not including, the second. Counted from 0.
#[derive(Clone, Copy, Debug, PartialEq, Eq)]
pub struct Place {
    pub part: Part,
    pub from: usize,
    pub to: usize,
}

/// The bytes of a file, the kind that they are laid out in, and the tables that they come from, where they were not given as a file.
#[derive(Clone, Copy, Debug)]
pub struct File<'a> {
    pub kind: &'static Kind,
    pub bytes: &'a [u8],
    tables: Option<&'a Tables>,
}

impl<'a> File<'a> {
    /// Bytes that were given as a file, whose mark tells the kind.
    pub fn new(bytes: &'a [u8]) -> File<'a> {
        let kind = Kind::of_file(bytes);
        let tables = None;
        File {
            kind,
            bytes,
            tables,
        }
    }

    /// The bytes that tables are laid out as.
    pub fn of_tables(tables: &'a Tables, bytes: &'a [u8]) -> File<'a> {
        File {
            kind: tables.kind,
            bytes,
            tables: Some(tables),
        }
    }

    /// The bytes of a place, as far as they are there.
    pub fn record(&self, place: &Place) -> Option<&'a [u8]> {
        self.bytes.get(place.from..place.to.min(self.bytes.len()))
    }

    /// What follows the mark, from a byte on, as far as it is there.
    fn rest(&self, from: usize) -> &'a [u8] {
        let from = self.kind.marker.len() + from;
        self.bytes.get(from..).unwrap_or(&[])
    }

    /// The horizon field, and how many devices and tasks the file says that it has.
    pub fn horizon(&self) -> u32 {
        let field = self.rest(0).iter().take(2);
        field.fold(0, |number, &byte| number << 8 | u32::from(byte))
    }

    pub fn device_count(&self) -> u32 {
        self.rest(2).first().map_or(0, |&count| u32::from(count))
    }

    pub fn task_count(&self) -> u32 {
        let size = |from: usize| self.kind.device_size(self.rest(from));
        let devices = 0..self.device_count();
        let at = devices.fold(3, |from, _| from + size(from));
        self.rest(at).first().map_or(0, |&count| u32::from(count))
    }

    /// The place of the first fault, if the file is refused with this number.
    pub fn fault(&self, number: u8) -> Option<Place> {
        let fault = match self.tables {
            Some(tables) => planner::fault_in_tables(tables),
            None => planner::fault(self.bytes),
        };
        let (_, place) = fault.filter(|(said, _)| *said == number)?;
        Some(place)
    }
}

impl Place {
    fn name(&self) -> String {
        match self.part {
            Part::Horizon => "horizon".to_string(),
            Part::DeviceCount => "device count".to_string(),
            Part::Device(number) => format!("device {number}"),
            Part::TaskCount => "task count".to_string(),
            Part::Task(number) => format!("task {number}"),
            Part::JobCount => "job count".to_string(),
            Part::Job(number) => format!("job {number}"),
            Part::Tail => "end".to_string(),
        }
    }

    /// The line that brought the fault, where the file came as text. A count is at fault by the
    /// first record too many; once the jobs are counted the horizon is judged too (rule 15).
    fn line(&self, number: u8, file: &File, places: &Places) -> Option<usize> {
        let line = match self.part {
            Part::Horizon => places.horizon.as_ref(),
            Part::DeviceCount => places.devices.last(),
            Part::Device(number) => places.devices.get(number),
            Part::TaskCount => places.tasks.last(),
            Part::Task(number) => places.tasks.get(number),
            Part::JobCount => match number {
                10 => places.horizon.as_ref(),
                11 if file.horizon() == 0 => places.jobs.first(),
                11 => places.horizon.as_ref(),
                _ => places.jobs.last(),
            },
            Part::Job(number) => places.jobs.get(number),
            Part::Tail => None,
        };
        line.copied()
    }

    /// What is called so in the part, where something is.
    fn called<'a>(&self, names: &'a Names) -> Option<&'a str> {
        match self.part {
            Part::Device(number) => names.device(number),
            Part::Task(number) => names.task(number),
            Part::Job(number) => names.job(number),
            _ => None,
        }
    }

    /// As `job 4 (bytes 31 to 37)`, with the line in front where there is one.
    pub fn describe(
        &self,
        number: u8,
        file: &File,
        places: Option<&Places>,
        names: &Names,
    ) -> String {
        let line = places.and_then(|places| self.line(number, file, places));
        let line = line.map_or(String::new(), |line| format!("line {line}, "));
        let bytes = if self.to == self.from + 1 {
            format!("byte {}", self.from)
        } else {
            format!("bytes {} to {}", self.from, self.to - 1)
        };
        let called = self
            .called(names)
            .map_or(String::new(), |name| format!(" {name}"));
        format!("{}{called} ({line}{bytes})", self.name())
    }
}
