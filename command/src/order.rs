//! A request that is made of parts: a catalogue, the parts that are wanted of it, and the other
//! sections as a text or as sheets. The library builds the file, or refuses to; then the words name the
//! part, the line and the file that brought it.

use crate::calls::planner;
use crate::failure::Failure;
use crate::names::{called, Names};
use crate::place::{File, Part};
use crate::refusal;
use crate::request::Request;
use crate::tables::{Tables, MOST_DEVICES};
use crate::text::catalogue::Catalogue;
use crate::text::lines::quoted;
use crate::text::part::{difference, padded, NUMBER};
use crate::text::reader::Text;

pub struct Order {
    pub catalogue: Catalogue,
    pub wanted: Vec<String>,
    /// The horizon, the tasks and the jobs; there are no devices.
    pub others: Text,
    pub files: Files,
    /// That nothing has said how many ticks the round has.
    pub lacks_horizon: bool,
}

/// How the files are called from which things were read.
#[derive(Default)]
pub struct Files {
    pub catalogue: String,
    pub jobs: String,
    pub tasks: String,
}

impl Order {
    pub fn request(self) -> Result<Request, Failure> {
        let wanted = self.wanted_numbers();
        let parts = self.catalogue.parts.concat();
        match planner::build(&parts, &wanted.concat(), &self.others.tables) {
            Ok(written) => {
                let tables = self.tables(&wanted);
                let mut names = self.others.names;
                names.devices = Names::of_parts(&self.wanted).devices;
                Ok(Request::written(written, tables, names))
            }
            Err(refused) => Err(self.refused(refused.number, &wanted)),
        }
    }

    /// The wanted part numbers as the library takes them. One that is longer than any part of a
    /// catalogue is handed on as eight bytes that no catalogue has either: the library says that it is
    /// lacking.
    fn wanted_numbers(&self) -> Vec<Vec<u8>> {
        let number = |name: &String| padded(name).unwrap_or_else(|| vec![0; NUMBER]);
        self.wanted.iter().map(number).collect()
    }

    fn refused(&self, number: u8, wanted: &[Vec<u8>]) -> Failure {
        match planner::order_fault(&self.catalogue.parts.concat(), &wanted.concat()) {
            Some((23, part)) => self.lacking(part),
            Some((number, part)) => self.catalogue.refused(number, part, &self.files.catalogue),
            None => self.of_the_file(number, wanted),
        }
    }

    /// A wanted part that is not there, and those that are nearly the same. None of them is taken for
    /// it: 00417 and 417 are different parts.
    fn lacking(&self, part: usize) -> Failure {
        let name = self.wanted.get(part).map_or("", String::as_str);
        let parts = (0..self.catalogue.parts.len())
            .map(|part| self.catalogue.part(part, &self.files.catalogue));
        let near = parts.filter_map(|(other, place)| {
            let how = difference(name, &other)?;
            Some(format!("{other} ({place}), {how}"))
        });
        let near: Vec<String> = near.take(3).collect();
        let lacks = format!("{} lacks it", self.catalogue_name());
        let words = match near.is_empty() {
            true => lacks,
            false => format!("{lacks}; it has {}", near.join("; and ")),
        };
        refusal::said(23, format!("part {}", quoted(name)), words)
    }

    fn catalogue_name(&self) -> &str {
        match &self.files.catalogue[..] {
            "" => "the catalogue",
            name => name,
        }
    }

    /// The tables of the file that the parts make: its devices are the wanted parts, as far as there
    /// are records of them.
    fn tables(&self, wanted: &[Vec<u8>]) -> Tables {
        let mut tables = self.others.tables.clone();
        for name in wanted {
            let mut parts = self.catalogue.parts.iter();
            let part = parts.find(|part| part.starts_with(name));
            let record = part.map_or(&[][..], |part| &part[NUMBER..]);
            tables.devices.add(record.to_vec(), MOST_DEVICES);
        }
        tables
    }

    /// A refusal of that file.
    fn of_the_file(&self, number: u8, wanted: &[Vec<u8>]) -> Failure {
        let tables = self.tables(wanted);
        let bytes = tables.laid_out();
        let file = File::of_tables(&tables, &bytes);
        if number == 10 && self.lacks_horizon {
            let words =
                "how many ticks has the round? A sheet of jobs does not say it: add --horizon N";
            return refusal::words(number, words.to_string());
        }
        match refusal::placed(number, &file) {
            None => refusal::plain(number),
            Some((_, words)) if number == 11 => {
                let hint =
                    "the periods of the tasks say how long the round is, and which jobs there are";
                refusal::words(number, format!("{words}: {hint}"))
            }
            Some((place, words)) => match self.place(number, place.part, wanted) {
                Some(place) => refusal::said(number, place, words),
                None => refusal::words(number, words),
            },
        }
    }

    /// Where a part of the file was read. There is no file whose bytes could be told.
    fn place(&self, number: u8, part: Part, wanted: &[Vec<u8>]) -> Option<String> {
        let Order { others, files, .. } = self;
        let places = &others.places;
        let at = |lines: &[usize], number: usize, file: &str| {
            let line = lines.get(number)?;
            Some(format!("line {line} of {file}"))
        };
        match part {
            Part::Device(number) => {
                let wanted = wanted.get(number)?;
                let mut parts = self.catalogue.parts.iter();
                let part = parts.position(|part| part.starts_with(wanted))?;
                let (name, place) = self.catalogue.part(part, &self.files.catalogue);
                Some(format!("part {} ({place})", quoted(&name)))
            }
            Part::Task(number) => {
                let place = at(&places.tasks, number, &files.tasks)?;
                let name = called("task", number, others.names.task(number));
                Some(format!("{name} ({place})"))
            }
            Part::Job(number) => {
                let place = at(&places.jobs, number, &files.jobs)?;
                let name = called("job", number, others.names.job(number));
                Some(format!("{name} ({place})"))
            }
            Part::JobCount if number == 12 => {
                at(&places.jobs, places.jobs.len().checked_sub(1)?, &files.jobs)
            }
            Part::TaskCount => at(
                &places.tasks,
                places.tasks.len().checked_sub(1)?,
                &files.tasks,
            ),
            _ => None,
        }
    }
}
