//! The oracle's own writer: tables to a file, or the number that refuses them, and a file back to
//! its tables. Records cross as their bytes, and so nothing here takes one apart.

use crate::cases::faults;
use crate::cases::random::Random;
use crate::cases::second::{self, apart, Second};
use crate::cases::tables::Tables;
use crate::cases::third::{self, deepened, Third};
use crate::cases::valid;
use crate::oracle::request::{fault_as, read_as, unmarked, Fault, FileKind, Refusal};

/// Of devices, tasks and jobs: how many records tables have at most.
pub const MOST: [usize; 3] = [8, 8, 16];

/// How many bytes the record of a part has that these bytes begin with. In the third kind a device tells
/// its levels in its sixth byte, of which at most four are listed.
fn size(kind: FileKind, part: usize, record: &[u8]) -> usize {
    match (part, kind) {
        (0, FileKind::First) => 7,
        (0, FileKind::Second) => 10,
        (0, FileKind::Third) => 6 + 2 * usize::from(record[5].min(4)),
        (1, _) => 5,
        _ => 7,
    }
}

/// A kind as the doors have it, and the mark of a file.
fn kind_byte(kind: FileKind) -> u8 {
    match kind {
        FileKind::First => 1,
        FileKind::Second => 2,
        FileKind::Third => 3,
    }
}

fn mark(kind: FileKind) -> &'static [u8] {
    match kind {
        FileKind::First => &[],
        FileKind::Second => &second::MARK,
        FileKind::Third => &third::MARK,
    }
}

/// A table by its true count, with the records that there is room for.
#[derive(Clone, Debug, Default, PartialEq, Eq)]
pub struct Table {
    pub count: u16,
    pub records: Vec<Vec<u8>>,
}

/// The kind, the horizon field, and the tables of devices, tasks and jobs.
#[derive(Clone, Debug, Default, PartialEq, Eq)]
pub struct Given {
    pub kind: FileKind,
    pub horizon: u16,
    pub tables: [Table; 3],
}

/// What is given on success: the horizon, and bytes.
pub type Written = Result<(u16, Vec<u8>), Refusal>;

impl Given {
    pub fn of(tables: &Tables) -> Given {
        let file = tables.bytes();
        let lengths = [tables.devices.len(), tables.tasks.len(), tables.jobs.len()];
        let table = |part: usize| {
            let from = tables.count_places()[part] + 1;
            let size = size(FileKind::First, part, &[]);
            let records = file[from..].chunks(size).map(<[u8]>::to_vec);
            Table {
                count: lengths[part] as u16,
                records: records.take(lengths[part].min(MOST[part])).collect(),
            }
        };
        Given {
            kind: FileKind::First,
            horizon: tables.horizon,
            tables: [table(0), table(1), table(2)],
        }
    }

    pub fn of_second(second: &Second) -> Given {
        let mut given = Given::of(&second.tables);
        given.kind = FileKind::Second;
        given.tables[0].records = second.records();
        given.tables[0].records.truncate(MOST[0]);
        given
    }

    /// Of a device with too many levels four are listed.
    pub fn of_third(third: &Third) -> Given {
        let mut given = Given::of(&third.tables);
        given.kind = FileKind::Third;
        given.tables[0].records = third.records();
        given.tables[0].records.truncate(MOST[0]);
        for record in &mut given.tables[0].records {
            record.resize(size(FileKind::Third, 0, record), 0);
        }
        given
    }

    /// As the doors take tables: kind, horizon field, counts, records.
    pub fn bytes(&self) -> Vec<u8> {
        let mut bytes = vec![kind_byte(self.kind)];
        bytes.extend(self.horizon.to_be_bytes());
        for table in &self.tables {
            bytes.extend(table.count.to_be_bytes());
        }
        for table in &self.tables {
            bytes.extend(table.records.concat());
        }
        bytes
    }

    /// The other way. The bytes are those of tables.
    pub fn of_bytes(bytes: &[u8]) -> Given {
        let pair = |at: usize| u16::from_be_bytes([bytes[at], bytes[at + 1]]);
        let kinds = [FileKind::First, FileKind::Second, FileKind::Third];
        let kind = kinds[usize::from(bytes[0]) - 1];
        let mut rest = &bytes[9..];
        let mut table = |part: usize| {
            let count = pair(3 + 2 * part);
            let mut records = Vec::new();
            for _ in 0..usize::from(count).min(MOST[part]) {
                let (record, others) = rest.split_at(size(kind, part, rest));
                records.push(record.to_vec());
                rest = others;
            }
            Table { count, records }
        };
        Given {
            kind,
            horizon: pair(1),
            tables: [table(0), table(1), table(2)],
        }
    }

    /// What follows the mark in the file that the tables make. A count that no byte holds stands as 255, which is refused as
    /// it is, before any record that there would be.
    fn layout(&self) -> Vec<u8> {
        let mut file = self.horizon.to_be_bytes().to_vec();
        for table in &self.tables {
            file.push(table.count.min(255) as u8);
            file.extend(table.records.concat());
        }
        file
    }
}

/// The file that the tables make, if the reader of their kind accepts it: first-kind tables with the
/// horizon field FF02 are of the first kind all the same.
pub fn written(given: &Given) -> Written {
    let layout = given.layout();
    let request = read_as(given.kind, &layout)?;
    Ok((request.horizon as u16, [mark(given.kind), &layout].concat()))
}

/// Where the file that the tables make is refused, if it is.
pub fn fault(given: &Given) -> Option<Fault> {
    fault_as(given.kind, &given.layout(), mark(given.kind).len())
}

/// The tables of a file, as bytes.
pub fn listed(file: &[u8]) -> Written {
    let (kind, file) = unmarked(file);
    let request = read_as(kind, file)?;
    let mut at = 2;
    let mut counts = Vec::new();
    let mut records = Vec::new();
    for part in 0..3 {
        let count = file[at];
        counts.extend([0, count]);
        at += 1;
        for _ in 0..count {
            let end = at + size(kind, part, &file[at..]);
            records.extend(&file[at..end]);
            at = end;
        }
    }
    let bytes = [&[kind_byte(kind)], &file[..2], &counts, &records].concat();
    Ok((request.horizon as u16, bytes))
}

/// Tables of any kind, valid ones and such with faults: in a record, in a count, in the horizon
/// field.
pub fn draw(random: &mut Random) -> Given {
    let kind = random.pick(&[FileKind::First, FileKind::Second, FileKind::Third]);
    draw_of(random, kind)
}

/// Of one kind only.
pub fn draw_of(random: &mut Random, kind: FileKind) -> Given {
    let mut tables = match random.within(1, 7) {
        1 => valid::job_list(random),
        2 => valid::task_list(random),
        3 => valid::tight_list(random),
        4 => valid::crowded_list(random),
        5 => valid::long_list(random),
        6 => valid::many_devices(random),
        _ => valid::long_tasks(random),
    };
    for _ in 0..random.pick(&[0, 0, 1, 1, 2]) {
        let number = random.pick(&faults::NUMBERS);
        faults::put(random, &mut tables, number);
    }
    let mut given = match kind {
        FileKind::First => Given::of(&tables),
        FileKind::Second => Given::of_second(&apart(random, tables)),
        FileKind::Third => {
            let mut third = deepened(random, tables);
            if random.one_in(6) {
                third::spoil(random, &mut third);
            }
            Given::of_third(&third)
        }
    };
    match random.within(1, 8) {
        1 => {
            let part = random.index(3);
            let count = random.pick(&[0, 1, 8, 9, 16, 17, 255, 256, 257, 264, 512, 65_535]);
            recount(random, &mut given, part, count);
        }
        2 => {
            let part = random.index(3);
            let table = &mut given.tables[part];
            if !table.records.is_empty() {
                let place = random.index(table.records.len());
                let record = &mut table.records[place];
                let length = record.len();
                record[random.index(length)] = random.u8(0, 255);
                // Another level count has other powers with it.
                record.resize(size(kind, part, record), 0);
            }
        }
        3 => given.horizon = random.pick(&[0, 1, 4_096, 4_097, 0xFF02, 0xFF03, 65_535]),
        _ => {}
    }
    given
}

/// Another count, with the records that go with it, as many as there is room for.
fn recount(random: &mut Random, given: &mut Given, part: usize, count: u16) {
    let table = &mut given.tables[part];
    table.count = count;
    let length = usize::from(count).min(MOST[part]);
    table.records.truncate(length);
    while table.records.len() < length {
        let mut record = random.bytes(14);
        record.truncate(size(given.kind, part, &record));
        table.records.push(record);
    }
}

#[cfg(test)]
mod tests {
    use super::*;
    use crate::cases::tables::{device_a, job, task};

    fn small() -> Tables {
        Tables {
            horizon: 5,
            devices: vec![device_a()],
            tasks: Vec::new(),
            jobs: vec![job(0, 5, 2, 1)],
        }
    }

    #[test]
    fn the_file_is_that_of_the_cases() {
        let given = Given::of(&small());
        assert_eq!(written(&given), Ok((5, small().bytes())));
        assert_eq!(listed(&small().bytes()), Ok((5, given.bytes())));
        let tasks = Tables {
            tasks: vec![task(4, 1, 0), task(6, 2, 0)],
            ..Tables::default()
        };
        assert_eq!(written(&Given::of(&tasks)), Ok((12, tasks.bytes())));
    }

    /// Figure a11; and a horizon field that looks like a mark: 10, or 11 with tasks.
    #[test]
    fn the_kind_is_what_the_tables_say() {
        let mut devices = vec![device_a()];
        (devices[0].working, devices[0].moving) = (9, 4);
        let tables = Tables {
            horizon: 5,
            devices,
            ..Tables::default()
        };
        let second = Second {
            tables,
            shuts: vec![(3, 2)],
        };
        let given = Given::of_second(&second);
        assert_eq!(written(&given), Ok((5, second.bytes())));
        assert_eq!(listed(&second.bytes()), Ok((5, given.bytes())));
        let mut marked = Given::of(&small());
        marked.horizon = 0xFF02;
        assert_eq!(written(&marked), Err(10));
        let tasks = Tables {
            horizon: 0xFF02,
            tasks: vec![task(4, 1, 0)],
            ..Tables::default()
        };
        assert_eq!(written(&Given::of(&tasks)), Err(11));
    }

    #[test]
    fn a_count_is_never_cut_to_a_byte() {
        for count in [17, 255, 256, 257, 264, 65_535] {
            for (part, number) in [(0, 3), (1, 6), (2, 12)] {
                let mut given = Given::of(&small());
                recount(&mut Random::new(1, 1), &mut given, part, count);
                let first = given.tables[part].records[0].clone();
                given.tables[part].records.fill(first);
                assert_eq!(written(&given), Err(number), "{count}");
            }
        }
    }

    #[test]
    fn every_number_but_1_and_2_is_met() {
        let mut met = [0; 27];
        for number in 0..5_000 {
            let given = draw(&mut Random::new(12, number));
            match written(&given) {
                Ok((_, file)) => {
                    assert_eq!(listed(&file).unwrap().1, given.bytes());
                    met[0] += 1;
                }
                Err(number) => met[usize::from(number)] += 1,
            }
        }
        let numbers = (0..27).filter(|&number| met[number] >= 30);
        let expected = [0].into_iter().chain(3..=13).chain([26]);
        assert!(numbers.eq(expected), "{met:?}");
    }
}
