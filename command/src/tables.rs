//! What a request says, as tables: the horizon field, and the records of devices, tasks and jobs.
//! Nothing is judged here.

use crate::kinds::{self, Kind, FIRST, JOB, TASK};

/// How many devices, tasks and jobs tables hold; of more there is only the count.
pub const MOST_DEVICES: usize = 8;
pub const MOST_TASKS: usize = 8;
pub const MOST_JOBS: usize = 16;

/// A table by its true count, with the records that there is room for.
#[derive(Clone, Debug, Default, PartialEq, Eq)]
pub struct Table {
    pub count: usize,
    pub records: Vec<Vec<u8>>,
}

impl Table {
    /// One record more, which is kept as long as there is room.
    pub fn add(&mut self, record: Vec<u8>, most: usize) {
        self.count += 1;
        if self.records.len() < most {
            self.records.push(record);
        }
    }
}

#[derive(Clone, Debug)]
pub struct Tables {
    pub kind: &'static Kind,
    pub horizon: u16,
    pub devices: Table,
    pub tasks: Table,
    pub jobs: Table,
}

impl Tables {
    pub fn empty() -> Tables {
        Tables {
            kind: &FIRST,
            horizon: 0,
            devices: Table::default(),
            tasks: Table::default(),
            jobs: Table::default(),
        }
    }

    /// As the library takes tables (include/floebucket.h). A count that two bytes do not hold is refused
    /// as the largest that they do.
    pub fn bytes(&self) -> Vec<u8> {
        let mut bytes = vec![self.kind.number];
        bytes.extend(self.horizon.to_be_bytes());
        let tables = [&self.devices, &self.tasks, &self.jobs];
        for table in tables {
            let count = u16::try_from(table.count).unwrap_or(u16::MAX);
            bytes.extend(count.to_be_bytes());
        }
        for table in tables {
            bytes.extend(table.records.concat());
        }
        bytes
    }

    /// From the bytes in which the library gives the tables of a file.
    pub fn of_bytes(bytes: &[u8]) -> Tables {
        let mut rest = bytes;
        let kind = Kind::by_number(number(&mut rest, 1)).unwrap_or(&FIRST);
        let horizon = number(&mut rest, 2) as u16;
        let [devices, tasks, jobs] = [(); 3].map(|()| number(&mut rest, 2) as usize);
        let mut table = |count: usize, most: usize, size: &dyn Fn(&[u8]) -> usize| Table {
            count,
            records: (0..count.min(most))
                .map(|_| {
                    let length = size(rest);
                    taken(&mut rest, length).to_vec()
                })
                .collect(),
        };
        Tables {
            kind,
            horizon,
            devices: table(devices, MOST_DEVICES, &|rest| kind.device_size(rest)),
            tasks: table(tasks, MOST_TASKS, &|_| kinds::size(&TASK)),
            jobs: table(jobs, MOST_JOBS, &|_| kinds::size(&JOB)),
        }
    }

    /// The file that the tables make, whether or not it is accepted. It serves to say in words what is at
    /// fault: files that are kept are the library's. A count that one byte does not hold stands as 255.
    pub fn laid_out(&self) -> Vec<u8> {
        let mut file = self.kind.marker.to_vec();
        file.extend(self.horizon.to_be_bytes());
        for table in [&self.devices, &self.tasks, &self.jobs] {
            file.push(u8::try_from(table.count).unwrap_or(u8::MAX));
            file.extend(table.records.concat());
        }
        file
    }
}

/// The next bytes, as many as there are.
fn taken<'a>(rest: &mut &'a [u8], count: usize) -> &'a [u8] {
    let (front, after) = rest.split_at(count.min(rest.len()));
    *rest = after;
    front
}

/// The number in the next bytes.
fn number(rest: &mut &[u8], count: usize) -> u32 {
    let bytes = taken(rest, count).iter();
    bytes.fold(0, |number, &byte| number << 8 | u32::from(byte))
}

#[cfg(test)]
mod tests {
    use super::*;
    use crate::kinds::SECOND;

    #[test]
    fn tables_come_back_from_their_bytes() {
        let mut tables = Tables::empty();
        tables.horizon = 0x0203;
        tables.devices.add(vec![1, 0, 5, 0, 1, 0, 3], MOST_DEVICES);
        tables.jobs.add(vec![0, 0, 0, 5, 0, 2, 1], MOST_JOBS);
        let back = Tables::of_bytes(&tables.bytes());
        assert_eq!(back.bytes(), tables.bytes());
        assert_eq!(back.laid_out().len(), 19);
    }

    #[test]
    fn the_kind_says_how_long_a_device_is() {
        let mut tables = Tables::empty();
        tables.kind = &SECOND;
        let device = vec![1, 3, 0, 9, 0, 1, 0, 4, 0, 2];
        tables.devices.add(device.clone(), MOST_DEVICES);
        tables.tasks.add(vec![0, 4, 0, 1, 0], MOST_TASKS);
        let back = Tables::of_bytes(&tables.bytes());
        assert_eq!(back.bytes(), tables.bytes());
        assert_eq!(back.devices.records, [device]);
        assert_eq!(back.laid_out()[..5], [0xFF, 2, 0, 0, 1]);
    }

    #[test]
    fn counts_are_never_cut_to_fewer_bits() {
        let mut tables = Tables::empty();
        for _ in 0..70_000 {
            tables.jobs.add(vec![0; 7], MOST_JOBS);
        }
        assert_eq!(tables.bytes()[7..9], [255, 255]);
        assert_eq!(tables.laid_out()[4], 255);
        assert_eq!(tables.jobs.records.len(), MOST_JOBS);
    }
}
